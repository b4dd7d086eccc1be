//! Calls through a trait object, a closure and a generic function, which then wait.
use std::arch::asm;
use std::hint::black_box;

/// The system call pause(2), without a call of a function.
#[inline(always)]
fn wait_here() {
    // SAFETY: the call has no arguments, and the kernel writes RAX, RCX and R11 alone.
    unsafe { asm!("syscall", inout("rax") 34i64 => _, out("rcx") _, out("r11") _) }
}

trait Shape {
    fn area(&self, scale: u64) -> u64;
}

struct Square {
    side: u64,
}

impl Shape for Square {
    #[inline(never)]
    fn area(&self, scale: u64) -> u64 {
        wait_here();
        self.side * self.side * scale
    }
}

#[inline(never)]
fn sum_of<F: Fn(&dyn Shape) -> u64>(shapes: &[Box<dyn Shape>], area: F) -> u64 {
    shapes.iter().map(|shape| area(shape.as_ref()) + 1).sum()
}

fn main() {
    let shapes: Vec<Box<dyn Shape>> = vec![Box::new(Square { side: black_box(3) })];
    let scale = black_box(2);
    println!("{}", sum_of(&shapes, |shape| shape.area(scale) * 2));
}
