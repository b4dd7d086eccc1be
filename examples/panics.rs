//! A panic that passes frames with values to drop and comes to a `catch_unwind`: once with no word after the program's name, with
//! one word it is resumed there and comes to a second, and with two it meets a function that may not unwind, and ends the process.
use std::arch::asm;
use std::hint::black_box;
use std::panic::{catch_unwind, resume_unwind};

/// The system call pause(2), without a call of a function.
#[inline(always)]
fn wait_here() {
    // SAFETY: the call has no arguments, and the kernel writes RAX, RCX and R11 alone.
    unsafe { asm!("syscall", inout("rax") 34i64 => _, out("rcx") _, out("r11") _) }
}

struct Noted(u64);

impl Drop for Noted {
    #[inline(never)]
    fn drop(&mut self) {
        println!("dropped {}", black_box(self.0));
    }
}

#[inline(never)]
fn thrower(number: u64) -> u64 {
    let _kept = Noted(number);
    wait_here();
    if black_box(number) > 0 {
        panic!("at {}", number);
    }
    number
}

#[inline(never)]
fn inner(number: u64) -> u64 {
    let kept = Noted(10);
    let found = thrower(number);
    found + kept.0
}

#[inline(never)]
extern "C" fn quiet(number: u64) -> u64 {
    let kept = Noted(30);
    inner(number) + kept.0
}

#[inline(never)]
fn catcher(number: u64) -> u64 {
    let kept = Noted(20);
    match catch_unwind(|| if number > 2 { quiet(number) } else { inner(number) }) {
        Ok(found) => found + kept.0,
        Err(cause) if number > 1 => resume_unwind(cause),
        Err(_) => kept.0,
    }
}

fn main() {
    let number = std::env::args().count() as u64;
    println!("{}", catch_unwind(|| catcher(number)).unwrap_or(30));
}
