//! Exceptions that pass functions of two languages: a panic of Rust through C++ (mixed.cpp), and an exception of C++ through Rust. The
//! program's argument says who throws and who catches.
use std::hint::black_box;
use std::panic::catch_unwind;

type Call = extern "C-unwind" fn(i32);

unsafe extern "C-unwind" {
    fn cxx_passes(call: Call, number: i32) -> i32;
    fn cxx_catches(call: Call, number: i32) -> i32;
    fn cxx_throws(number: i32);
}

struct Noted(i32);

impl Drop for Noted {
    #[inline(never)]
    fn drop(&mut self) {
        black_box(self.0);
    }
}

extern "C-unwind" fn panics(number: i32) {
    let _kept = Noted(number);
    if black_box(number) > 0 {
        panic!("at {number}");
    }
}

extern "C-unwind" fn passes(number: i32) {
    let _kept = Noted(number);
    // SAFETY: the function takes every number.
    unsafe { cxx_throws(number) }
}

#[inline(never)]
fn through_cxx(number: i32) -> i32 {
    let kept = Noted(number + 1);
    // SAFETY: the function takes every function and number.
    let found = unsafe { cxx_passes(panics, number) };
    found + kept.0
}

fn main() {
    let way = std::env::args().nth(1).unwrap_or_default();
    // SAFETY: as above.
    unsafe {
        match way.as_str() {
            "rust-cxx-rust" => println!("{}", catch_unwind(|| through_cxx(1)).is_err()),
            "rust-cxx" => println!("{}", cxx_catches(panics, 1)),
            "cxx-rust-cxx" => println!("{}", cxx_catches(passes, 1)),
            "cxx-rust" => println!("{}", catch_unwind(|| cxx_throws(1)).is_err()),
            _ => {}
        }
    }
}
