//! As many threads as its word asks, each in closures, a trait's method and an iterator of another depth, and then
//! `process::abort` within an iterator. With the second word `overflow` a recursion without an end does that.
use std::sync::{Arc, Barrier};
use std::thread::Builder;
use std::time::Duration;

trait Shape {
    fn area(&self, depth: u64) -> u64;
}

struct Square {
    side: u64,
    all_there: Arc<Barrier>,
}

impl Shape for Square {
    #[inline(never)]
    fn area(&self, depth: u64) -> u64 {
        (0..2)
            .map(|turn| {
                if depth == 0 {
                    self.stop()
                } else if turn == 0 {
                    self.area(depth - 1)
                } else {
                    turn
                }
            })
            .sum::<u64>()
            * self.side
    }
}

impl Square {
    #[inline(never)]
    fn stop(&self) -> u64 {
        self.all_there.wait();
        std::thread::sleep(Duration::from_secs(1000));
        1
    }
}

#[inline(never)]
#[allow(unconditional_recursion)]
fn descend(depth: u64) -> u64 {
    let room = std::hint::black_box([depth; 64]);
    descend(depth + 1) + std::hint::black_box(room)[1]
}

#[inline(never)]
fn ends() -> u64 {
    [3u64, 1, 2]
        .iter()
        .filter(|number| **number > 0)
        .map(|number| {
            if *number == 1 {
                std::process::abort()
            } else {
                *number
            }
        })
        .sum()
}

fn main() {
    let words: Vec<String> = std::env::args().collect();
    let number: usize = words.get(1).map_or(10, |word| word.parse().unwrap());
    let all_there = Arc::new(Barrier::new(number));
    for index in 1..number {
        let all_there = Arc::clone(&all_there);
        let depth = index as u64 % 10;
        let shape: Box<dyn Shape + Send> = Box::new(Square { side: 2, all_there });
        Builder::new()
            .stack_size(65536)
            .name(format!("depth {depth}"))
            .spawn(move || shape.area(depth))
            .unwrap();
    }
    all_there.wait();
    std::thread::sleep(Duration::from_millis(200));
    let end = if words.get(2).map(String::as_str) == Some("overflow") {
        descend(0)
    } else {
        ends()
    };
    std::process::exit(end as i32);
}
