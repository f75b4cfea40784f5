//! How long an `Arc` clone and drop take, by 1, 2 and 4 threads that share one `Arc`. Arguments: rounds of each thread, runs.

use std::env;
use std::hint::black_box;
use std::sync::Arc;
use std::thread;
use std::time::Instant;

fn number(place: usize, default: u32) -> u32 {
    env::args()
        .nth(place)
        .and_then(|word| word.parse().ok())
        .unwrap_or(default)
}

fn nanoseconds(threads: usize, rounds: u32) -> u64 {
    let shared = Arc::new(7u64);
    let begin = Instant::now();
    thread::scope(|scope| {
        for _ in 0..threads {
            let mine = &shared;
            scope.spawn(move || {
                for _ in 0..rounds {
                    drop(black_box(Arc::clone(black_box(mine))));
                }
            });
        }
    });
    begin.elapsed().as_nanos() as u64
}

fn main() {
    let rounds = number(1, 4_000_000);
    let runs = number(2, 5);
    for threads in [1, 2, 4] {
        let best = (0..runs).map(|_| nanoseconds(threads, rounds)).min();
        println!("arc clone + drop, {threads} threads: {} ps a round", best.unwrap() * 1000 / u64::from(rounds));
    }
}
