//! The shortest time of several calls, taken in turn.

use std::hint::black_box;
use std::time::{Duration, Instant};

extern "C" {
    /// Of the C library.
    fn mallopt(parameter: i32, value: i32) -> i32;
}

const M_TRIM_THRESHOLD: i32 = -1;
const M_MMAP_THRESHOLD: i32 = -3;

/// From here on the process keeps what is freed, but for blocks of 32 MiB and more: otherwise it
/// would turn on earlier calls whether a call asks the system for its memory.
pub fn keep_memory() {
    unsafe {
        mallopt(M_MMAP_THRESHOLD, 32 << 20);
        mallopt(M_TRIM_THRESHOLD, 1 << 30);
    }
}

const SWEEPS: usize = 4;
const LEAST_ROUNDS: usize = 2;
const MOST_ROUNDS: usize = 2_000;
const ENOUGH: Duration = Duration::from_millis(400);

/// What an action came to is dropped after the clock is read.
pub fn timed<T>(action: impl FnOnce() -> T) -> Duration {
    let start = Instant::now();
    let result = black_box(action());
    let time = start.elapsed();
    drop(result);
    time
}

/// Runs the actions one after the other, again and again; gives the shortest time of each.
pub fn shortest<const N: usize>(mut actions: [&mut dyn FnMut() -> Duration; N]) -> [Duration; N] {
    let mut best = [Duration::MAX; N];
    let start = Instant::now();
    for round in 0..MOST_ROUNDS {
        if round >= LEAST_ROUNDS && start.elapsed() > ENOUGH {
            break;
        }
        for (best, action) in best.iter_mut().zip(&mut actions) {
            *best = action().min(*best);
        }
    }
    best
}

/// Times all items, and then all of them again, some times over, since a machine that others use
/// can be slow for seconds; gives the shortest times of each item.
pub fn swept<T, const N: usize>(
    items: &[T],
    time: impl Fn(&T) -> [Duration; N],
) -> Vec<[Duration; N]> {
    let mut best = vec![[Duration::MAX; N]; items.len()];
    for _ in 0..SWEEPS {
        for (best, item) in best.iter_mut().zip(items) {
            for (best, time) in best.iter_mut().zip(time(item)) {
                *best = time.min(*best);
            }
        }
    }
    best
}

/// In milliseconds.
pub fn ms(time: Duration) -> String {
    format!("{:.3}", time.as_secs_f64() * 1e3)
}

pub fn ratio(time: Duration, rust: Duration) -> String {
    format!("{:.2}", time.as_secs_f64() / rust.as_secs_f64())
}
