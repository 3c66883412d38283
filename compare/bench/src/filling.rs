//! Filling the millimetres, beside a plain loop in Rust over the same vertices.
//!
//! The library exports no function that only fills: filling is the last pass of Build, and compiled
//! into it. So a whole Build runs, and the clock is read within it where filling begins: the first
//! page of the millimetres is closed to writing, and the fault at the first store to it reads the
//! clock and opens the page. From there to Build's return it is filling alone, in one run and not as
//! a difference of two, but for the numbers before that page, under 512 of many millions, and the
//! fault itself, some microseconds.

use std::hint::black_box;
use std::sync::atomic::{AtomicPtr, AtomicU64, Ordering::Relaxed};
use std::sync::OnceLock;
use std::time::{Duration, Instant};

use library::calls::{self, Buffers};
use reference::millimetre::plain;

use crate::building::library;
use crate::scenes::largest;
use crate::timing::{ms, ratio, shortest, swept, timed};

const NAME: &str = "filling, the vertices of the 16 MiB scene";

struct Line {
    scene: Vec<u8>,
    vertices: Vec<f32>,
}

pub fn table(only: &str) {
    println!("| millimetres | coordinates | Rust ms | Rust, widening only, ms | filling in Build ms | filling / Rust | filling / widening |");
    println!("|---|--:|--:|--:|--:|--:|--:|");
    if NAME.contains(only) {
        let lines = [line()];
        for (line, times) in lines.iter().zip(swept(&lines, time)) {
            println!("{}", text(line, times));
        }
    }
    println!();
}

/// The plain loop gives what the library gives.
fn line() -> Line {
    let scene = largest();
    let built = library(&scene);
    let vertices: Vec<f32> = built.floats[0].iter().map(|&x| f32::from_bits(x)).collect();
    let mut list = vec![0; vertices.len()];
    fill(&vertices, &mut list, plain);
    assert!(
        list == built.millimetres,
        "the library differs from the plain loop"
    );
    Line { scene, vertices }
}

fn time(line: &Line) -> [Duration; 3] {
    let mut lent = library(&line.scene);
    let mut list = lent.millimetres.clone();
    let mut other = list.clone();
    shortest([
        &mut || timed(|| fill(&line.vertices, &mut list, plain)),
        // The same memory read and written: an f32's bits as an i64.
        &mut || timed(|| fill(&line.vertices, &mut other, |x| i64::from(x.to_bits()))),
        &mut || filling_in_build(&line.scene, &mut lent),
    ])
}

fn fill(vertices: &[f32], list: &mut [i64], number: impl Fn(f32) -> i64) {
    for (entry, &x) in list.iter_mut().zip(vertices) {
        *entry = number(x);
    }
    black_box(list);
}

fn text(line: &Line, times: [Duration; 3]) -> String {
    let [rust, widening, filling] = times;
    let ratios = [rust, widening]
        .map(|side| ratio(filling, side))
        .join(" | ");
    let times = times.map(ms).join(" | ");
    format!("| {NAME} | {} | {times} | {ratios} |", line.vertices.len())
}

// ---- the clock within Build

extern "C" {
    /// Of the C library.
    fn mprotect(address: *mut u8, length: usize, access: i32) -> i32;
    fn signal(number: i32, action: Option<extern "C" fn(i32)>) -> usize;
}

const SIGSEGV: i32 = 11;
const PAGE: usize = 4096;
const READ: i32 = 1;
const READ_AND_WRITE: i32 = 3;

static CLOSED: AtomicPtr<u8> = AtomicPtr::new(std::ptr::null_mut());
static FIRST_STORE: AtomicU64 = AtomicU64::new(0);

/// Since the first call.
fn nanoseconds() -> u64 {
    static START: OnceLock<Instant> = OnceLock::new();
    START.get_or_init(Instant::now).elapsed().as_nanos() as u64
}

/// At the fault. Another one ends the program, as it would without this.
extern "C" fn first_store(_: i32) {
    FIRST_STORE.store(nanoseconds(), Relaxed);
    unsafe {
        signal(SIGSEGV, None);
        mprotect(CLOSED.load(Relaxed), PAGE, READ_AND_WRITE);
    }
}

fn filling_in_build(scene: &[u8], lent: &mut Buffers) -> Duration {
    let start: *mut u8 = lent.millimetres.as_mut_ptr().cast();
    let page = start.wrapping_add(start.align_offset(PAGE));
    CLOSED.store(page, Relaxed);
    FIRST_STORE.store(u64::MAX, Relaxed);
    nanoseconds();
    unsafe {
        signal(SIGSEGV, Some(first_store));
        assert_eq!(mprotect(page, PAGE, READ), 0);
    }
    let answer = calls::build(scene, lent);
    let end = nanoseconds();
    assert_eq!(answer.refusal, 0);
    let begin = FIRST_STORE.load(Relaxed);
    assert!(begin < end, "Build did not fill the page");
    Duration::from_nanos(end - begin)
}
