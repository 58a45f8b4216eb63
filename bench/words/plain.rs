//! The same sweeps in plain Rust, over the same words on plain atomics: prints the same lines. Built with
//! `--cfg tested`, a label is loaded before its `fetch_min`, which is left out where it wouldn't fall.

#[path = "../shared.rs"]
mod shared;

use shared::{FIRST_DRAW, Rows, next, random_arcs};
use std::sync::atomic::AtomicU64;
use std::sync::atomic::Ordering::SeqCst;
use std::thread;
use std::time::Instant;

const VERTICES: usize = 1048576;
const ARCS: usize = 8_000_000;
const START_LIMIT: u64 = 4000;
const REPETITIONS: usize = 3;

// Word 0 is the pending total, word 2v + 1 the label of v, and word 2v + 2 its mark. All are marked.
fn open(starts: &[u64]) -> Vec<AtomicU64> {
    let mut words = Vec::with_capacity(2 * starts.len() + 1);
    words.push(AtomicU64::new(starts.len() as u64));
    for &start in starts {
        words.push(AtomicU64::new(start));
        words.push(AtomicU64::new(1));
    }
    words
}

// Lowers a label to an offer, and says whether it fell.
fn lower(label: &AtomicU64, offer: u64) -> bool {
    if cfg!(tested) && label.load(SeqCst) <= offer {
        return false;
    }
    offer < label.fetch_min(offer, SeqCst)
}

// Visits a vertex if it is marked, and answers how many labels fell.
fn visit(words: &[AtomicU64], rows: &Rows, u: usize) -> u64 {
    if words[2 * u + 2].swap(0, SeqCst) == 0 {
        return 0;
    }
    let mut credits = 1;
    let mut lowered = 0;
    let label = words[2 * u + 1].load(SeqCst);
    for target in rows.row(u) {
        let head = target.head as usize;
        let offer = label.saturating_add(u64::from(target.weight));
        if lower(&words[2 * head + 1], offer) {
            lowered += 1;
            if credits == 1 {
                words[0].fetch_add(1, SeqCst);
            }
            let new = words[2 * head + 2].swap(1, SeqCst) == 0;
            credits = if new { 1 } else { 2 };
        }
    }
    words[0].fetch_sub(credits, SeqCst);
    lowered
}

fn sweep(words: &[AtomicU64], rows: &Rows, from: usize, to: usize) -> u64 {
    (from..to).map(|u| visit(words, rows, u)).sum()
}

// The same by several threads, each with an equal range.
fn sweep_by(threads: usize, words: &[AtomicU64], rows: &Rows) -> u64 {
    let size = VERTICES / threads;
    thread::scope(|scope| {
        let others: Vec<_> =
            (1..threads).map(|i| scope.spawn(move || sweep(words, rows, i * size, (i + 1) * size))).collect();
        let first = sweep(words, rows, 0, size);
        first + others.into_iter().map(|other| other.join().unwrap()).sum::<u64>()
    })
}

// Times a sweep and prints its line.
fn time(name: &str, threads: usize, words: &[AtomicU64], rows: &Rows) {
    let start = Instant::now();
    let lowered = sweep_by(threads, words, rows);
    println!("{name} {} {lowered}", start.elapsed().as_micros());
}

fn main() {
    let mut draw = FIRST_DRAW;
    let rows = Rows::build(VERTICES, &random_arcs(&mut draw, VERTICES as u32, ARCS));
    let random: Vec<u64> = (0..VERTICES).map(|_| next(&mut draw) % START_LIMIT).collect();
    let zeros = vec![0; VERTICES];
    for _ in 0..REPETITIONS {
        // Here a lent sweep is a sweep.
        for (name, threads) in [("threads-1", 1), ("threads-2", 2), ("threads-4", 4), ("lent", 1)] {
            time(name, threads, &open(&random), &rows);
        }
        let words = open(&zeros);
        time("kept", 1, &words, &rows);
        time("unmarked", 1, &words, &rows);
    }
}
