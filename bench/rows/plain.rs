//! The same counting sort in plain Rust: prints the best of five in microseconds.

#[path = "../shared.rs"]
mod shared;

use shared::{FIRST_DRAW, Rows, random_arcs};
use std::hint::black_box;
use std::time::Instant;

const VERTICES: u32 = 1048576;
const ARCS: usize = 8_000_000;

fn main() {
    let arcs = random_arcs(&mut { FIRST_DRAW }, VERTICES, ARCS);
    let mut best = u128::MAX;
    for _ in 0..5 {
        let start = Instant::now();
        let rows = black_box(Rows::build(VERTICES as usize, black_box(&arcs)));
        best = best.min(start.elapsed().as_micros());
        assert!(rows.row(0).iter().all(|target| target.head < VERTICES && target.weight < 1000));
    }
    println!("{best}");
}
