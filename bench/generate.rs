//! Writes a large job to standard output: `generate KIND SIZE [SOURCES [SEED]]`.
//!
//! Grids:
//!
//! - `grid SIDE`: a square of SIDE by SIDE crossings with streets both ways, as a road map has them;
//! - `cut SIDE`: the same with a tenth of the vertices cut off, which no arc touches;
//! - `zero SIDE`, `unit SIDE`, `greatest SIDE`: the same with all weights 0, 1 or 2^32 - 1;
//! - `spike SIDE`: the same with weights from 1 to 9 and one arc more, of weight 2^32 - 1, from the first
//!   vertex to the last;
//! - `near SIDE`: a grid with weights from 1000 to 9000, and from its last vertex an arc to the first of a
//!   grid with weights from 1 to 9;
//! - `far SIDE`: the same, and the grid with the small weights is the first.
//!
//! A map:
//!
//! - `towns VERTICES`: towns of many sizes, few of them great, with gaps between their streets, rivers with few
//!   bridges, roads to the five nearest towns and motorways. One street in twenty is one way, and weights are
//!   tenths of a second. Vertices are numbered as in a file that grew: 64 side by side, and these in no order.
//!
//! Other graphs:
//!
//! - `random ARCS`: many arcs among ARCS / 8 vertices, with small weights;
//! - `power SCALE`: 2^SCALE vertices and 16 arcs for each, most of them at few vertices, as in the
//!   Graph500 and GAP benchmarks;
//! - `path LENGTH`: LENGTH arcs one after another;
//! - `mixed LENGTH`: the same path, with the vertices numbered in no order;
//! - `star VERTICES`: arcs from the first vertex to all others;
//! - `cliques COUNT`: COUNT groups of ten vertices, with arcs from each to each other of its group;
//! - `lonely VERTICES`: vertices and no arc.
//!
//! Sources are drawn from all vertices; for `power` from those that arcs leave, as GAP draws them, and for
//! `cut` from those that are not cut off. For `near`, `far` and `star` it is the first vertex, and for `path`
//! and `mixed` the one where the path begins. The numbers are drawn by a fixed rule, so each run writes the
//! same job. Another SEED than 0 gives another map of `towns`.

mod grids;
mod roads;
mod town;
mod towns;

use grids::{between, cut, grid, joined, lengths, spike};
use std::io::{self, BufWriter, Write};
use towns::towns;

/// Knuth's multiplier and increment for numbers of 64 bits.
struct Draw(u64);

impl Draw {
    fn below(&mut self, bound: u64) -> u64 {
        self.0 = self.0.wrapping_mul(6364136223846793005).wrapping_add(1442695040888963407);
        (self.0 >> 33) % bound
    }
}

/// What sources are drawn from.
type Vertices = Vec<u64>;

fn all(vertices: u64) -> Vertices {
    (1..=vertices).collect()
}

fn random(out: &mut impl Write, arcs: u64) -> io::Result<Vertices> {
    let mut draw = Draw(2);
    let vertices = (arcs / 8).max(1);
    writeln!(out, "p sp {vertices} {arcs}")?;
    for _ in 0..arcs {
        let tail = draw.below(vertices) + 1;
        let head = draw.below(vertices) + 1;
        writeln!(out, "a {tail} {head} {}", draw.below(256))?;
    }
    Ok(all(vertices))
}

/// The numbers from 1 to `count` in an order drawn at random.
fn shuffled(draw: &mut Draw, count: u64) -> Vertices {
    let mut numbers = all(count);
    for last in (1..count).rev() {
        numbers.swap(last as usize, draw.below(last + 1) as usize);
    }
    numbers
}

/// Both ends of an arc by the rule of R-MAT: each of their bits chooses a quarter of the matrix of all
/// arcs, with the chances 0.57, 0.19, 0.19 and 0.05.
fn ends(draw: &mut Draw, bits: u64) -> (usize, usize) {
    let (mut tail, mut head) = (0, 0);
    for _ in 0..bits {
        let (below, right) = match draw.below(100) {
            0..57 => (0, 0),
            57..76 => (0, 1),
            76..95 => (1, 0),
            _ => (1, 1),
        };
        tail = 2 * tail + below;
        head = 2 * head + right;
    }
    (tail, head)
}

fn power(out: &mut impl Write, scale: u64) -> io::Result<Vertices> {
    let mut draw = Draw(4);
    let vertices = 1 << scale;
    let arcs = 16 * vertices;
    // Else the vertices with the most arcs would stand side by side.
    let numbers = shuffled(&mut draw, vertices);
    let mut is_tail = vec![false; numbers.len() + 1];
    writeln!(out, "p sp {vertices} {arcs}")?;
    for _ in 0..arcs {
        let (tail, head) = ends(&mut draw, scale);
        let (tail, head) = (numbers[tail], numbers[head]);
        writeln!(out, "a {tail} {head} {}", 1 + draw.below(255))?;
        is_tail[tail as usize] = true;
    }
    Ok((1..=vertices).filter(|vertex| is_tail[*vertex as usize]).collect())
}

/// Arcs one after another, along vertices in this order.
fn path(out: &mut impl Write, order: &[u64]) -> io::Result<Vertices> {
    let mut draw = Draw(5);
    writeln!(out, "p sp {} {}", order.len(), order.len() - 1)?;
    for pair in order.windows(2) {
        writeln!(out, "a {} {} {}", pair[0], pair[1], 1 + draw.below(999))?;
    }
    Ok(vec![order[0]])
}

fn star(out: &mut impl Write, vertices: u64) -> io::Result<Vertices> {
    let mut draw = Draw(9);
    writeln!(out, "p sp {vertices} {}", vertices - 1)?;
    for head in 2..=vertices {
        writeln!(out, "a 1 {head} {}", 1 + draw.below(999))?;
    }
    Ok(vec![1])
}

fn cliques(out: &mut impl Write, count: u64) -> io::Result<Vertices> {
    let mut draw = Draw(10);
    writeln!(out, "p sp {} {}", 10 * count, 90 * count)?;
    for tail in 1..=10 * count {
        let first = tail - (tail - 1) % 10;
        for head in (first..first + 10).filter(|head| *head != tail) {
            writeln!(out, "a {tail} {head} {}", 1 + draw.below(999))?;
        }
    }
    Ok(all(10 * count))
}

fn lonely(out: &mut impl Write, vertices: u64) -> io::Result<Vertices> {
    writeln!(out, "p sp {vertices} 0")?;
    Ok(all(vertices))
}

/// Writes the graph, and gives what sources are drawn from.
fn graph(out: &mut impl Write, kind: &str, size: u64, seed: u64) -> io::Result<Vertices> {
    let (small, large) = (between(7, 1, 9), between(8, 1000, 9000));
    match kind {
        "grid" => grid(out, size, lengths()),
        "cut" => cut(out, size),
        "zero" => grid(out, size, || 0),
        "unit" => grid(out, size, || 1),
        "greatest" => grid(out, size, || u64::from(u32::MAX)),
        "spike" => spike(out, size),
        "near" => joined(out, size, large, small),
        "far" => joined(out, size, small, large),
        "towns" => towns(out, size, seed),
        "random" => random(out, size),
        "power" => power(out, size),
        "path" => path(out, &all(size + 1)),
        "mixed" => path(out, &shuffled(&mut Draw(11), size + 1)),
        "star" => star(out, size),
        "cliques" => cliques(out, size),
        "lonely" => lonely(out, size),
        _ => usage(),
    }
}

fn usage() -> ! {
    eprintln!("usage: generate KIND SIZE [SOURCES [SEED]], where KIND is one of");
    eprintln!("grid cut zero unit greatest spike near far towns random power path mixed star cliques lonely");
    std::process::exit(2);
}

fn main() -> io::Result<()> {
    let words: Vec<String> = std::env::args().skip(1).collect();
    let number = |at: usize| words.get(at).and_then(|word| word.parse::<u64>().ok());
    let (Some(kind), Some(size)) = (words.first(), number(1)) else { usage() };
    let mut out = BufWriter::with_capacity(1 << 20, io::stdout().lock());
    let vertices = graph(&mut out, kind, size, number(3).unwrap_or(0))?;
    let sources = number(2).unwrap_or(0);
    let mut draw = Draw(3);
    writeln!(out, "p aux sp ss {sources}")?;
    for _ in 0..sources {
        writeln!(out, "s {}", vertices[draw.below(vertices.len() as u64) as usize])?;
    }
    out.flush()
}
