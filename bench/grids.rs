//! Grids of crossings with streets both ways, which `generate` writes.

use crate::{Draw, Vertices, all};
use std::io::{self, Write};

/// A rule for weights: numbers drawn between two, both of them among the numbers.
pub fn between(seed: u64, least: u64, greatest: u64) -> impl FnMut() -> u64 {
    let mut draw = Draw(seed);
    move || least + draw.below(greatest - least + 1)
}

/// The lengths of streets on a road map.
pub fn lengths() -> impl FnMut() -> u64 {
    between(1, 200, 3199)
}

/// Which crossings a street joins, in a grid with this first vertex: to the right and then below of each.
fn streets(side: u64, first: u64) -> impl Iterator<Item = (u64, u64)> {
    (0..side * side).flat_map(move |at| {
        let here = first + at;
        let right = (at % side + 1 < side).then_some((here, here + 1));
        let below = (at / side + 1 < side).then_some((here, here + side));
        right.into_iter().chain(below)
    })
}

/// Writes streets, each as an arc there and one back, with weights by a rule.
fn pave(
    out: &mut impl Write,
    streets: impl Iterator<Item = (u64, u64)>,
    mut weight: impl FnMut() -> u64,
) -> io::Result<()> {
    for (here, there) in streets {
        let weight = weight();
        writeln!(out, "a {here} {there} {weight}\na {there} {here} {weight}")?;
    }
    Ok(())
}

pub fn grid(out: &mut impl Write, side: u64, weight: impl FnMut() -> u64) -> io::Result<Vertices> {
    writeln!(out, "p sp {} {}", side * side, 4 * side * (side - 1))?;
    pave(out, streets(side, 1), weight)?;
    Ok(all(side * side))
}

pub fn cut(out: &mut impl Write, side: u64) -> io::Result<Vertices> {
    let vertices = side * side;
    let mut draw = Draw(6);
    let is_cut: Vec<bool> = (0..=vertices).map(|_| draw.below(10) == 0).collect();
    let kept = |vertex: u64| !is_cut[vertex as usize];
    let left: Vec<_> = streets(side, 1).filter(|(here, there)| kept(*here) && kept(*there)).collect();
    writeln!(out, "p sp {vertices} {}", 2 * left.len())?;
    pave(out, left.into_iter(), lengths())?;
    Ok((1..=vertices).filter(|vertex| kept(*vertex)).collect())
}

pub fn spike(out: &mut impl Write, side: u64) -> io::Result<Vertices> {
    let vertices = side * side;
    let arcs = 4 * side * (side - 1);
    let mut weight = between(7, 1, 9);
    let mut streets = streets(side, 1);
    writeln!(out, "p sp {vertices} {}", arcs + 1)?;
    pave(out, streets.by_ref().take(arcs as usize / 4), &mut weight)?;
    writeln!(out, "a 1 {vertices} {}", u32::MAX)?;
    pave(out, streets, weight)?;
    Ok(all(vertices))
}

/// Two grids with weights by a rule for each, and an arc from the first to the second.
pub fn joined(
    out: &mut impl Write,
    side: u64,
    first: impl FnMut() -> u64,
    second: impl FnMut() -> u64,
) -> io::Result<Vertices> {
    let last = side * side;
    writeln!(out, "p sp {} {}", 2 * last, 8 * side * (side - 1) + 1)?;
    pave(out, streets(side, 1), first)?;
    writeln!(out, "a {last} {} 1", last + 1)?;
    pave(out, streets(side, last + 1), second)?;
    Ok(vec![1])
}
