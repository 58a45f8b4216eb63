//! A country of towns with roads between them, which `generate` writes: a map in all but names.

use crate::roads::{Road, country_roads};
use crate::town::{BLOCK, SHORE, Street, Streets, Town, build};
use crate::{Draw, Vertices, all};
use std::io::{self, Write};

/// The vertices of the least town. A town of a size or more is half as likely if the size is twice as great.
const LEAST: u64 = 50;

/// The vertices of a town at most.
const GREATEST: u64 = 200_000;

/// The sizes of towns that have so many vertices in all.
fn sizes(draw: &mut Draw, vertices: u64) -> Vec<u64> {
    let (mut found, mut left) = (Vec::new(), vertices);
    let most = (vertices / 8).clamp(LEAST, GREATEST);
    while left > 0 {
        let chance = draw.below(1 << 30) + 1;
        found.push((LEAST * (1 << 30) / chance).min(most).min(left));
        left -= found[found.len() - 1];
    }
    found
}

/// The towns of so many vertices in all. The country is eight times as large, and none lies in a great one.
fn settle(draw: &mut Draw, vertices: u64) -> Vec<Town> {
    let width = ((8 * vertices) as f64 * 0.4).sqrt() as i64 * BLOCK + BLOCK;
    let (mut towns, mut first) = (Vec::<Town>::new(), 0);
    let sizes = sizes(draw, vertices);
    let mut place = || (draw.below(width as u64) as i64, draw.below(width as u64) as i64);
    for size in sizes {
        let side = ((size as f64 * 0.4).sqrt() as u32).max(1);
        let room = |other: &Town| i64::from(side + other.side) * BLOCK / 2;
        let is_free = |at: (i64, i64)| {
            let mut great = towns.iter().filter(|town| town.side > SHORE);
            great.all(|town| (at.0 - town.middle.0).abs().max((at.1 - town.middle.1).abs()) > room(town))
        };
        let middle = (0..20).map(|_| place()).find(|at| is_free(*at)).unwrap_or_else(&mut place);
        towns.push(Town { first, side, size: size as u32, middle });
        first += size as u32;
    }
    towns
}

/// The first number of each 64 vertices made one after another, which stay so. These numbers come in no order.
fn numbers(draw: &mut Draw, vertices: u64) -> Vec<u32> {
    let mut firsts: Vec<u32> = (0..vertices / 64).map(|batch| (64 * batch + 1) as u32).collect();
    for last in (1..firsts.len()).rev() {
        firsts.swap(last, draw.below(last as u64 + 1) as usize);
    }
    firsts.push((vertices / 64 * 64 + 1) as u32);
    firsts
}

/// Writes a country of so many vertices. An eighth of them bend country roads and motorways.
pub fn towns(out: &mut impl Write, vertices: u64, seed: u64) -> io::Result<Vertices> {
    let mut draw = Draw(12 + (seed << 32));
    // With fewer vertices there may be one town alone.
    let on_roads = if vertices < 2 * LEAST { 0 } else { vertices / 8 };
    let towns = settle(&mut draw, vertices - on_roads);
    let mut streets = Streets { list: Vec::with_capacity((vertices + vertices / 4) as usize), vertices: 0 };
    for town in &towns {
        build(&mut draw, town, &mut streets);
    }
    let roads = country_roads(&towns);
    let length: u64 = roads.iter().map(|road| road.metres).sum();
    let (mut metres, mut before) = (0, 0);
    for Road { ends, metres: own, time, .. } in roads {
        metres += own;
        let inner = (u128::from(on_roads) * u128::from(metres) / u128::from(length)) as u32 - before;
        before += inner;
        streets.pave(ends, inner, time, false);
    }
    write(out, &streets, &numbers(&mut draw, vertices), vertices)?;
    Ok(all(vertices))
}

fn write(out: &mut impl Write, streets: &Streets, firsts: &[u32], vertices: u64) -> io::Result<()> {
    let arcs: usize = streets.list.iter().map(|street| 2 - usize::from(street.is_one_way)).sum();
    writeln!(out, "p sp {vertices} {arcs}")?;
    let number = |vertex: u32| firsts[vertex as usize / 64] + vertex % 64;
    for Street { tail, head, weight, is_one_way } in &streets.list {
        let (tail, head) = (number(*tail), number(*head));
        writeln!(out, "a {tail} {head} {weight}")?;
        if !is_one_way {
            writeln!(out, "a {head} {tail} {weight}")?;
        }
    }
    Ok(())
}
