//! The country roads and motorways of `towns`: from each town to the five nearest, and from each great one to the
//! three nearest great ones.

use crate::town::{Parts, Town};

/// A road: the vertices at its ends, and how long it is, in metres and in tenths of a second.
pub struct Road {
    pub ends: (u32, u32),
    pub metres: u64,
    pub time: u32,
}

/// The country in squares, each with the towns of which it has the middle.
struct Squares {
    width: i64,
    side: i64,
    towns: Vec<Vec<u32>>,
}

impl Squares {
    /// Sorts some towns into squares, two to each in the mean.
    fn new(towns: &[Town], chosen: &[u32]) -> Self {
        let most = chosen.iter().map(|at| towns[*at as usize].middle).map(|at| at.0.max(at.1)).max().unwrap_or(0);
        let side = ((chosen.len() as f64 / 2.0).sqrt() as i64).max(1);
        let mut found = Squares { width: most / side + 1, side, towns: vec![Vec::new(); (side * side) as usize] };
        for at in chosen {
            let (column, row) = found.square(towns[*at as usize].middle);
            found.towns[(row * side + column) as usize].push(*at);
        }
        found
    }

    fn square(&self, place: (i64, i64)) -> (i64, i64) {
        (place.0 / self.width, place.1 / self.width)
    }

    /// The towns of the squares around a place, up to so many squares away.
    fn around(&self, place: (i64, i64), away: i64) -> Vec<u32> {
        let (column, row) = self.square(place);
        let near = |at: i64| (at - away).max(0)..=(at + away).min(self.side - 1);
        let squares = near(row).flat_map(|row| near(column).map(move |column| row * self.side + column));
        squares.flat_map(|square| self.towns[square as usize].iter().copied()).collect()
    }

    /// The towns that are nearest to one, as many as are wanted or there are.
    fn nearest(&self, towns: &[Town], from: u32, many: usize) -> Vec<u32> {
        let middle = towns[from as usize].middle;
        let away = (1..self.side).find(|away| self.around(middle, *away).len() > 2 * many).unwrap_or(self.side);
        let mut found = self.around(middle, away);
        found.retain(|at| *at != from);
        found.sort_by_key(|at| (metres(middle, towns[*at as usize].middle), *at));
        found.truncate(many);
        found
    }
}

fn metres(one: (i64, i64), other: (i64, i64)) -> u64 {
    let square = |way: i64| (way * way) as f64;
    (square(one.0 - other.0) + square(one.1 - other.1)).sqrt() as u64
}

/// The road between two towns, at so many km/h. It is a tenth longer than a straight one.
fn road(one: &Town, other: &Town, kmh: u64) -> Road {
    let metres = metres(one.middle, other.middle) * 11 / 10 + 1;
    Road { ends: (one.gate(other.middle), other.gate(one.middle)), metres, time: (metres * 36 / kmh) as u32 }
}

/// The pairs of towns of which one is among those nearest to the other, each once.
fn neighbours(towns: &[Town], chosen: &[u32], many: usize) -> Vec<(u32, u32)> {
    let squares = Squares::new(towns, chosen);
    let mut pairs = Vec::new();
    for from in chosen {
        let near = squares.nearest(towns, *from, many);
        pairs.extend(near.into_iter().map(|to| (to.min(*from), to.max(*from))));
    }
    pairs.sort_unstable();
    pairs.dedup();
    pairs
}

/// The roads of a country, which join all towns: where those to near ones don't, a road goes to the next of the list.
pub fn country_roads(towns: &[Town]) -> Vec<Road> {
    let all: Vec<u32> = (0..towns.len() as u32).collect();
    let great: Vec<u32> = all.iter().copied().filter(|at| towns[*at as usize].size > 2000).collect();
    let mut parts = Parts::new(towns.len() as u32);
    let mut country = neighbours(towns, &all, 5);
    for (one, other) in &country {
        parts.join(*one, *other);
    }
    country.extend(all.windows(2).map(|pair| (pair[0], pair[1])).filter(|(one, other)| parts.join(*one, *other)));
    let by_speed = [(country, 70), (neighbours(towns, &great, 3), 120)];
    let roads = by_speed.into_iter().flat_map(|(pairs, kmh)| pairs.into_iter().map(move |pair| (pair, kmh)));
    roads.map(|((one, other), kmh)| road(&towns[one as usize], &towns[other as usize], kmh)).collect()
}
