//! The streets of a town, of which `towns` makes many.
//!
//! A town is a square of crossings. One street in four is a gap, but every eighth goes through, and is
//! faster. Rivers run through the greater towns; half of the streets that go through have a bridge. Of the vertices
//! beside crossings most bend a street, and some are dead ends.

use crate::Draw;

/// The distance from one crossing to the next, in metres.
pub const BLOCK: i64 = 100;

/// The number of crossings between two rivers.
pub const SHORE: u32 = 40;

/// A street both ways or one way, by the numbers of its ends from 0.
pub struct Street {
    pub tail: u32,
    pub head: u32,
    pub weight: u32,
    pub is_one_way: bool,
}

/// The streets in the order in which they are written, and the vertices so far.
#[derive(Default)]
pub struct Streets {
    pub list: Vec<Street>,
    pub vertices: u32,
}

impl Streets {
    /// Adds a vertex.
    fn vertex(&mut self) -> u32 {
        self.vertices += 1;
        self.vertices - 1
    }

    /// Adds a street of so many tenths of a second, with new vertices between its ends.
    pub fn pave(&mut self, ends: (u32, u32), inner: u32, time: u32, is_one_way: bool) {
        let weight = (time / (inner + 1)).max(1);
        let mut tail = ends.0;
        for _ in 0..inner {
            let head = self.vertex();
            self.list.push(Street { tail, head, weight, is_one_way });
            tail = head;
        }
        self.list.push(Street { tail, head: ends.1, weight, is_one_way });
    }
}

/// A town: its first vertex, how many crossings it has to a side, how many vertices in all, and its middle in metres.
pub struct Town {
    pub first: u32,
    pub side: u32,
    pub size: u32,
    pub middle: (i64, i64),
}

impl Town {
    /// The crossing at the edge that is nearest to a place outside.
    pub fn gate(&self, place: (i64, i64)) -> u32 {
        let (right, down) = (place.0 - self.middle.0, place.1 - self.middle.1);
        let longest = right.abs().max(down.abs()).max(1);
        let last = i64::from(self.side) - 1;
        let along = |way: i64| ((last * (longest + way)) / (2 * longest)) as u32;
        self.first + along(down) * self.side + along(right)
    }
}

/// The parts that streets join: each vertex has another one of its part, and one of a part has itself.
pub struct Parts(Vec<u32>);

impl Parts {
    pub fn new(count: u32) -> Self {
        Parts((0..count).collect())
    }

    fn root(&mut self, mut at: u32) -> u32 {
        while self.0[at as usize] != at {
            let next = self.0[at as usize];
            self.0[at as usize] = self.0[next as usize];
            at = next;
        }
        at
    }

    /// Joins the parts of two vertices, and gives whether these were two.
    pub fn join(&mut self, one: u32, other: u32) -> bool {
        let (one, other) = (self.root(one), self.root(other));
        self.0[one as usize] = other;
        one != other
    }
}

/// The rivers of a town from top to bottom, by row the column before each, and from left to right, by column the row.
struct Rivers {
    down: Vec<Vec<u32>>,
    across: Vec<Vec<u32>>,
}

impl Rivers {
    fn new(draw: &mut Draw, side: u32) -> Self {
        let many = if side < SHORE / 2 { 0 } else { side / SHORE + 1 };
        let mut some = || (1..=many).map(|place| bed(draw, side, place * side / (many + 1))).collect();
        Rivers { down: some(), across: some() }
    }

    /// Tells if a river runs between two crossings, given as (row, column).
    fn part(&self, one: (u32, u32), other: (u32, u32)) -> bool {
        let is_right = |river: &Vec<u32>, at: (u32, u32)| at.1 > river[at.0 as usize];
        let is_below = |river: &Vec<u32>, at: (u32, u32)| at.0 > river[at.1 as usize];
        self.down.iter().any(|river| is_right(river, one) != is_right(river, other))
            || self.across.iter().any(|river| is_below(river, one) != is_below(river, other))
    }
}

/// The course of a river from a place on: it winds by a street at most from each row to the next.
fn bed(draw: &mut Draw, side: u32, from: u32) -> Vec<u32> {
    let mut at = from;
    let mut step = || {
        at = (at + draw.below(3) as u32).saturating_sub(1).min(side - 1);
        at
    };
    (0..side).map(|_| step()).collect()
}

/// A street between two crossings of a town, by their numbers there, and if it is part of one that goes through.
type Block = (u32, u32, bool);

/// Tells if the street along a row or a column goes through.
fn goes_through(line: u32) -> bool {
    line % 8 == 3
}

/// The streets that a town has, its gaps, and those that a river cuts off, in this order.
fn plan(draw: &mut Draw, side: u32) -> [Vec<Block>; 3] {
    let rivers = Rivers::new(draw, side);
    let mut found = [const { Vec::new() }; 3];
    for at in 0..2 * side * side {
        let (row, column, is_down) = (at / 2 / side, at / 2 % side, at % 2 == 1);
        let other = if is_down { (row + 1, column) } else { (row, column + 1) };
        if other.0.max(other.1) == side {
            continue;
        }
        let is_through = goes_through(if is_down { column } else { row });
        let kind = match (rivers.part((row, column), other), is_through) {
            (true, _) if !is_through || draw.below(2) == 0 => 2,
            (false, false) if draw.below(4) == 0 => 1,
            _ => 0,
        };
        found[kind].push((at / 2, other.0 * side + other.1, is_through));
    }
    found
}

/// The streets of a town, which join all of its crossings. One that is left out is there if it joins two parts.
fn blocks(draw: &mut Draw, side: u32) -> Vec<Block> {
    let [mut kept, gaps, banks] = plan(draw, side);
    let mut parts = Parts::new(side * side);
    for (one, other, _) in &kept {
        parts.join(*one, *other);
    }
    kept.extend(gaps.into_iter().chain(banks).filter(|block| parts.join(block.0, block.1)));
    kept
}

/// The number of vertices that bend each of some streets, and the crossings at which the other vertices of a town are
/// dead ends.
fn bends(draw: &mut Draw, town: &Town, blocks: usize) -> (Vec<u32>, Vec<u32>) {
    let crossings = town.side * town.side;
    let (mut inner, mut ends) = (vec![0; blocks], Vec::new());
    for _ in crossings..town.size {
        if blocks == 0 || draw.below(4) == 0 {
            ends.push(town.first + draw.below(u64::from(crossings)) as u32);
        } else {
            inner[draw.below(blocks as u64) as usize] += 1;
        }
    }
    (inner, ends)
}

/// The time for so many metres in tenths of a second: at 30 km/h, and at 50 where the street goes through.
fn time(metres: u64, is_through: bool) -> u32 {
    (metres * if is_through { 72 } else { 120 } / 100) as u32
}

/// Adds the streets of a town. One in twenty is one way.
pub fn build(draw: &mut Draw, town: &Town, streets: &mut Streets) {
    streets.vertices = town.first + town.side * town.side;
    let blocks = blocks(draw, town.side);
    let (inner, ends) = bends(draw, town, blocks.len());
    for ((one, other, is_through), inner) in blocks.into_iter().zip(inner) {
        let time = time(60 + draw.below(121), is_through);
        let is_one_way = draw.below(20) == 0;
        let (one, other) = (town.first + one, town.first + other);
        streets.pave(if draw.below(2) == 0 { (one, other) } else { (other, one) }, inner, time, is_one_way);
    }
    for end in ends {
        let dead_end = streets.vertex();
        streets.pave((end, dead_end), 0, time(20 + draw.below(80), false), false);
    }
}
