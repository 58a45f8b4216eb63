//! The same job in plain Rust, to compare with: reads all, parses by bytes, builds rows by counting sort,
//! finds distances by Dijkstra with a radix heap, and formats into one buffer. With --walks it prints walks
//! of fewest arcs along least tails too, in pieces. With --stats it prints on standard error how long reading,
//! rows, solving and writing took. It stops at the first line that is wrong, and says no more of it.

mod shared;

use shared::{Arc, Rows};
use std::io::{self, Read, Write};
use std::time::{Duration, Instant};

struct Job {
    n: usize,
    arcs: Vec<Arc>,
    sources: Vec<u32>,
}

fn number(bytes: &[u8], at: &mut usize) -> Option<u64> {
    while matches!(bytes.get(*at), Some(b' ' | b'\t')) {
        *at += 1;
    }
    let start = *at;
    let mut value = 0u64;
    while let Some(digit @ b'0'..=b'9') = bytes.get(*at) {
        value = value.saturating_mul(10).saturating_add(u64::from(digit - b'0'));
        *at += 1;
    }
    (*at > start).then_some(value)
}

fn vertex(bytes: &[u8], at: &mut usize, n: usize) -> Option<u32> {
    let value = number(bytes, at)?;
    (1..=n as u64).contains(&value).then(|| (value - 1) as u32)
}

fn end_of_line(bytes: &[u8], at: &mut usize) -> Option<()> {
    while matches!(bytes.get(*at), Some(b' ' | b'\t' | b'\r')) {
        *at += 1;
    }
    match bytes.get(*at) {
        None => Some(()),
        Some(b'\n') => {
            *at += 1;
            Some(())
        }
        Some(_) => None,
    }
}

/// How many bytes of a text the fast way looks at for one line.
const WINDOW: usize = 64;

/// The number whose digits begin at a place, and the place after them. Places wrap within the window, so no
/// bound is tested; a byte that is no digit ends it.
#[inline(never)]
fn digits_at(window: &[u8; WINDOW], start: usize) -> (u64, usize) {
    let mut value = 0u64;
    let mut end = start;
    let mut digit = u64::from(window[end % WINDOW]).wrapping_sub(48);
    while digit < 10 {
        value = value.wrapping_mul(10).wrapping_add(digit);
        end += 1;
        digit = u64::from(window[end % WINDOW]).wrapping_sub(48);
    }
    (value, end)
}

/// The number after one blank, of 12 digits at most, and the place after it.
#[inline(always)]
fn spaced_at(window: &[u8; WINDOW], start: usize) -> Option<(u64, usize)> {
    let (value, end) = digits_at(window, start + 1);
    let few = (start + 2..=start + 13).contains(&end);
    (window[start % WINDOW] == b' ' && few).then_some((value, end))
}

/// The arc of a line that has single blanks and nothing odd, and how many bytes the line has. Anything else
/// is left to the slow way.
#[inline(always)]
fn fast_arc(bytes: &[u8], n: usize) -> Option<(Arc, usize)> {
    let window = bytes.first_chunk()?;
    // The letter is no digit: so a loop over digits ends.
    if window[0] != b'a' {
        return None;
    }
    let (tail, end) = spaced_at(window, 1)?;
    let (head, end) = spaced_at(window, end)?;
    let (weight, end) = spaced_at(window, end)?;
    let vertices = 1..=n as u64;
    let good = vertices.contains(&tail) && vertices.contains(&head) && weight <= u64::from(u32::MAX);
    let arc =
        Arc { tail: tail.wrapping_sub(1) as u32, head: head.wrapping_sub(1) as u32, weight: weight as u32 };
    (good && window[end % WINDOW] == b'\n').then_some((arc, end + 1))
}

/// Reads arcs from a place on while their lines are plain: the place of the first other line.
#[inline(never)]
fn fast_arcs(bytes: &[u8], mut at: usize, job: &mut Job) -> usize {
    while let Some((arc, size)) = bytes.get(at..).and_then(|rest| fast_arc(rest, job.n)) {
        job.arcs.push(arc);
        at += size;
    }
    at
}

fn parse(bytes: &[u8]) -> Option<Job> {
    let mut job = Job { n: 0, arcs: Vec::new(), sources: Vec::new() };
    let (mut m, mut k) = (0, 0);
    let mut at = 0;
    loop {
        at = fast_arcs(bytes, at, &mut job);
        if at >= bytes.len() {
            break;
        }
        match bytes[at] {
            b'a' => {
                at += 1;
                let tail = vertex(bytes, &mut at, job.n)?;
                let head = vertex(bytes, &mut at, job.n)?;
                let weight = u32::try_from(number(bytes, &mut at)?).ok()?;
                end_of_line(bytes, &mut at)?;
                job.arcs.push(Arc { tail, head, weight });
            }
            b's' => {
                at += 1;
                let source = vertex(bytes, &mut at, job.n)?;
                end_of_line(bytes, &mut at)?;
                job.sources.push(source);
            }
            b'p' if bytes[at..].starts_with(b"p sp ") => {
                at += 5;
                job.n = number(bytes, &mut at)? as usize;
                m = number(bytes, &mut at)? as usize;
                job.arcs.reserve(m.min((bytes.len() - at) / 8));
                end_of_line(bytes, &mut at)?;
            }
            b'p' if bytes[at..].starts_with(b"p aux sp ss ") => {
                at += 12;
                k = number(bytes, &mut at)? as usize;
                end_of_line(bytes, &mut at)?;
            }
            b'c' | b'\n' => {
                while bytes.get(at).is_some_and(|byte| *byte != b'\n') {
                    at += 1;
                }
                at += 1;
            }
            _ => return None,
        }
    }
    (job.arcs.len() == m && job.sources.len() == k).then_some(job)
}

/// A radix heap: numbers never fall below the last that was taken out, and each waits in the bucket of the
/// highest bit in which it differs from that one. So each moves to a lower bucket at most 64 times.
struct RadixHeap {
    last: u64,
    buckets: [Vec<(u64, u32)>; 65],
}

impl RadixHeap {
    fn new() -> RadixHeap {
        RadixHeap { last: 0, buckets: [const { Vec::new() }; 65] }
    }

    fn push(&mut self, label: u64, vertex: u32) {
        let bucket = 64 - (label ^ self.last).leading_zeros();
        self.buckets[bucket as usize].push((label, vertex));
    }

    /// Takes out an entry of the least label. Entries whose labels fell meanwhile, and those that were
    /// visited, are dropped as they move; the rows of the others are looked at.
    fn pop(&mut self, rows: &Rows, labels: &[u64]) -> Option<(u64, u32)> {
        while self.buckets[0].is_empty() {
            let at = self.buckets.iter().position(|bucket| !bucket.is_empty())?;
            let mut moved = std::mem::take(&mut self.buckets[at]);
            moved.retain(|(label, vertex)| *label == labels[*vertex as usize]);
            if let Some((least, _)) = moved.iter().min() {
                self.last = *least;
            }
            for (label, vertex) in moved.drain(..) {
                rows.prefetch(vertex as usize);
                self.push(label, vertex);
            }
            // The bucket keeps its memory: what it had went to lower ones.
            self.buckets[at] = moved;
        }
        self.buckets[0].pop()
    }
}

fn distances(rows: &Rows, source: u32) -> Vec<u64> {
    let mut labels = vec![u64::MAX; rows.firsts.len() - 1];
    let mut heap = RadixHeap::new();
    labels[source as usize] = 0;
    heap.push(0, source);
    while let Some((label, u)) = heap.pop(rows, &labels) {
        if label > labels[u as usize] {
            continue;
        }
        let row = rows.row(u as usize);
        for target in row.iter().take(16) {
            shared::prefetch(&labels[target.head as usize]);
        }
        for target in row {
            let reached = label + u64::from(target.weight);
            if reached < labels[target.head as usize] {
                labels[target.head as usize] = reached;
                heap.push(reached, target.head);
            }
        }
    }
    labels
}

fn put_number(out: &mut Vec<u8>, mut value: u64) {
    let mut digits = [0u8; 20];
    let mut at = digits.len();
    loop {
        at -= 1;
        digits[at] = b'0' + (value % 10) as u8;
        value /= 10;
        if value == 0 {
            break;
        }
    }
    out.extend_from_slice(&digits[at..]);
}

fn put_block(out: &mut Vec<u8>, source: u32, labels: &[u64]) {
    out.extend_from_slice(b"s ");
    put_number(out, u64::from(source) + 1);
    out.push(b'\n');
    for (v, label) in labels.iter().enumerate() {
        out.extend_from_slice(b"d ");
        put_number(out, v as u64 + 1);
        out.push(b' ');
        if *label == u64::MAX {
            out.extend_from_slice(b"inf");
        } else {
            put_number(out, *label);
        }
        out.push(b'\n');
    }
}

const NONE: u32 = u32::MAX;

/// The fewest arcs of a least walk to each vertex, by breadth-first search along tight arcs.
fn hops(rows: &Rows, labels: &[u64], source: u32) -> Vec<u32> {
    let mut hops = vec![NONE; labels.len()];
    let mut queue = vec![source];
    hops[source as usize] = 0;
    let mut next = 0;
    while next < queue.len() {
        let u = queue[next] as usize;
        next += 1;
        for target in rows.row(u) {
            let v = target.head as usize;
            if hops[v] == NONE && labels[u] + u64::from(target.weight) == labels[v] {
                hops[v] = hops[u] + 1;
                queue.push(target.head);
            }
        }
    }
    hops
}

/// The least tail of a tight arc that comes from one hop nearer.
fn parents(rows: &Rows, labels: &[u64], hops: &[u32]) -> Vec<u32> {
    let mut parents = vec![NONE; labels.len()];
    for u in (0..labels.len()).filter(|u| hops[*u] != NONE) {
        for target in rows.row(u) {
            let v = target.head as usize;
            let nearer = hops[v] == hops[u] + 1 && labels[u] + u64::from(target.weight) == labels[v];
            if nearer && parents[v] == NONE {
                parents[v] = u as u32;
            }
        }
    }
    parents
}

/// Writes the block with walks in pieces, since it may be large.
fn write_walks(out: &mut impl Write, rows: &Rows, source: u32, labels: &[u64]) -> io::Result<()> {
    let hops = hops(rows, labels, source);
    let parents = parents(rows, labels, &hops);
    let mut lines = Vec::new();
    put_line(&mut lines, b's', &[u64::from(source) + 1]);
    let mut walk = Vec::new();
    for (v, label) in labels.iter().enumerate() {
        let number = v as u64 + 1;
        if *label == u64::MAX {
            lines.extend_from_slice(format!("d {number} inf\n").as_bytes());
            continue;
        }
        put_line(&mut lines, b'd', &[number, *label]);
        walk.clear();
        let mut at = v as u32;
        while at != NONE {
            walk.push(u64::from(at) + 1);
            at = parents[at as usize];
        }
        walk.extend([*label, number]);
        walk.reverse();
        put_line(&mut lines, b'w', &walk);
        if lines.len() >= 1 << 16 {
            out.write_all(&lines)?;
            lines.clear();
        }
    }
    out.write_all(&lines)
}

fn put_line(out: &mut Vec<u8>, letter: u8, numbers: &[u64]) {
    out.push(letter);
    for number in numbers {
        out.push(b' ');
        put_number(out, *number);
    }
    out.push(b'\n');
}

/// Reads a whole job from standard input.
fn read() -> io::Result<Job> {
    let mut bytes = Vec::new();
    io::stdin().lock().read_to_end(&mut bytes)?;
    let Some(job) = parse(&bytes) else {
        eprintln!("baseline: not a job");
        std::process::exit(2);
    };
    Ok(job)
}

/// How long the parts of a job took.
#[derive(Default)]
struct Times {
    reading: Duration,
    rows: Duration,
    solving: Duration,
    writing: Duration,
}

impl Times {
    fn print(&self) {
        let print = |name: &str, time: Duration| eprintln!("{name}: {} ms", time.as_millis());
        print("reading", self.reading);
        print("rows", self.rows);
        print("solving", self.solving);
        print("writing", self.writing);
    }
}

/// Does some work, and adds the time that it took.
fn timed<T>(time: &mut Duration, work: impl FnOnce() -> T) -> T {
    let begun = Instant::now();
    let made = work();
    *time += begun.elapsed();
    made
}

fn main() -> io::Result<()> {
    let has = |flag: &str| std::env::args().any(|word| word == flag);
    let (walks, stats) = (has("--walks"), has("--stats"));
    let mut times = Times::default();
    let job = timed(&mut times.reading, read)?;
    let mut out = Vec::new();
    if !job.sources.is_empty() {
        let rows = timed(&mut times.rows, || Rows::build(job.n, &job.arcs));
        for source in &job.sources {
            let labels = timed(&mut times.solving, || distances(&rows, *source));
            timed(&mut times.writing, || {
                if walks {
                    return write_walks(&mut io::stdout().lock(), &rows, *source, &labels);
                }
                put_block(&mut out, *source, &labels);
                Ok(())
            })?;
        }
    }
    timed(&mut times.writing, || io::stdout().lock().write_all(&out))?;
    if stats {
        times.print();
    }
    Ok(())
}
