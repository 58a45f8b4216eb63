//! The same calls in plain Rust: the log is a locked list of bags, a mirror a list of bags with a map from
//! metric to place, and a bag a queue of blocks as in `crossbeam-queue`, of which the first and one for each
//! end are made at opening. Built with `--cfg locked`, a bag is a locked deque with its length beside it.
//! Prints the same lines.

#[path = "../shared.rs"]
mod shared;

use shared::{FIRST_DRAW, next};
use std::collections::HashMap;
use std::sync::{Arc, Mutex};
use std::thread;
use std::time::Instant;

const PUTS: u32 = 1_000_000;
const LOOKS: u32 = 10_000_000;
const FINDS: u32 = 4_000_000;
const BAGS: u32 = 40_000;
const EMPTY: u32 = 256;
const FEW: u32 = 10;
const MANY: u32 = 100_000;
const REPETITIONS: u32 = 3;

#[derive(Clone, Copy)]
struct ChunkId {
    worker: u32,
    serial: u64,
}

struct Chunk {
    id: ChunkId,
    size: usize,
    len: usize,
    vertices: [u32; 256],
}

impl Chunk {
    fn new(id: ChunkId, size: usize) -> Chunk {
        Chunk { id, size, len: 0, vertices: [0; 256] }
    }

    fn push(&mut self, v: u32) -> bool {
        if self.len == self.size {
            return false;
        }
        self.vertices[self.len] = v;
        self.len += 1;
        true
    }
}

#[cfg_attr(locked, path = "locked.rs")]
#[cfg_attr(not(locked), path = "blocks.rs")]
mod queue;

struct Bag {
    metric: u64,
    chunks: queue::Queue<Box<Chunk>>,
}

impl Bag {
    fn new(metric: u64) -> Bag {
        Bag { metric, chunks: queue::Queue::new() }
    }

    fn put(&self, chunk: Box<Chunk>) {
        self.chunks.push(chunk);
    }

    fn get(&self) -> Option<Box<Chunk>> {
        self.chunks.pop()
    }
}

#[derive(Default)]
struct Log {
    bags: Mutex<Vec<Arc<Bag>>>,
}

// A bag, and how often this mirror found it empty.
struct Place {
    bag: Arc<Bag>,
    empties: u64,
}

impl Place {
    fn finds_empty(&mut self) -> bool {
        let empty = self.bag.chunks.is_empty();
        if empty {
            self.empties = self.empties.wrapping_add(1);
        }
        empty
    }

    fn get(&mut self) -> Option<Box<Chunk>> {
        if self.finds_empty() { None } else { self.bag.get() }
    }
}

#[derive(Default)]
struct Mirror {
    list: Vec<Place>,
    places: HashMap<u64, usize>,
}

impl Log {
    fn find_or_append(&self, mirror: &mut Mirror, metric: u64) -> usize {
        if let Some(&place) = mirror.places.get(&metric) {
            return place;
        }
        let mut bags = self.bags.lock().unwrap();
        mirror.catch_up(&bags);
        if let Some(&place) = mirror.places.get(&metric) {
            return place;
        }
        bags.push(Arc::new(Bag::new(metric)));
        mirror.catch_up(&bags);
        bags.len() - 1
    }
}

impl Mirror {
    fn catch_up(&mut self, bags: &[Arc<Bag>]) {
        for bag in &bags[self.list.len()..] {
            self.places.insert(bag.metric, self.list.len());
            self.list.push(Place { bag: bag.clone(), empties: 0 });
        }
    }
}

#[derive(Clone, Copy)]
enum Part {
    Chunk,
    Boxed,
    Empty,
    Open,
    Find(u32),
}

fn put_chunks(mirror: &mut Mirror, worker: u32) -> u64 {
    let mut sum = 0;
    for serial in 0..PUTS {
        let mut chunk = Chunk::new(ChunkId { worker, serial: u64::from(serial) }, 16);
        assert!(chunk.push(serial));
        mirror.list[0].bag.put(Box::new(chunk));
        if let Some(chunk) = mirror.list[0].get() {
            let chunk = std::hint::black_box(*chunk);
            sum += chunk.len as u64;
        }
    }
    sum
}

fn put_boxes(mirror: &mut Mirror, worker: u32) -> u64 {
    let mut boxed = Box::new(Chunk::new(ChunkId { worker, serial: 0 }, 16));
    assert!(boxed.push(7));
    let mut sum = 0;
    for _ in 0..PUTS {
        mirror.list[0].bag.put(boxed);
        boxed = mirror.list[0].get().unwrap();
        sum += 1;
    }
    sum + boxed.id.worker as u64 - worker as u64
}

fn look(mirror: &mut Mirror) -> u64 {
    (0..LOOKS).map(|i| u64::from(mirror.list[(i % EMPTY) as usize].finds_empty())).sum()
}

fn open(log: &Log, mirror: &mut Mirror, worker: u32) -> u64 {
    for i in 0..BAGS {
        log.find_or_append(mirror, u64::from(i) * 64 + u64::from(worker) + 1);
    }
    u64::from(BAGS)
}

fn find(log: &Log, mirror: &mut Mirror, bags: u32) -> u64 {
    let mut draw = FIRST_DRAW;
    (0..FINDS).map(|_| log.find_or_append(mirror, next(&mut draw) % u64::from(bags)) as u64).sum()
}

fn work(log: &Log, mirror: &mut Mirror, part: Part, worker: u32) -> u64 {
    match part {
        Part::Chunk => put_chunks(mirror, worker),
        Part::Boxed => put_boxes(mirror, worker),
        Part::Empty => look(mirror),
        Part::Open => open(log, mirror, worker),
        Part::Find(bags) => find(log, mirror, bags),
    }
}

fn time(name: &str, part: Part, bags: u32, calls: u32, threads: u32) {
    let log = Log::default();
    let mut first = Mirror::default();
    for metric in 0..bags {
        log.find_or_append(&mut first, u64::from(metric));
    }
    let mut mirrors: Vec<Mirror> = (0..threads).map(|_| Mirror::default()).collect();
    for mirror in &mut mirrors {
        mirror.catch_up(&log.bags.lock().unwrap());
    }
    let start = Instant::now();
    let sum: u64 = thread::scope(|scope| {
        let log = &log;
        let others: Vec<_> = mirrors
            .iter_mut()
            .zip(0..)
            .map(|(mirror, worker)| scope.spawn(move || work(log, mirror, part, worker)))
            .collect();
        others.into_iter().map(|other| other.join().unwrap()).sum()
    });
    println!("{name}-{threads} {} {calls} {sum}", start.elapsed().as_micros());
}

fn main() {
    for _ in 0..REPETITIONS {
        for threads in [1, 4] {
            time("chunk", Part::Chunk, 1, PUTS, threads);
            time("boxed", Part::Boxed, 1, PUTS, threads);
            time("empty", Part::Empty, EMPTY, LOOKS, threads);
            time("open", Part::Open, 1, BAGS, threads);
            time("find-10", Part::Find(FEW), FEW, FINDS, threads);
            time("find-100000", Part::Find(MANY), MANY, FINDS, threads);
        }
    }
}
