//! The list of blocks of `crossbeam-queue`'s `SegQueue` (MIT or Apache-2.0), cut to what is timed here. Each end
//! has a block of its own, made at opening like the first one, as in the queue that is proved. Blocks that were
//! read to their end stay until the queue goes, and what is left in them then is lost.

use std::cell::UnsafeCell;
use std::hint::spin_loop;
use std::mem::MaybeUninit;
use std::ptr::null_mut;
use std::sync::atomic::Ordering::SeqCst;
use std::sync::atomic::{AtomicPtr, AtomicUsize};

// An index counts in twos; the head's has 1 more where its block has a next one.
const LAP: usize = 32;
const LAST: usize = LAP - 1;
const WRITTEN: usize = 1;

struct Slot<T> {
    item: UnsafeCell<MaybeUninit<T>>,
    state: AtomicUsize,
}

struct Block<T> {
    next: AtomicPtr<Block<T>>,
    slots: [Slot<T>; LAST],
}

impl<T> Block<T> {
    fn new() -> *mut Block<T> {
        let slots = std::array::from_fn(|_| Slot {
            item: UnsafeCell::new(MaybeUninit::uninit()),
            state: AtomicUsize::new(0),
        });
        Box::into_raw(Box::new(Block { next: AtomicPtr::new(null_mut()), slots }))
    }

    fn next(&self) -> *mut Block<T> {
        loop {
            let next = self.next.load(SeqCst);
            if !next.is_null() {
                return next;
            }
            spin_loop();
        }
    }
}

// An end's index stands in the first slot of its own block, and the block that it is in beside it.
struct End<T> {
    own: *mut Block<T>,
}

impl<T> End<T> {
    fn new(at: *mut Block<T>) -> End<T> {
        let own = Block::new();
        unsafe { (*own).next.store(at, SeqCst) };
        End { own }
    }

    fn index(&self) -> &AtomicUsize {
        unsafe { &(*self.own).slots[0].state }
    }

    fn block(&self) -> &AtomicPtr<Block<T>> {
        unsafe { &(*self.own).next }
    }
}

pub struct Queue<T> {
    head: End<T>,
    tail: End<T>,
    first: *mut Block<T>,
}

unsafe impl<T: Send> Send for Queue<T> {}
unsafe impl<T: Send> Sync for Queue<T> {}

impl<T> Queue<T> {
    pub fn new() -> Queue<T> {
        let first = Block::new();
        Queue { head: End::new(first), tail: End::new(first), first }
    }

    pub fn is_empty(&self) -> bool {
        self.head.index().load(SeqCst) >> 1 == self.tail.index().load(SeqCst) >> 1
    }

    pub fn push(&self, item: T) {
        let mut next: *mut Block<T> = null_mut();
        loop {
            let tail = self.tail.index().load(SeqCst);
            let block = self.tail.block().load(SeqCst);
            let offset = (tail >> 1) % LAP;
            if offset == LAST {
                spin_loop();
                continue;
            }
            if offset + 1 == LAST && next.is_null() {
                next = Block::new();
            }
            if self.tail.index().compare_exchange_weak(tail, tail + 2, SeqCst, SeqCst).is_err() {
                spin_loop();
                continue;
            }
            unsafe {
                if offset + 1 == LAST {
                    self.tail.block().store(next, SeqCst);
                    self.tail.index().store(tail + 4, SeqCst);
                    (*block).next.store(next, SeqCst);
                }
                let slot = &(*block).slots[offset];
                slot.item.get().write(MaybeUninit::new(item));
                slot.state.fetch_or(WRITTEN, SeqCst);
            }
            return;
        }
    }

    pub fn pop(&self) -> Option<T> {
        loop {
            let head = self.head.index().load(SeqCst);
            let block = self.head.block().load(SeqCst);
            let offset = (head >> 1) % LAP;
            if offset == LAST {
                spin_loop();
                continue;
            }
            let mut new_head = head + 2;
            if new_head & 1 == 0 {
                let tail = self.tail.index().load(SeqCst);
                if head >> 1 == tail >> 1 {
                    return None;
                }
                if (head >> 1) / LAP != (tail >> 1) / LAP {
                    new_head |= 1;
                }
            }
            if self.head.index().compare_exchange_weak(head, new_head, SeqCst, SeqCst).is_err() {
                spin_loop();
                continue;
            }
            unsafe {
                if offset + 1 == LAST {
                    let next = (*block).next();
                    let mut next_index = (new_head & !1).wrapping_add(2);
                    if !(*next).next.load(SeqCst).is_null() {
                        next_index |= 1;
                    }
                    self.head.block().store(next, SeqCst);
                    self.head.index().store(next_index, SeqCst);
                }
                let slot = &(*block).slots[offset];
                while slot.state.load(SeqCst) & WRITTEN == 0 {
                    spin_loop();
                }
                return Some(slot.item.get().read().assume_init());
            }
        }
    }
}

impl<T> Drop for Queue<T> {
    fn drop(&mut self) {
        unsafe {
            let mut block = self.first;
            while !block.is_null() {
                let next = (*block).next.load(SeqCst);
                drop(Box::from_raw(block));
                block = next;
            }
            drop(Box::from_raw(self.head.own));
            drop(Box::from_raw(self.tail.own));
        }
    }
}
