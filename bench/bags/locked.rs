//! A locked deque with its length beside it.

use std::collections::VecDeque;
use std::sync::Mutex;
use std::sync::atomic::AtomicUsize;
use std::sync::atomic::Ordering::SeqCst;

pub struct Queue<T> {
    len: AtomicUsize,
    items: Mutex<VecDeque<T>>,
}

impl<T> Queue<T> {
    pub fn new() -> Queue<T> {
        Queue { len: AtomicUsize::new(0), items: Mutex::new(VecDeque::new()) }
    }

    pub fn is_empty(&self) -> bool {
        self.len.load(SeqCst) == 0
    }

    pub fn push(&self, item: T) {
        let mut items = self.items.lock().unwrap();
        items.push_back(item);
        self.len.store(items.len(), SeqCst);
    }

    pub fn pop(&self) -> Option<T> {
        let mut items = self.items.lock().unwrap();
        let item = items.pop_front();
        self.len.store(items.len(), SeqCst);
        item
    }
}
