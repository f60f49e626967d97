//! What was requested, what waits, and what runs.

use crate::objects::Key;
use std::cmp::Reverse;
use std::collections::{BTreeMap, BinaryHeap, HashMap};
use std::rc::Rc;

#[derive(Clone)]
pub enum Reason {
    Updated,
    Related(Rc<str>),
    Retry,
    ErrorPolicy,
    Bulk,
    Unknown,
}

const LONGEST: u64 = 15_552_000_000_000_000;

struct Entry {
    time: u64,
    number: u64,
    reason: Reason,
    /// Its place among what waits, once it does.
    order: Option<u64>,
}

#[derive(Default)]
pub struct Queue {
    debounce: u64,
    limit: usize,
    entries: HashMap<Key, Entry>,
    times: BinaryHeap<Reverse<(u64, u64, Key)>>,
    /// Those that wait and don't run, by their places.
    idle: BTreeMap<u64, Key>,
    running: HashMap<Key, u64>,
    numbers: u64,
    orders: u64,
    starts: u64,
}

impl Queue {
    pub fn new(debounce: u64, limit: usize) -> Queue {
        Queue { debounce, limit, ..Queue::default() }
    }

    pub fn request(&mut self, key: Key, reason: Reason, run_at: u64, now: u64) {
        let time = run_at.saturating_add(self.debounce).min(now.saturating_add(LONGEST));
        let number = self.numbers;
        self.numbers += 1;
        match self.entries.get_mut(&key) {
            Some(entry) if entry.order.is_some() || entry.time < run_at => return,
            Some(entry) => {
                (entry.time, entry.number, entry.reason) = (time, number, reason);
            }
            None => drop(self.entries.insert(key.clone(), Entry { time, number, reason, order: None })),
        }
        self.times.push(Reverse((time, number, key)));
    }

    pub fn settle(&mut self, now: u64) {
        while self.times.peek().is_some_and(|first| first.0.0 <= now) {
            let Some(Reverse((_, number, key))) = self.times.pop() else {
                return;
            };
            let Some(entry) = self.entries.get_mut(&key) else {
                continue;
            };
            if entry.number != number || entry.order.is_some() {
                continue;
            }
            entry.order = Some(self.orders);
            if !self.running.contains_key(&key) {
                self.idle.insert(self.orders, key);
            }
            self.orders += 1;
        }
    }

    pub fn room(&self) -> Option<usize> {
        if self.limit == 0 { None } else { Some(self.limit.saturating_sub(self.running.len())) }
    }

    pub fn take(&mut self) -> Option<(Key, Reason)> {
        let (_, key) = self.idle.pop_first()?;
        let entry = self.entries.remove(&key)?;
        Some((key, entry.reason))
    }

    pub fn start(&mut self, key: Key) {
        self.running.insert(key, self.starts);
        self.starts += 1;
    }

    pub fn runs(&self, key: &Key) -> bool {
        self.running.contains_key(key)
    }

    pub fn running(&self) -> usize {
        self.running.len()
    }

    /// Those that run, in the order of their starts.
    pub fn in_order(&self) -> Vec<Key> {
        let mut keys: Vec<_> = self.running.iter().map(|(key, start)| (*start, key.clone())).collect();
        keys.sort_unstable_by_key(|it| it.0);
        keys.into_iter().map(|it| it.1).collect()
    }

    pub fn finish(&mut self, key: &Key) {
        self.running.remove(key);
        if let Some(order) = self.entries.get(key).and_then(|entry| entry.order) {
            self.idle.insert(order, key.clone());
        }
    }
}
