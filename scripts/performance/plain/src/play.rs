//! The controller: turns, one after another.

use crate::objects::{Key, Kind, Object};
use crate::queue::{Queue, Reason};
use crate::read::{Delays, Finish, Growth, Script, Shutdown, Turn};
use crate::sources::{Event, Exchange, Map, Outcome, Page, Source, Step};
use crate::store::Store;
use crate::text;
use serde_json::json;
use std::collections::{HashSet, VecDeque};
use std::io::Write;
use std::rc::Rc;

pub struct Ask {
    pub source: usize,
    pub exchange: Exchange,
    pub requests: Vec<String>,
}

pub struct Finished {
    pub shown: String,
    pub fault: Option<String>,
    pub requeue: Option<u64>,
}

pub struct Started {
    pub shown: String,
    pub reason: String,
    pub object: Option<Rc<Object>>,
}

pub enum Stop {
    NotReady,
    Shutdown,
    Budget,
    Paused,
}

pub struct Record {
    pub at: u64,
    pub asks: Vec<Ask>,
    pub finished: Vec<Finished>,
    pub stops: Vec<Stop>,
    pub taken: Vec<Started>,
    pub store: Option<Vec<Rc<Object>>>,
    pub ended: bool,
}

enum Refused {
    Moment,
    NotRunning(usize),
    Twice(usize),
    Unnamed(usize),
}

struct Backoff {
    delays: Delays,
    last: Option<u64>,
    asked: Option<u64>,
}

fn grown(growth: &Growth, last: Option<u64>) -> u64 {
    let next = match last {
        None => growth.min.into(),
        Some(last) => u128::from(last) * u128::from(growth.num) / u128::from(growth.den),
    };
    next.min(growth.cap.into()) as u64
}

impl Backoff {
    fn next(&mut self, now: u64) -> Option<u64> {
        let next = match &self.delays {
            Delays::Stop => return None,
            Delays::Grows(growth) => grown(growth, self.last),
            Delays::Default => {
                if self.asked.is_some_and(|asked| now - asked > 120_000_000_000) {
                    self.last = None;
                }
                self.asked = Some(now);
                grown(&Growth { min: 800_000_000, num: 2, den: 1, cap: 30_000_000_000 }, self.last)
            }
        };
        self.last = Some(next);
        Some(next)
    }
}

struct Controller {
    kind: Kind,
    sources: Vec<Source>,
    backoff: Backoff,
    error_requeue: Option<u64>,
    store: Store,
    ready: bool,
    queue: Queue,
    after: usize,
    over: u64,
    closed: bool,
    last: u64,
}

impl Controller {
    fn new(script: Script) -> (Controller, Vec<Turn>) {
        let queue = Queue::new(script.debounce, script.concurrency.into());
        let controller = Controller {
            kind: script.kind,
            sources: script.sources,
            backoff: Backoff { delays: script.delays, last: None, asked: None },
            error_requeue: script.error_requeue,
            store: Store::default(),
            ready: false,
            queue,
            after: 0,
            over: 0,
            closed: false,
            last: 0,
        };
        (controller, script.turns)
    }

    fn refused(&self, turn: &Turn) -> Option<Refused> {
        if turn.at >= 1 << 63 || turn.at < self.last {
            return Some(Refused::Moment);
        }
        let mut seen = HashSet::new();
        for (at, finish) in turn.finishes.iter().enumerate() {
            if !self.queue.runs(&finish.key) {
                return Some(Refused::NotRunning(at));
            }
            if !seen.insert(&finish.key) {
                return Some(Refused::Twice(at));
            }
        }
        None
    }

    fn turn(&mut self, turn: Turn) -> Result<Record, Refused> {
        let at = turn.at;
        self.last = at;
        self.closed |= turn.shutdown != Shutdown::No;
        let finished = turn.finishes.into_iter().map(|finish| self.finish(finish, at)).collect();
        let mut told = vec![false; self.sources.len()];
        let mut asks = Vec::new();
        let budget = |source: usize| turn.budget.get(source).copied().unwrap_or(0);
        let mut left: Vec<u32> = (0..self.sources.len()).map(budget).collect();
        let mut taken = Vec::new();
        if !self.closed {
            self.request_first(turn.reload, turn.on, at);
            while let Some(source) = self.next_source(&left, &told, at) {
                left[source] -= 1;
                let ask = self.ask(source, at)?;
                told[source] = matches!(ask.exchange.answer, crate::sources::Answer::NotReady);
                asks.push(ask);
            }
            if !self.closed {
                self.queue.settle(at);
                taken = self.take();
            }
        }
        let stop = |source: usize| match (told[source], self.closed, left[source]) {
            (true, _, _) => Stop::NotReady,
            (_, true, _) => Stop::Shutdown,
            (_, _, 0) => Stop::Budget,
            _ => Stop::Paused,
        };
        Ok(Record {
            at,
            asks,
            finished,
            stops: (0..self.sources.len()).map(stop).collect(),
            taken,
            store: turn.show.then(|| self.store.objects().cloned().collect()),
            ended: turn.shutdown == Shutdown::Forced || self.closed && self.queue.running() == 0,
        })
    }

    fn finish(&mut self, finish: Finish, at: u64) -> Finished {
        self.queue.finish(&finish.key);
        let shown = self.kind.shown(&finish.key);
        let (requeue, reason, fault) = match finish.outcome {
            Ok(requeue) => (requeue, Reason::Retry, None),
            Err(fault) => (self.error_requeue, Reason::ErrorPolicy, Some(fault)),
        };
        if let Some(nanos) = requeue.filter(|_| !self.closed) {
            self.queue.request(finish.key, reason, at.saturating_add(nanos), at);
        }
        Finished { shown, fault, requeue }
    }

    fn request_first(&mut self, reload: bool, on: Vec<Key>, at: u64) {
        if reload {
            let mut keys: Vec<Key> = self.store.keys().cloned().collect();
            keys.sort();
            for key in keys {
                self.queue.request(key, Reason::Bulk, at, at);
            }
        }
        for key in on {
            self.queue.request(key, Reason::Unknown, at, at);
        }
    }

    fn next_source(&self, left: &[u32], told: &[bool], at: u64) -> Option<usize> {
        if self.closed || self.over > at {
            return None;
        }
        let count = self.sources.len();
        (0..count).map(|step| (self.after + step) % count).find(|source| left[*source] > 0 && !told[*source])
    }

    fn ask(&mut self, source: usize, at: u64) -> Result<Ask, Refused> {
        self.after = source + 1;
        let exchange = self.sources[source].ask(at);
        let keys = match source {
            0 => self.apply(&exchange),
            _ => self.mapped(source, &exchange),
        };
        let keys = keys.ok_or(Refused::Unnamed(source))?;
        if exchange.error.is_some() {
            match self.backoff.next(at) {
                Some(delay) => self.over = at.saturating_add(delay),
                None => self.closed = true,
            }
        }
        if !keys.is_empty() {
            self.backoff.last = None;
        }
        let requests = keys.iter().map(|it| self.kind.shown(&it.0)).collect();
        for (key, reason) in keys {
            self.queue.request(key, reason, at, at);
        }
        Ok(Ask { source, exchange, requests })
    }

    /// What an exchange of the root does, with the keys that it requests. None where an object has no name.
    fn apply(&mut self, exchange: &Exchange) -> Option<Vec<(Key, Reason)>> {
        let named = |objects: &[Rc<Object>]| objects.iter().map(|it| it.key.clone()).collect::<Option<Vec<_>>>();
        match &exchange.outcome {
            Outcome::Nothing => Some(Vec::new()),
            Outcome::Listing => named(&exchange.items).map(|_| Vec::new()),
            Outcome::Complete(listed) => {
                let keys = named(listed)?;
                self.store = Store::default();
                self.ready = true;
                for (key, object) in keys.iter().zip(listed) {
                    self.store.put(key.clone(), object.clone());
                }
                Some(keys.into_iter().map(|key| (key, Reason::Updated)).collect())
            }
            Outcome::Put => {
                let object = exchange.items.first()?;
                let key = object.key.clone()?;
                self.store.put(key.clone(), object.clone());
                Some(vec![(key, Reason::Updated)])
            }
            Outcome::Drop => {
                self.store.remove(exchange.items.first()?.key.as_ref()?);
                Some(Vec::new())
            }
        }
    }

    fn mapped(&self, source: usize, exchange: &Exchange) -> Option<Vec<(Key, Reason)>> {
        if matches!(exchange.outcome, Outcome::Nothing) {
            return Some(Vec::new());
        }
        let (kind, map) = self.sources[source].kind.as_ref()?;
        let api_version = self.kind.api_version();
        let mut keys = Vec::new();
        for object in &exchange.items {
            let key = object.key.as_ref()?;
            let names = match map {
                Map::Owners => object.owners(&api_version, &self.kind.kind),
                Map::Label(label) => object.label(label).map(Rc::from).into_iter().collect(),
            };
            let of: Rc<str> = kind.shown(key).into();
            for name in names {
                keys.push((Key { namespace: key.namespace.clone(), name }, Reason::Related(of.clone())));
            }
        }
        Some(keys)
    }

    fn take(&mut self) -> Vec<Started> {
        let mut taken = Vec::new();
        let (room, mut found) = (self.queue.room(), 0);
        while self.ready && room.is_none_or(|room| found < room) {
            let Some((key, reason)) = self.queue.take() else {
                break;
            };
            let object = self.store.get(&key).cloned();
            let reason = match reason {
                Reason::Updated => "object updated".into(),
                Reason::Related(of) => format!("related object updated: {of}"),
                Reason::Retry => "reconciler requested retry".into(),
                Reason::ErrorPolicy => "error policy requested retry".into(),
                Reason::Bulk => "bulk reconcile requested".into(),
                Reason::Unknown => "unknown".into(),
            };
            taken.push(Started { shown: self.kind.shown(&key), reason, object });
            if taken.last().is_some_and(|it| it.object.is_some()) {
                found += 1;
                self.queue.start(key);
            }
        }
        taken
    }
}

/// Plays a script, and writes its trace. The status.
pub fn run(script: Script, out: &mut impl Write) -> i32 {
    let (mut controller, turns) = Controller::new(script);
    let mut records = Vec::new();
    let mut refused = None;
    for (number, turn) in turns.into_iter().enumerate() {
        let made = match controller.refused(&turn) {
            Some(why) => Err(why),
            None => controller.turn(turn),
        };
        match made {
            Ok(record) => records.push(record),
            Err(why) => {
                refused = Some((number, why));
                break;
            }
        }
        if records.last().is_some_and(|it| it.ended) {
            break;
        }
    }
    for (number, record) in records.iter().enumerate() {
        text::record(out, number, record).expect("standard output");
    }
    let Some((turn, why)) = refused else {
        return 0;
    };
    let line = match why {
        Refused::Moment => json!({"error": "turn", "turn": turn, "why": "moment"}),
        Refused::NotRunning(finish) => json!({"error": "turn", "finish": finish, "turn": turn, "why": "not running"}),
        Refused::Twice(finish) => json!({"error": "turn", "finish": finish, "turn": turn, "why": "twice"}),
        Refused::Unnamed(source) => json!({"error": "unnamed", "source": source, "turn": turn}),
    };
    writeln!(out, "{line}").expect("standard output");
    4
}

const SECOND: u64 = 1_000_000_000;

fn made(kind: &str, prefix: &str, at: u64, version: u64, owner: Option<u64>) -> Rc<Object> {
    let mut metadata = json!({"name": format!("{prefix}{at}"), "namespace": "ns", "resourceVersion": version.to_string()});
    if let Some(owner) = owner {
        metadata["ownerReferences"] = json!([{"apiVersion": "v1", "kind": "ConfigMap", "name": format!("p{owner}"), "uid": "u"}]);
    }
    let value = json!({"apiVersion": "v1", "kind": kind, "metadata": metadata});
    Rc::new(Object::read(value).expect("an object"))
}

fn pages(count: u64, object: impl Fn(u64) -> Rc<Object>) -> VecDeque<Result<Page, Rc<str>>> {
    let whole = count.div_ceil(500);
    let page = |number: u64| {
        let items = (number * 500..count.min(number * 500 + 500)).map(&object).collect();
        let is_last = number + 1 == whole;
        let token = (!is_last).then(|| format!("t{}", number + 1).into());
        Ok(Page { items, token, version: is_last.then(|| count.to_string().into()) })
    };
    (0..whole).map(page).collect()
}

/// Runs over an input that is made, a turn at a time, and writes its totals. The status.
pub fn generate(seed: u64, objects: u64, turns: u64, out: &mut impl Write) -> i32 {
    let (mut x, mut steps) = (seed, VecDeque::new());
    for turn in 1..=turns {
        x = x.wrapping_mul(6364136223846793005).wrapping_add(1442695040888963407);
        steps.push_back(Step::Wait(SECOND));
        let changed = made("ConfigMap", "p", (x >> 33) % objects, objects + turn, None);
        steps.push_back(Step::Events([Event::Modified(changed)].into()));
    }
    steps.push_back(Step::Wait(10_000 * SECOND));
    let parents = pages(objects, |at| made("ConfigMap", "p", at, at + 1, None));
    let children = pages(3 * objects, |at| made("Pod", "c", at, at + 1, Some(at / 3)));
    let mut root = Source::new(parents, [steps].into());
    let mut related = Source::new(children, [[Step::Wait(10_000 * SECOND)].into()].into());
    (root.window, related.window) = (None, None);
    let kind = |kind: &str| Kind { group: String::new(), version: "v1".into(), kind: kind.into() };
    related.kind = Some((kind("Pod"), Map::Owners));
    let (mut controller, _) = Controller::new(Script {
        kind: kind("ConfigMap"),
        debounce: 0,
        concurrency: 10,
        delays: Delays::Default,
        error_requeue: None,
        sources: vec![root, related],
        turns: Vec::new(),
    });
    let [mut asks, mut requests, mut started, mut missing, mut finished] = [0; 5];
    for turn in 1..=turns {
        let finishes = controller.queue.in_order().into_iter().map(|key| Finish { key, outcome: Ok(None) }).collect();
        let turn = Turn { at: turn * SECOND, budget: vec![200, 200], finishes, reload: false, on: Vec::new(), shutdown: Shutdown::No, show: false };
        let Ok(record) = controller.turn(turn) else {
            return 4;
        };
        asks += record.asks.len();
        requests += record.asks.iter().map(|it| it.requests.len()).sum::<usize>();
        started += record.taken.iter().filter(|it| it.object.is_some()).count();
        missing += record.taken.iter().filter(|it| it.object.is_none()).count();
        finished += record.finished.len();
    }
    let objects = controller.store.len();
    writeln!(out, "{{\"asks\":{asks},\"finished\":{finished},\"missing\":{missing},\"objects\":{objects},\"requests\":{requests},\"started\":{started}}}").expect("standard output");
    0
}
