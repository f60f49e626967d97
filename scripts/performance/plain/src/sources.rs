//! Sources: an API that a script tells, and the watcher that asks it.

use crate::objects::{Kind, Object};
use std::collections::VecDeque;
use std::rc::Rc;

#[derive(Clone)]
pub struct Status {
    pub code: u16,
    pub message: Rc<str>,
}

#[derive(Clone)]
pub struct Page {
    pub items: Vec<Rc<Object>>,
    pub token: Option<Rc<str>>,
    pub version: Option<Rc<str>>,
}

/// A fault is kept as the text that is shown of it.
pub type Fault = Rc<str>;

pub enum Event {
    Added(Rc<Object>),
    Modified(Rc<Object>),
    Deleted(Rc<Object>),
    Bookmark { version: Rc<str>, ending: bool },
    Error(Status),
    Fault(Fault),
}

pub enum Step {
    Wait(u64),
    Events(VecDeque<Event>),
}

pub enum Map {
    Owners,
    Label(String),
}

pub enum State {
    Start,
    Page(Rc<str>),
    Watch(Rc<str>),
    Initial,
    Later(Rc<str>),
}

pub struct Source {
    /// Of a related source.
    pub kind: Option<(Kind, Map)>,
    pub streaming: bool,
    pub window: Option<u64>,
    pub lists: VecDeque<Result<Page, Fault>>,
    pub watches: VecDeque<VecDeque<Step>>,
    pub open: Option<VecDeque<Step>>,
    pub state: State,
    pub begun: Option<u64>,
    pub silent: Option<u64>,
    pub listed: Vec<Rc<Object>>,
}

pub enum Call {
    List(Option<Rc<str>>),
    Watch(Rc<str>, bool),
    Next,
}

pub enum Answer {
    Page { token: Option<Rc<str>>, version: Option<Rc<str>> },
    Opened,
    Added(Option<Rc<str>>),
    Modified(Option<Rc<str>>),
    Deleted(Option<Rc<str>>),
    Bookmark { version: Rc<str>, ending: bool },
    Error(u16),
    Fault(Fault),
    End,
    Idle,
    NotReady,
}

/// What an exchange does to what is stored and requested.
pub enum Outcome {
    Nothing,
    /// Items of a list that is under way: they need names.
    Listing,
    /// The list is complete: it replaces what is stored.
    Complete(Vec<Rc<Object>>),
    Put,
    Drop,
}

pub struct Exchange {
    pub call: Call,
    pub answer: Answer,
    pub items: Vec<Rc<Object>>,
    pub error: Option<&'static str>,
    pub outcome: Outcome,
}

impl Source {
    pub fn new(lists: VecDeque<Result<Page, Fault>>, watches: VecDeque<VecDeque<Step>>) -> Source {
        Source {
            kind: None,
            streaming: false,
            window: Some(295_000_000_000),
            lists,
            watches,
            open: None,
            state: State::Start,
            begun: None,
            silent: None,
            listed: Vec::new(),
        }
    }

    /// Makes the owed call.
    pub fn ask(&mut self, now: u64) -> Exchange {
        let exchange = match &self.state {
            State::Start if self.streaming => self.watch("0".into(), true),
            State::Start => self.list(None),
            State::Page(token) => self.list(Some(token.clone())),
            State::Watch(version) => self.watch(version.clone(), false),
            State::Initial | State::Later(_) => self.next(now),
        };
        if !matches!(exchange.answer, Answer::NotReady) {
            self.silent = None;
        }
        exchange
    }

    fn list(&mut self, token: Option<Rc<str>>) -> Exchange {
        if token.is_none() {
            self.listed.clear();
        }
        let empty = Page { items: Vec::new(), token: None, version: None };
        let call = Call::List(token);
        let page = match self.lists.pop_front().unwrap_or(Ok(empty)) {
            Ok(page) => page,
            Err(fault) => {
                self.state = State::Start;
                return Exchange { call, answer: Answer::Fault(fault), items: Vec::new(), error: Some("InitialListFailed"), outcome: Outcome::Nothing };
            }
        };
        let filled = |text: Option<Rc<str>>| text.filter(|it| !it.is_empty());
        let (token, version) = (filled(page.token), filled(page.version));
        let answer = Answer::Page { token: token.clone(), version: version.clone() };
        let (items, mut error) = (page.items, None);
        let outcome = match (token, version) {
            (Some(token), _) => {
                self.listed.extend(items.iter().cloned());
                self.state = State::Page(token);
                Outcome::Listing
            }
            (None, Some(version)) => {
                self.listed.extend(items.iter().cloned());
                self.state = State::Watch(version);
                Outcome::Complete(std::mem::take(&mut self.listed))
            }
            (None, None) => {
                self.state = State::Start;
                error = Some("NoResourceVersion");
                Outcome::Nothing
            }
        };
        Exchange { call, answer, items, error, outcome }
    }

    fn watch(&mut self, version: Rc<str>, initial: bool) -> Exchange {
        let (answer, error) = match self.watches.pop_front() {
            Some(steps) => {
                self.open = Some(steps);
                self.begun = None;
                self.listed.clear();
                self.state = if initial { State::Initial } else { State::Later(version.clone()) };
                (Answer::Opened, None)
            }
            None => (Answer::Fault("TestMode watch sequence exhausted".into()), Some("WatchStartFailed")),
        };
        Exchange { call: Call::Watch(version, initial), answer, items: Vec::new(), error, outcome: Outcome::Nothing }
    }

    /// What the open watch tells: None where it isn't ready.
    fn poll(&mut self, now: u64) -> Option<Option<Event>> {
        let Some(steps) = &mut self.open else {
            return Some(None);
        };
        while let Some(step) = steps.front_mut() {
            match step {
                Step::Wait(nanos) => {
                    let begun = *self.begun.get_or_insert(now);
                    if now - begun < *nanos {
                        return None;
                    }
                    self.begun = None;
                    steps.pop_front();
                }
                Step::Events(events) => match events.pop_front() {
                    Some(event) => return Some(Some(event)),
                    None => drop(steps.pop_front()),
                },
            }
        }
        Some(None)
    }

    fn next(&mut self, now: u64) -> Exchange {
        let initial = matches!(self.state, State::Initial);
        let kept = match &self.state {
            State::Later(version) => version.clone(),
            _ => "".into(),
        };
        let mut made = Exchange { call: Call::Next, answer: Answer::NotReady, items: Vec::new(), error: None, outcome: Outcome::Nothing };
        let event = match self.poll(now) {
            None => {
                let silent = *self.silent.get_or_insert(now);
                if self.window.is_some_and(|window| now - silent >= window) {
                    made.answer = Answer::Idle;
                    self.state = if initial { State::Start } else { State::Watch(kept) };
                }
                return made;
            }
            Some(None) => {
                made.answer = Answer::End;
                self.state = if initial { State::Start } else { State::Watch(kept) };
                return made;
            }
            Some(Some(event)) => event,
        };
        let (object, is_put) = match event {
            Event::Bookmark { version, ending } => {
                if initial && ending {
                    made.outcome = Outcome::Complete(std::mem::take(&mut self.listed));
                }
                if !initial || ending {
                    self.state = State::Later(version.clone());
                }
                made.answer = Answer::Bookmark { version, ending };
                return made;
            }
            Event::Error(status) => {
                made.error = Some("WatchError");
                if status.code == 410 {
                    self.state = State::Start;
                }
                made.answer = Answer::Error(status.code);
                return made;
            }
            Event::Fault(fault) => {
                made.error = Some("WatchFailed");
                made.answer = Answer::Fault(fault);
                return made;
            }
            Event::Added(object) => {
                made.answer = Answer::Added(object.version.clone());
                (object, true)
            }
            Event::Modified(object) => {
                made.answer = Answer::Modified(object.version.clone());
                (object, true)
            }
            Event::Deleted(object) => {
                made.answer = Answer::Deleted(object.version.clone());
                (object, false)
            }
        };
        if initial {
            if is_put {
                self.listed.push(object.clone());
                made.outcome = Outcome::Listing;
            }
        } else if let Some(version) = object.version.clone() {
            self.state = State::Later(version);
            made.outcome = if is_put { Outcome::Put } else { Outcome::Drop };
        } else {
            self.state = State::Start;
            made.error = Some("NoResourceVersion");
        }
        made.items.push(object);
        made
    }
}
