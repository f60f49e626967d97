//! Scripts.

use crate::objects::{Key, Kind, Object};
use crate::sources::{Event, Fault, Map, Page, Source, Status, Step};
use serde_json::Value;
use std::collections::VecDeque;
use std::rc::Rc;

pub struct Finish {
    pub key: Key,
    pub outcome: Result<Option<u64>, String>,
}

#[derive(Clone, Copy, PartialEq)]
pub enum Shutdown {
    No,
    Graceful,
    Forced,
}

pub struct Turn {
    pub at: u64,
    pub budget: Vec<u32>,
    pub finishes: Vec<Finish>,
    pub reload: bool,
    pub on: Vec<Key>,
    pub shutdown: Shutdown,
    pub show: bool,
}

#[derive(Clone)]
pub struct Growth {
    pub min: u64,
    pub num: u64,
    pub den: u64,
    pub cap: u64,
}

pub enum Delays {
    Default,
    Stop,
    Grows(Growth),
}

pub struct Script {
    pub kind: Kind,
    pub debounce: u64,
    pub concurrency: u16,
    pub delays: Delays,
    pub error_requeue: Option<u64>,
    pub sources: Vec<Source>,
    pub turns: Vec<Turn>,
}

fn member(value: &mut Value, name: &str) -> Option<Value> {
    value.get_mut(name).map(Value::take).filter(|it| !it.is_null())
}

fn items(value: &mut Value, name: &str) -> Option<Vec<Value>> {
    match member(value, name) {
        None => Some(Vec::new()),
        Some(Value::Array(items)) => Some(items),
        Some(_) => None,
    }
}

fn text(value: &mut Value, name: &str) -> Option<String> {
    match member(value, name) {
        Some(Value::String(text)) => Some(text),
        _ => None,
    }
}

fn number(value: &mut Value, name: &str) -> Option<Option<u64>> {
    match member(value, name) {
        None => Some(None),
        Some(number) => Some(Some(number.as_u64()?)),
    }
}

fn flag(value: &mut Value, name: &str) -> Option<bool> {
    match member(value, name) {
        None => Some(false),
        Some(flag) => flag.as_bool(),
    }
}

fn kind(value: &mut Value) -> Option<Kind> {
    let mut kind = member(value, "kind")?;
    text(&mut kind, "plural")?;
    Some(Kind { group: text(&mut kind, "group")?, version: text(&mut kind, "version")?, kind: text(&mut kind, "kind")? })
}

fn key(mut value: Value) -> Option<Key> {
    let namespace = match member(&mut value, "namespace") {
        None => None,
        Some(namespace) => Some(Rc::from(namespace.as_str()?)),
    };
    Some(Key { namespace, name: Rc::from(text(&mut value, "name")?) })
}

fn status(value: &mut Value) -> Option<Status> {
    let code = number(value, "code")?.unwrap_or(0).try_into().ok()?;
    Some(Status { code, message: text(value, "message").unwrap_or_default().into() })
}

fn fault(mut value: Value) -> Option<Fault> {
    if let Some(mut api) = member(&mut value, "api") {
        return Some(status(&mut api)?.message);
    }
    text(&mut value, "read").or_else(|| text(&mut value, "transport")).map(Rc::from)
}

fn page(mut value: Value) -> Option<Result<Page, Fault>> {
    if let Some(given) = member(&mut value, "fault") {
        return Some(Err(fault(given)?));
    }
    let mut metadata = member(&mut value, "metadata").unwrap_or(Value::Null);
    let objects: Option<Vec<_>> = items(&mut value, "items")?.into_iter().map(|it| Object::read(it).map(Rc::new)).collect();
    let (token, version) = (text(&mut metadata, "continue"), text(&mut metadata, "resourceVersion"));
    Some(Ok(Page { items: objects?, token: token.map(Rc::from), version: version.map(Rc::from) }))
}

fn event(mut value: Value) -> Option<Event> {
    let kind = text(&mut value, "type")?;
    if kind == "FAULT" {
        return Some(Event::Fault(fault(member(&mut value, "fault")?)?));
    }
    let mut object = member(&mut value, "object")?;
    Some(match kind.as_str() {
        "ADDED" => Event::Added(Rc::new(Object::read(object)?)),
        "MODIFIED" => Event::Modified(Rc::new(Object::read(object)?)),
        "DELETED" => Event::Deleted(Rc::new(Object::read(object)?)),
        "ERROR" => Event::Error(status(&mut object)?),
        "BOOKMARK" => {
            let mut metadata = member(&mut object, "metadata")?;
            let ending = metadata.get("annotations").and_then(|it| it.get("k8s.io/initial-events-end")).is_some();
            Event::Bookmark { version: text(&mut metadata, "resourceVersion")?.into(), ending }
        }
        _ => return None,
    })
}

fn step(mut value: Value) -> Option<Step> {
    if let Some(nanos) = number(&mut value, "wait")? {
        return Some(Step::Wait(nanos));
    }
    let events: Option<VecDeque<_>> = items(&mut value, "events")?.into_iter().map(event).collect();
    Some(Step::Events(events?))
}

fn source(mut value: Value) -> Option<Source> {
    let lists: Option<VecDeque<_>> = items(&mut value, "lists")?.into_iter().map(page).collect();
    let watch = |steps: Value| match steps {
        Value::Array(steps) => steps.into_iter().map(step).collect(),
        _ => None,
    };
    let watches: Option<VecDeque<VecDeque<_>>> = items(&mut value, "watches")?.into_iter().map(watch).collect();
    let mut source = Source::new(lists?, watches?);
    if let Some(mut watcher) = member(&mut value, "watcher") {
        source.streaming = flag(&mut watcher, "streaming")?;
        source.window = match number(&mut watcher, "timeout")? {
            Some(0) => None,
            seconds => Some((seconds.unwrap_or(290) + 5) * 1_000_000_000),
        };
    }
    Some(source)
}

fn related(mut value: Value) -> Option<Source> {
    let kind = kind(&mut value)?;
    let map = match member(&mut value, "map")? {
        Value::String(owners) if owners == "owners" => Map::Owners,
        mut map => Map::Label(text(&mut map, "label")?),
    };
    let mut source = source(value)?;
    source.kind = Some((kind, map));
    Some(source)
}

fn turn(mut value: Value) -> Option<Turn> {
    let at = number(&mut value, "at")??;
    let budget: Option<Vec<u32>> = items(&mut value, "budget")?.iter().map(|it| it.as_u64()?.try_into().ok()).collect();
    let finish = |mut value: Value| {
        let key = key(member(&mut value, "ref")?)?;
        let outcome = match (text(&mut value, "err"), number(&mut value, "ok")?) {
            (Some(fault), _) => Err(fault),
            (None, requeue) => Ok(requeue),
        };
        Some(Finish { key, outcome })
    };
    let finishes: Option<Vec<_>> = items(&mut value, "finishes")?.into_iter().map(finish).collect();
    let on: Option<Vec<_>> = items(&mut value, "on")?.into_iter().map(key).collect();
    let shutdown = match text(&mut value, "shutdown").as_deref() {
        None | Some("no") => Shutdown::No,
        Some("graceful") => Shutdown::Graceful,
        Some("forced") => Shutdown::Forced,
        _ => return None,
    };
    let (reload, show) = (flag(&mut value, "reload")?, flag(&mut value, "show")?);
    Some(Turn { at, budget: budget?, finishes: finishes?, reload, on: on?, shutdown, show })
}

fn delays(value: &mut Value) -> Option<Delays> {
    Some(match member(value, "backoff") {
        None => Delays::Default,
        Some(Value::String(name)) if name == "default" => Delays::Default,
        Some(Value::String(name)) if name == "stop" => Delays::Stop,
        Some(mut given) => {
            let mut part = |name: &str| number(&mut given, name)?;
            Delays::Grows(Growth { min: part("min")?, num: part("num")?, den: part("den")?.max(1), cap: part("cap")? })
        }
    })
}

pub fn script(mut value: Value) -> Option<Script> {
    let kind = kind(&mut value)?;
    let mut config = member(&mut value, "config").unwrap_or(Value::Null);
    let debounce = number(&mut config, "debounce")?.unwrap_or(0);
    let concurrency = number(&mut config, "concurrency")?.unwrap_or(0).try_into().ok()?;
    let delays = delays(&mut value)?;
    let error_requeue = number(&mut value, "error_requeue")?;
    let mut sources = vec![source(member(&mut value, "root")?)?];
    for one in items(&mut value, "related")? {
        sources.push(related(one)?);
    }
    let turns: Option<Vec<_>> = items(&mut value, "turns")?.into_iter().map(turn).collect();
    Some(Script { kind, debounce, concurrency, delays, error_requeue, sources, turns: turns? })
}
