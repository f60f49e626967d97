//! Lines of a trace.

use crate::play::{Record, Started, Stop};
use crate::sources::{Answer, Call};
use std::io::{Result, Write};

fn text(out: &mut impl Write, name: &str, text: Option<&str>) -> Result<()> {
    write!(out, "\"{name}\":")?;
    serde_json::to_writer(&mut *out, &text)?;
    Ok(())
}

fn ask(out: &mut impl Write, ask: &crate::play::Ask) -> Result<()> {
    let exchange = &ask.exchange;
    let (answer, call) = (word(&exchange.answer), call_word(&exchange.call));
    write!(out, "{{\"answer\":\"{answer}\",\"call\":\"{call}\"")?;
    if let Answer::Error(code) = exchange.answer {
        write!(out, ",\"code\":{code}")?;
    }
    if let Answer::Bookmark { ending, .. } = exchange.answer {
        write!(out, ",\"ending\":{ending}")?;
    }
    if let Some(error) = exchange.error {
        write!(out, ",\"error\":\"{error}\"")?;
    }
    match &exchange.call {
        Call::List(token) => {
            out.write_all(b",")?;
            text(out, "from", token.as_deref())?;
        }
        Call::Watch(version, initial) => {
            out.write_all(b",")?;
            text(out, "from", Some(version))?;
            write!(out, ",\"initial\":{initial}")?;
        }
        Call::Next => {}
    }
    out.write_all(b",\"items\":[")?;
    if ask.source == 0 {
        for (at, object) in exchange.items.iter().enumerate() {
            if at > 0 {
                out.write_all(b",")?;
            }
            serde_json::to_writer(&mut *out, &object.value)?;
        }
    }
    out.write_all(b"],\"requests\":[")?;
    for (at, request) in ask.requests.iter().enumerate() {
        if at > 0 {
            out.write_all(b",")?;
        }
        serde_json::to_writer(&mut *out, &request)?;
    }
    write!(out, "],\"source\":{}", ask.source)?;
    match &exchange.answer {
        Answer::Fault(fault) => {
            out.write_all(b",")?;
            text(out, "text", Some(fault))?;
        }
        Answer::Page { token, version } => {
            out.write_all(b",")?;
            text(out, "token", token.as_deref())?;
            out.write_all(b",")?;
            text(out, "version", version.as_deref())?;
        }
        Answer::Added(version) | Answer::Modified(version) | Answer::Deleted(version) => {
            out.write_all(b",")?;
            text(out, "version", version.as_deref())?;
        }
        Answer::Bookmark { version, .. } => {
            out.write_all(b",")?;
            text(out, "version", Some(version))?;
        }
        _ => {}
    }
    out.write_all(b"}")
}

fn word(answer: &Answer) -> &'static str {
    match answer {
        Answer::Page { .. } => "page",
        Answer::Opened => "opened",
        Answer::Added(_) => "added",
        Answer::Modified(_) => "modified",
        Answer::Deleted(_) => "deleted",
        Answer::Bookmark { .. } => "bookmark",
        Answer::Error(_) => "error",
        Answer::Fault(_) => "fault",
        Answer::End => "end",
        Answer::Idle => "idle",
        Answer::NotReady => "not ready",
    }
}

fn call_word(call: &Call) -> &'static str {
    match call {
        Call::List(_) => "list",
        Call::Watch(..) => "watch",
        Call::Next => "next",
    }
}

fn stop_word(stop: &Stop) -> &'static str {
    match stop {
        Stop::NotReady => "not ready",
        Stop::Shutdown => "shutdown",
        Stop::Budget => "budget",
        Stop::Paused => "paused",
    }
}

pub fn record(out: &mut impl Write, number: usize, record: &Record) -> Result<()> {
    out.write_all(b"{\"asks\":[")?;
    for (at, one) in record.asks.iter().enumerate() {
        if at > 0 {
            out.write_all(b",")?;
        }
        ask(out, one)?;
    }
    write!(out, "],\"at\":{},\"ended\":{},\"finished\":[", record.at, record.ended)?;
    for (at, finished) in record.finished.iter().enumerate() {
        out.write_all(if at > 0 { b",{" } else { b"{" })?;
        text(out, "error", finished.fault.as_deref())?;
        out.write_all(b",")?;
        text(out, "ref", Some(&finished.shown))?;
        match finished.requeue {
            Some(requeue) => write!(out, ",\"requeue\":{requeue}}}")?,
            None => out.write_all(b",\"requeue\":null}")?,
        }
    }
    out.write_all(b"],\"stops\":[")?;
    for (at, stop) in record.stops.iter().enumerate() {
        write!(out, "{}\"{}\"", if at > 0 { "," } else { "" }, stop_word(stop))?;
    }
    out.write_all(b"]")?;
    if let Some(store) = &record.store {
        out.write_all(b",\"store\":[")?;
        for (at, object) in store.iter().enumerate() {
            if at > 0 {
                out.write_all(b",")?;
            }
            serde_json::to_writer(&mut *out, &object.value)?;
        }
        out.write_all(b"]")?;
    }
    out.write_all(b",\"taken\":[")?;
    for (at, taken) in record.taken.iter().enumerate() {
        if at > 0 {
            out.write_all(b",")?;
        }
        started(out, taken)?;
    }
    writeln!(out, "],\"turn\":{number}}}")
}

fn started(out: &mut impl Write, taken: &Started) -> Result<()> {
    match &taken.object {
        Some(object) => {
            out.write_all(b"{\"found\":true,\"object\":")?;
            serde_json::to_writer(&mut *out, &object.value)?;
        }
        None => out.write_all(b"{\"found\":false")?,
    }
    out.write_all(b",")?;
    text(out, "reason", Some(&taken.reason))?;
    out.write_all(b",")?;
    text(out, "ref", Some(&taken.shown))?;
    out.write_all(b"}")
}
