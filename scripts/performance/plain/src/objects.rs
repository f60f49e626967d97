//! Objects, and the references under which they are stored.

use serde_json::{Map, Value};
use std::rc::Rc;

#[derive(Clone, PartialEq, Eq, Hash, PartialOrd, Ord)]
pub struct Key {
    pub namespace: Option<Rc<str>>,
    pub name: Rc<str>,
}

pub struct Kind {
    pub group: String,
    pub version: String,
    pub kind: String,
}

impl Kind {
    pub fn api_version(&self) -> String {
        if self.group.is_empty() { self.version.clone() } else { format!("{}/{}", self.group, self.version) }
    }

    pub fn shown(&self, key: &Key) -> String {
        let Kind { group, version, kind } = self;
        match &key.namespace {
            Some(namespace) => format!("{kind}.{version}.{group}/{}.{namespace}", key.name),
            None => format!("{kind}.{version}.{group}/{}", key.name),
        }
    }
}

pub struct Object {
    pub key: Option<Key>,
    /// None where it is absent or empty.
    pub version: Option<Rc<str>>,
    /// As it is written.
    pub value: Value,
}

const TEXTS: [&str; 5] = ["name", "namespace", "uid", "resourceVersion", "deletionTimestamp"];

fn whole_alone(value: &Value) -> bool {
    match value {
        Value::Number(number) => number.is_u64() || number.is_i64(),
        Value::Array(items) => items.iter().all(whole_alone),
        Value::Object(members) => members.values().all(whole_alone),
        _ => true,
    }
}

fn texts(value: &Value) -> bool {
    value.as_object().is_some_and(|members| members.values().all(Value::is_string))
}

/// Metadata with the members that are kept, or None where one has another form.
fn metadata(value: Value) -> Option<Map<String, Value>> {
    let Value::Object(mut given) = value else {
        return if value.is_null() { Some(Map::new()) } else { None };
    };
    let mut kept = Map::new();
    for name in TEXTS {
        match given.remove(name) {
            None | Some(Value::Null) => {}
            Some(text @ Value::String(_)) => drop(kept.insert(name.into(), text)),
            Some(_) => return None,
        }
    }
    match given.remove("generation") {
        None | Some(Value::Null) => {}
        Some(number) if number.is_i64() => drop(kept.insert("generation".into(), number)),
        Some(_) => return None,
    }
    for name in ["labels", "annotations"] {
        match given.remove(name) {
            None | Some(Value::Null) => {}
            Some(map) if texts(&map) => {
                if !map.as_object()?.is_empty() {
                    kept.insert(name.into(), map);
                }
            }
            Some(_) => return None,
        }
    }
    match given.remove("finalizers") {
        None | Some(Value::Null) => {}
        Some(Value::Array(items)) if items.iter().all(Value::is_string) => {
            if !items.is_empty() {
                kept.insert("finalizers".into(), Value::Array(items));
            }
        }
        Some(_) => return None,
    }
    match given.remove("ownerReferences") {
        None | Some(Value::Null) => {}
        Some(Value::Array(items)) => {
            let mut owners = Vec::new();
            for mut item in items {
                let mut owner = Map::new();
                for name in ["apiVersion", "kind", "name", "uid"] {
                    let text = item.get_mut(name).map(Value::take).filter(Value::is_string)?;
                    owner.insert(name.into(), text);
                }
                owners.push(Value::Object(owner));
            }
            if !owners.is_empty() {
                kept.insert("ownerReferences".into(), Value::Array(owners));
            }
        }
        Some(_) => return None,
    }
    Some(kept)
}

impl Object {
    pub fn read(value: Value) -> Option<Object> {
        let Value::Object(mut members) = value else {
            return None;
        };
        let present = |value: Option<Value>| value.filter(|it| !it.is_null());
        let (api_version, kind) = (present(members.remove("apiVersion")), present(members.remove("kind")));
        let metadata = metadata(members.remove("metadata").unwrap_or(Value::Null))?;
        if !members.values().all(whole_alone) {
            return None;
        }
        match (api_version, kind) {
            (None, None) => {}
            (Some(api_version @ Value::String(_)), Some(kind @ Value::String(_))) => {
                members.insert("apiVersion".into(), api_version);
                members.insert("kind".into(), kind);
            }
            _ => return None,
        }
        let text = |name: &str| metadata.get(name).and_then(Value::as_str).map(Rc::from);
        let namespace = text("namespace");
        let key = text("name").map(|name| Key { namespace, name });
        let version = text("resourceVersion").filter(|it: &Rc<str>| !it.is_empty());
        members.insert("metadata".into(), Value::Object(metadata));
        Some(Object { key, version, value: Value::Object(members) })
    }

    pub fn label(&self, name: &str) -> Option<&str> {
        self.value.get("metadata")?.get("labels")?.get(name)?.as_str()
    }

    /// The names of the owners of a type.
    pub fn owners(&self, api_version: &str, kind: &str) -> Vec<Rc<str>> {
        let owners = self.value.get("metadata").and_then(|it| it.get("ownerReferences")).and_then(Value::as_array);
        let text = |owner: &Value, name: &str| owner.get(name).and_then(Value::as_str).map(String::from);
        let is_of = |owner: &&Value| text(owner, "apiVersion").as_deref() == Some(api_version) && text(owner, "kind").as_deref() == Some(kind);
        owners.into_iter().flatten().filter(is_of).filter_map(|owner| text(owner, "name")).map(Rc::from).collect()
    }
}
