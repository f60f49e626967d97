//! What is stored, in the order in which keys came.

use crate::objects::{Key, Object};
use std::collections::HashMap;
use std::rc::Rc;

#[derive(Default)]
pub struct Store {
    slots: Vec<Option<(Key, Rc<Object>)>>,
    places: HashMap<Key, usize>,
}

impl Store {
    pub fn put(&mut self, key: Key, object: Rc<Object>) {
        match self.places.get(&key) {
            Some(place) => self.slots[*place] = Some((key, object)),
            None => {
                self.places.insert(key.clone(), self.slots.len());
                self.slots.push(Some((key, object)));
            }
        }
    }

    pub fn remove(&mut self, key: &Key) {
        let Some(place) = self.places.remove(key) else {
            return;
        };
        self.slots[place] = None;
        if self.slots.len() > 2 * self.places.len() + 16 {
            self.slots.retain(Option::is_some);
            for (place, slot) in self.slots.iter().enumerate() {
                if let Some((key, _)) = slot {
                    *self.places.get_mut(key).expect("a place") = place;
                }
            }
        }
    }

    fn at(&self, key: &Key) -> Option<&Rc<Object>> {
        self.places.get(key).and_then(|place| self.slots[*place].as_ref()).map(|slot| &slot.1)
    }

    /// Under the key, or else under its name alone.
    pub fn get(&self, key: &Key) -> Option<&Rc<Object>> {
        self.at(key).or_else(|| if key.namespace.is_some() { self.at(&Key { namespace: None, name: key.name.clone() }) } else { None })
    }

    pub fn objects(&self) -> impl Iterator<Item = &Rc<Object>> {
        self.slots.iter().flatten().map(|slot| &slot.1)
    }

    pub fn keys(&self) -> impl Iterator<Item = &Key> {
        self.slots.iter().flatten().map(|slot| &slot.0)
    }

    pub fn len(&self) -> usize {
        self.places.len()
    }
}
