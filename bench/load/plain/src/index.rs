//! Which streams of a loop a change concerns, so that a put of what few of them name wakes these alone.
use crate::catalogue::{Catalogue, Name};
use std::collections::HashMap;

/// The streams of one loop that want something of one type, each list in ascending order.
#[derive(Default)]
pub struct Index {
    stars: Vec<u64>,
    /// By each name that some stream names.
    named: HashMap<Name, Vec<u64>>,
    /// The changes up to which the streams were looked at.
    seen: u64,
}

fn set(streams: &mut Vec<u64>, stream: u64, is_in: bool) {
    match streams.binary_search(&stream) {
        Err(at) if is_in => streams.insert(at, stream),
        Ok(at) if !is_in => {
            streams.remove(at);
        }
        _ => {}
    }
}

impl Index {
    pub fn set_star(&mut self, stream: u64, has_star: bool) {
        set(&mut self.stars, stream, has_star);
    }

    pub fn set_name(&mut self, stream: u64, name: &Name, is_wanted: bool) {
        if let Some(streams) = self.named.get_mut(name) {
            set(streams, stream, is_wanted);
            if streams.is_empty() {
                self.named.remove(name);
            }
        } else if is_wanted {
            self.named.insert(name.clone(), vec![stream]);
        }
    }

    /// Adds the streams that what changed since the last call concerns. A stream may be added twice.
    pub fn add_concerned(&mut self, catalogue: &Catalogue, concerned: &mut Vec<u64>) {
        if self.seen == catalogue.changes {
            return;
        }
        concerned.extend_from_slice(&self.stars);
        if !self.named.is_empty() {
            let named = catalogue.since(self.seen).filter_map(|name| self.named.get(name));
            named.for_each(|streams| concerned.extend_from_slice(streams));
        }
        self.seen = catalogue.changes;
    }
}
