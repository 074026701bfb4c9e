//! What the plain server holds of one type, and the texts of responses that many streams have in common.
use serde_json::Value;
use std::collections::hash_map::DefaultHasher;
use std::collections::{BTreeMap, BTreeSet, HashMap};
use std::hash::{Hash, Hasher};
use std::sync::{Arc, Mutex};

pub type Name = Arc<str>;

/// A row of the types: its word, its URL, both spellings of its name field, and whether a response lists everything.
pub struct Type {
    pub word: &'static str,
    pub url: &'static str,
    pub name: [&'static str; 2],
    pub is_complete: bool,
}

const fn row(word: &'static str, url: &'static str, is_complete: bool) -> Type {
    Type { word, url, name: ["name", "name"], is_complete }
}

pub const TYPES: [Type; 5] = [
    row("cluster", "type.googleapis.com/envoy.config.cluster.v3.Cluster", true),
    Type {
        word: "endpoint",
        url: "type.googleapis.com/envoy.config.endpoint.v3.ClusterLoadAssignment",
        name: ["clusterName", "cluster_name"],
        is_complete: false,
    },
    row("listener", "type.googleapis.com/envoy.config.listener.v3.Listener", true),
    row("route", "type.googleapis.com/envoy.config.route.v3.RouteConfiguration", false),
    row("secret", "type.googleapis.com/envoy.extensions.transport_sockets.tls.v3.Secret", false),
];

pub struct Entry {
    /// The number of its last change, which is the counter of its version, too.
    pub change: u64,
    /// The compact text, or none once it was deleted.
    pub body: Option<Box<str>>,
    /// The change by which it came last.
    born: u64,
    /// The changes by which it came and went before.
    past: Vec<(u64, u64)>,
}

impl Entry {
    /// Whether it was live once so many changes were made.
    pub fn lived_at(&self, change: u64) -> bool {
        self.body.is_some() && self.born <= change
            || self.past.iter().any(|(born, died)| *born <= change && change < *died)
    }
}

/// What a response says of each name, in ascending order: the change that it states, or none where the name is gone.
pub struct Offer {
    pub names: Vec<(Name, Option<u64>)>,
    /// Two offers of one session are the same where this is.
    pub sum: u64,
}

impl Offer {
    pub fn new(names: Vec<(Name, Option<u64>)>) -> Self {
        let mut sum = DefaultHasher::new();
        for (name, change) in &names {
            match change {
                Some(change) => change.hash(&mut sum),
                None => name.hash(&mut sum),
            }
        }
        Self { names, sum: sum.finish() }
    }
}

/// A response from behind its nonce on, so that streams share it.
pub struct Response {
    pub text: Vec<u8>,
    pub offer: Arc<Offer>,
    /// The count of changes when it was made.
    pub to: u64,
}

/// Which of the shared responses: of the state of the world, or in delta from these two changes on.
#[derive(PartialEq, Eq, Hash)]
pub enum Key {
    Whole,
    Since { told: u64, gone: u64 },
}

pub struct Catalogue {
    of: &'static Type,
    entries: HashMap<Name, Entry>,
    /// The names of all entries, in ascending order.
    names: BTreeSet<Name>,
    /// The name that each change was of, if it is the last of that name.
    log: BTreeMap<u64, Name>,
    pub changes: u64,
    /// Shared responses that say the present state.
    shared: Mutex<HashMap<Key, Arc<Response>>>,
}

impl Catalogue {
    pub fn new(of: &'static Type) -> Self {
        let (entries, names, log) = (HashMap::new(), BTreeSet::new(), BTreeMap::new());
        Self { of, entries, names, log, changes: 0, shared: Mutex::new(HashMap::new()) }
    }

    fn changed(&mut self, name: &Name, before: Option<u64>) {
        if let Some(before) = before {
            self.log.remove(&before);
        }
        self.log.insert(self.changes, name.clone());
        self.shared.get_mut().unwrap().clear();
    }

    pub fn put(&mut self, name: &str, body: Box<str>) {
        self.changes += 1;
        let change = self.changes;
        let found = self.entries.get_key_value(name).map(|(name, entry)| (name.clone(), entry.change));
        let (name, before) = found.map_or_else(|| (Name::from(name), None), |(name, before)| (name, Some(before)));
        if before.is_none() {
            self.names.insert(name.clone());
        }
        let fresh = || Entry { change, body: None, born: change, past: Vec::new() };
        let entry = self.entries.entry(name.clone()).or_insert_with(fresh);
        if entry.body.is_none() {
            entry.born = change;
        }
        (entry.change, entry.body) = (change, Some(body));
        self.changed(&name, before);
    }

    /// Deletes what is live under a name; where nothing is, nothing changes.
    pub fn delete(&mut self, name: &str) {
        let Some((name, _)) = self.entries.get_key_value(name) else { return };
        let name = name.clone();
        let entry = self.entries.get_mut(&name).unwrap();
        if entry.body.take().is_none() {
            return;
        }
        self.changes += 1;
        let before = entry.change;
        entry.change = self.changes;
        entry.past.push((entry.born, self.changes));
        self.changed(&name, Some(before));
    }

    /// A name, which shares its text with the entry where there is one.
    pub fn name(&self, name: &str) -> Name {
        self.entries.get_key_value(name).map_or_else(|| Name::from(name), |(name, _)| name.clone())
    }

    pub fn entry(&self, name: &str) -> Option<&Entry> {
        self.entries.get(name)
    }

    /// The change by which a name has what is live under it.
    pub fn live(&self, name: &str) -> Option<u64> {
        self.entries.get(name).filter(|entry| entry.body.is_some()).map(|entry| entry.change)
    }

    pub fn all_live(&self) -> impl Iterator<Item = (&Name, u64)> {
        self.names.iter().filter_map(|name| Some((name, self.live(name)?)))
    }

    /// The names that changed after a change.
    pub fn since(&self, change: u64) -> impl Iterator<Item = &Name> {
        self.log.range(change + 1..).map(|(_, name)| name)
    }

    /// What a client is owed of a name that has all as it was after `told` changes, and may have what lived after
    /// `gone`.
    pub fn owed(&self, name: &str, told: u64, gone: u64) -> Option<Option<u64>> {
        let entry = self.entry(name)?;
        match entry.body {
            Some(_) => (entry.change > told).then_some(Some(entry.change)),
            None => entry.lived_at(gone).then_some(None),
        }
    }

    /// A response that every stream with this key is sent, made once.
    pub fn shared(&self, key: Key) -> Arc<Response> {
        let mut shared = self.shared.lock().unwrap();
        if let Some(made) = shared.get(&key) {
            return made.clone();
        }
        let made = Arc::new(match key {
            Key::Whole => {
                self.whole(self.all_live().map(|(name, change)| (name.clone(), Some(change))).collect(), true)
            }
            Key::Since { told, gone } => {
                let mut names: Vec<(Name, Option<u64>)> =
                    self.since(told).filter_map(|name| Some((name.clone(), self.owed(name, told, gone)?))).collect();
                names.sort_unstable();
                self.delta(names)
            }
        });
        shared.insert(key, made.clone());
        made
    }

    /// Lets go of the shared responses.
    pub fn forget(&self) {
        *self.shared.lock().unwrap() = HashMap::new();
    }

    /// The texts of the resources that are stated, with what stands before, between and behind them.
    fn resources(
        &self,
        text: &mut Vec<u8>,
        names: &[(Name, Option<u64>)],
        add: impl Fn(&mut Vec<u8>, &Name, &Entry, &str),
    ) {
        let mut separator: &[u8] = b",\"resources\":[";
        for (name, _) in names.iter().filter(|(_, change)| change.is_some()) {
            let entry = &self.entries[name];
            text.extend_from_slice(separator);
            add(text, name, entry, entry.body.as_deref().unwrap_or_default());
            separator = b",";
        }
        if separator == b"," {
            text.push(b']');
        }
    }

    /// The bytes of the bodies that are stated, to reserve room.
    fn room(&self, names: &[(Name, Option<u64>)], each: usize) -> usize {
        let body = |name: &Name| self.entry(name).and_then(|it| it.body.as_ref()).map_or(0, |body| body.len());
        names.iter().map(|(name, _)| name.len() + each + body(name)).sum::<usize>() + 256
    }

    /// The response of the state of the world that states these names.
    pub fn whole(&self, names: Vec<(Name, Option<u64>)>, star: bool) -> Response {
        let mut text = Vec::with_capacity(self.room(&names, 1));
        self.resources(&mut text, &names, |text, _, _, body| text.extend_from_slice(body.as_bytes()));
        let named = if star { "" } else { ".named" };
        let (url, to) = (self.of.url, self.changes);
        text.extend_from_slice(format!(",\"typeUrl\":\"{url}\",\"versionInfo\":\"1.{to}{named}\"}}").as_bytes());
        Response { text, offer: Arc::new(Offer::new(names)), to }
    }

    /// The delta response that states these names, or says that they are gone.
    pub fn delta(&self, names: Vec<(Name, Option<u64>)>) -> Response {
        let mut text = Vec::with_capacity(self.room(&names, 60));
        let mut separator: &[u8] = b",\"removedResources\":[";
        for (name, _) in names.iter().filter(|(_, change)| change.is_none()) {
            text.extend_from_slice(separator);
            text.extend_from_slice(quoted(name).as_bytes());
            separator = b",";
        }
        if separator == b"," {
            text.push(b']');
        }
        self.resources(&mut text, &names, |text, name, entry, body| {
            text.extend_from_slice(b"{\"name\":");
            text.extend_from_slice(quoted(name).as_bytes());
            text.extend_from_slice(b",\"resource\":");
            text.extend_from_slice(body.as_bytes());
            text.extend_from_slice(format!(",\"version\":\"{}-1\"}}", entry.change).as_bytes());
        });
        let (url, to) = (self.of.url, self.changes);
        text.extend_from_slice(format!(",\"systemVersionInfo\":\"1.{to}\",\"typeUrl\":\"{url}\"}}").as_bytes());
        Response { text, offer: Arc::new(Offer::new(names)), to }
    }
}

fn quoted(name: &str) -> String {
    Value::from(name).to_string()
}
