//! What the plain server knows of one type on one stream: what is wanted, what the client was told, what is under
//! way.
//!
//! A stream with the star and no names of its own, which most are, holds two numbers: all was told as it was after
//! `told` changes, and what lived after `gone` changes may be there at the client. Names that differ from that stand
//! in `held`, and so do all that a client names. The index of the loop knows the names that are wanted, and an
//! acceptance goes over the names of its response alone.
use crate::catalogue::{Catalogue, Key, Name, Offer, Response, Type};
use crate::index::Index;
use crate::request::{Names, Request};
use std::collections::{BTreeMap, BTreeSet};
use std::sync::Arc;

#[derive(Clone, Copy, PartialEq)]
enum Told {
    /// It isn't there at the client.
    No,
    /// It may be there, in some version.
    Unsure,
    /// It is there as it was made by this change.
    At(u64),
}

struct Held {
    is_wanted: bool,
    told: Told,
}

struct Unanswered {
    offer: Arc<Offer>,
    to: u64,
    /// What was touched since: everything, or these names.
    all: bool,
    touched: BTreeSet<Name>,
}

pub struct Session {
    /// The number of the stream, by which the index has it.
    stream: u64,
    is_delta: bool,
    of: &'static Type,
    asked: bool,
    /// Whether a list named something, in the state of the world.
    named: bool,
    star: bool,
    was_accepted: bool,
    told: u64,
    gone: u64,
    held: BTreeMap<Name, Held>,
    last_nonce: String,
    unanswered: Option<Unanswered>,
    /// The sum of the offer that was refused last.
    refused: Option<u64>,
    /// The changes that were looked at, whether something happened since, and whether all of `held` is to be looked
    /// at.
    seen: u64,
    is_fresh: bool,
    looks_at_all: bool,
}

/// The change of a version's text where it is one of this replica's.
fn change_of(version: &str) -> Option<u64> {
    let counter = version.strip_suffix("-1")?.parse::<u64>().ok()?;
    (counter > 0 && format!("{counter}-1") == version).then_some(counter)
}

impl Session {
    pub fn new(stream: u64, of: &'static Type, is_delta: bool) -> Self {
        Self {
            stream,
            is_delta,
            of,
            asked: false,
            named: false,
            star: false,
            was_accepted: false,
            told: 0,
            gone: 0,
            held: BTreeMap::new(),
            last_nonce: String::new(),
            unanswered: None,
            refused: None,
            seen: 0,
            is_fresh: false,
            looks_at_all: false,
        }
    }

    /// Takes a request, or ignores it where its nonce is out of date.
    pub fn take(&mut self, catalogue: &Catalogue, index: &mut Index, request: Request) {
        let is_first = !self.asked;
        if !is_first {
            if self.unanswered.is_some() && request.nonce == self.last_nonce {
                self.settle(request.is_error);
            } else if self.unanswered.is_none() && !request.nonce.is_empty() && request.nonce != self.last_nonce {
                return;
            }
        }
        self.asked = true;
        self.is_fresh = true;
        let complete = self.of.is_complete;
        match request.names {
            Names::Listed(mut names) => {
                self.named = self.named || !names.is_empty();
                let star = complete && (!self.named || names.iter().any(|name| name == "*"));
                names.retain(|name| !complete || name != "*");
                names.sort_unstable();
                names.dedup();
                if star == self.star && self.wanted().eq(names.iter().map(String::as_str)) {
                    return;
                }
                let listed: BTreeSet<Name> = names.iter().map(|name| catalogue.name(name)).collect();
                let dropped: Vec<Name> = self
                    .held
                    .iter()
                    .filter(|(name, held)| held.is_wanted && !listed.contains(*name))
                    .map(|(name, _)| name.clone())
                    .collect();
                let all = star != self.star;
                let mut wanted: BTreeMap<Name, bool> = dropped.into_iter().map(|name| (name, false)).collect();
                let is_new = |name: &Name| all || !self.held.get(name).is_some_and(|held| held.is_wanted);
                wanted.extend(listed.into_iter().filter(is_new).map(|name| (name, true)));
                self.want(catalogue, index, star, all, wanted, |is_wanted| is_wanted);
            }
            Names::Changed { subscribed, unsubscribed, versions } => {
                let is_star = |it: &String| complete && it == "*";
                if is_first && subscribed.is_empty() {
                    self.star = complete && !unsubscribed.iter().any(is_star);
                    index.set_star(self.stream, self.star);
                } else if !subscribed.is_empty() || !unsubscribed.is_empty() {
                    let (gets, loses) = (subscribed.iter().any(is_star), unsubscribed.iter().any(is_star));
                    let star = gets || self.star && !loses;
                    let names =
                        |of: Vec<String>| of.into_iter().filter(|it| !is_star(it)).map(|it| catalogue.name(&it));
                    let mut wanted: BTreeMap<Name, bool> =
                        names(unsubscribed).filter(|_| !is_first).map(|name| (name, false)).collect();
                    wanted.extend(names(subscribed).map(|name| (name, true)));
                    self.want(catalogue, index, star, gets || loses, wanted, |_| true);
                }
                for (name, version) in versions.into_iter().filter(|_| is_first) {
                    let told = change_of(&version).map_or(Told::Unsure, Told::At);
                    self.held.entry(Name::from(name)).or_insert(Held { is_wanted: false, told }).told = told;
                }
            }
        }
        self.looks_at_all = self.looks_at_all || is_first;
    }

    /// The names that are wanted, in ascending order.
    fn wanted(&self) -> impl Iterator<Item = &str> {
        self.held.iter().filter(|(_, held)| held.is_wanted).map(|(name, _)| &**name)
    }

    /// Takes the stream out of the index, as it ends.
    pub fn leave(&self, index: &mut Index) {
        index.set_star(self.stream, false);
        for (name, _) in self.held.iter().filter(|(_, held)| held.is_wanted) {
            index.set_name(self.stream, name, false);
        }
    }

    /// Sets the star, and which names are wanted or not wanted any more, of which `is_mentioned` says whether the
    /// request has them. Where all is touched, every name is, and else these.
    fn want(
        &mut self,
        catalogue: &Catalogue,
        index: &mut Index,
        star: bool,
        all: bool,
        wanted: BTreeMap<Name, bool>,
        is_mentioned: impl Fn(bool) -> bool,
    ) {
        if all {
            for held in self.held.values_mut().filter(|held| held.told != Told::No) {
                held.told = Told::Unsure;
            }
        }
        for (name, is_wanted) in &wanted {
            let had = || match self.held.get(name) {
                Some(held) => held.told != Told::No,
                None => catalogue.entry(name).is_some_and(|entry| entry.lived_at(self.gone)),
            };
            let is_unsure = (star || *is_wanted) && (is_mentioned(*is_wanted) || had());
            let told = if is_unsure { Told::Unsure } else { Told::No };
            self.held.insert(name.clone(), Held { is_wanted: *is_wanted, told });
            index.set_name(self.stream, name, *is_wanted);
        }
        index.set_star(self.stream, star);
        if all {
            self.told = 0;
            if !star {
                self.gone = 0;
            }
        }
        self.star = star;
        // What isn't reached has no entry.
        self.held.retain(|name, held| star || held.is_wanted || !all && !wanted.contains_key(name));
        if let Some(unanswered) = &mut self.unanswered {
            unanswered.all = unanswered.all || all;
            unanswered.touched.extend(wanted.into_keys());
        }
        self.looks_at_all = true;
    }

    /// The response that is under way was accepted, or refused.
    fn settle(&mut self, is_error: bool) {
        let Some(unanswered) = self.unanswered.take() else { return };
        if is_error {
            self.refused = Some(unanswered.offer.sum);
            self.looks_at_all = true;
            return;
        }
        (self.was_accepted, self.refused) = (true, None);
        let Unanswered { offer, to, all, touched } = unanswered;
        let is_whole = !self.is_delta && self.of.is_complete;
        if !self.star && !is_whole && !all && touched.is_empty() {
            // Of the other names nothing changes, and none of all is owed unless it changes after the response.
            for (name, change) in &offer.names {
                self.was_told(name, *change);
            }
            return;
        }
        if !self.held.is_empty() || all || !touched.is_empty() {
            self.looks_at_all = true;
            if is_whole && !all {
                for (_, held) in self.held.iter_mut().filter(|(name, _)| !touched.contains(*name)) {
                    held.told = Told::No;
                }
            }
            for (name, change) in &offer.names {
                if all || touched.contains(name) {
                    self.held.entry(name.clone()).or_insert(Held { is_wanted: false, told: Told::Unsure }).told =
                        Told::Unsure;
                } else if let Some(held) = self.held.get_mut(name) {
                    held.told = change.map_or(Told::No, Told::At);
                }
            }
            let star = self.star;
            self.held
                .retain(|name, held| held.is_wanted || all || touched.contains(name) || !star && held.told != Told::No);
        }
        if self.star && !all {
            (self.told, self.gone) = (to, to);
        }
    }

    /// A client without the star took this of a name.
    fn was_told(&mut self, name: &Name, change: Option<u64>) {
        let Some(held) = self.held.get_mut(name) else { return };
        held.told = change.map_or(Told::No, Told::At);
        if !held.is_wanted && change.is_none() {
            self.held.remove(name);
        }
    }

    /// What is owed of a name of `held`.
    fn owed(&self, catalogue: &Catalogue, name: &Name, held: &Held) -> Option<Option<u64>> {
        let live = if self.star || held.is_wanted { catalogue.live(name) } else { None };
        match (live, held.told) {
            (None, Told::No) => None,
            (None, _) => Some(None),
            (Some(change), Told::At(told)) if change == told => None,
            (live, _) => Some(live),
        }
    }

    /// All that is owed, in ascending order of names.
    fn all_owed(&self, catalogue: &Catalogue, seen: u64) -> Vec<(Name, Option<u64>)> {
        let of_held = |name: &Name| Some((name.clone(), self.owed(catalogue, name, self.held.get(name)?)?));
        // The shorter way, where either is right.
        let is_long = catalogue.changes - seen > self.held.len() as u64;
        let mut owed: Vec<(Name, Option<u64>)> = if self.looks_at_all || is_long {
            self.held.keys().filter_map(of_held).collect()
        } else {
            catalogue.since(seen).filter_map(of_held).collect()
        };
        if self.star {
            let of_all = |name: &Name| Some((name.clone(), catalogue.owed(name, self.told, self.gone)?));
            owed.extend(catalogue.since(self.told).filter(|name| !self.held.contains_key(*name)).filter_map(of_all));
        }
        owed.sort_unstable();
        owed
    }

    fn is_whole_due(&self, catalogue: &Catalogue, seen: u64) -> bool {
        if self.was_accepted && self.held.is_empty() {
            return self.star
                && catalogue.since(self.told).any(|name| catalogue.owed(name, self.told, self.gone).is_some());
        }
        !self.was_accepted || !self.all_owed(catalogue, seen).is_empty()
    }

    /// The response that is to be sent now, if one is.
    fn due(&self, catalogue: &Catalogue, seen: u64) -> Option<Arc<Response>> {
        if self.is_delta {
            if self.star && self.held.is_empty() {
                if self.told == catalogue.changes {
                    return None;
                }
                let made = catalogue.shared(Key::Since { told: self.told, gone: self.gone });
                return (!made.offer.names.is_empty()).then_some(made);
            }
            let owed = self.all_owed(catalogue, seen);
            return (!owed.is_empty()).then(|| Arc::new(catalogue.delta(owed)));
        }
        if !self.of.is_complete {
            let mut owed = self.all_owed(catalogue, seen);
            owed.retain(|(_, change)| change.is_some());
            return (!owed.is_empty()).then(|| Arc::new(catalogue.whole(owed, false)));
        }
        if !self.is_whole_due(catalogue, seen) {
            return None;
        }
        if self.star {
            return Some(catalogue.shared(Key::Whole));
        }
        let wanted = self.held.iter().filter(|(_, held)| held.is_wanted);
        let present = wanted.filter_map(|(name, _)| Some((name.clone(), Some(catalogue.live(name)?)))).collect();
        Some(Arc::new(catalogue.whole(present, false)))
    }

    /// The response that is sent now, if one is: it has this nonce.
    pub fn poll(&mut self, catalogue: &Catalogue, nonce: u64) -> Option<Arc<Response>> {
        let is_changed = self.is_fresh || self.seen != catalogue.changes;
        if !self.asked || self.unanswered.is_some() || !is_changed {
            return None;
        }
        let found = self.due(catalogue, self.seen);
        self.is_fresh = false;
        self.seen = catalogue.changes;
        let Some(response) = found else {
            // Nothing that can be told is owed; with the star that is all there is.
            if self.star {
                (self.told, self.gone) = (catalogue.changes, catalogue.changes);
                self.held.retain(|_, held| held.is_wanted);
            }
            self.looks_at_all = false;
            return None;
        };
        if self.refused == Some(response.offer.sum) {
            self.looks_at_all = true;
            return None;
        }
        self.looks_at_all = false;
        self.last_nonce = nonce.to_string();
        let (offer, to) = (response.offer.clone(), response.to);
        self.unanswered = Some(Unanswered { offer, to, all: false, touched: BTreeSet::new() });
        Some(response)
    }
}
