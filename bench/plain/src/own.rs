//! The packs that statuses name.

use crate::blocks::{Blocks, MOST_ALONE};
use crate::log::{Log, Place};
use crate::message::Status;
use crate::stops::Stops;
use crate::values::{BatchKey, Code, Gtin, Standing};
use rustc_hash::FxHashMap;
use std::collections::BTreeSet;

const REVERT_SECONDS: u64 = 864_000;

/// What statuses are applied by.
#[derive(Clone, Copy)]
pub struct History<'a> {
    pub log: &'a Log,
    pub stops: &'a Stops,
}

/// What stands of a pack: the status that changed it, or none where it is active.
pub type State = Option<Place>;

/// What the statuses of a pack are applied by.
#[derive(Clone, Copy)]
pub struct Life<'a> {
    pub history: History<'a>,
    /// The upload with the smallest stamp that names it.
    pub birth: Place,
}

/// A pack that statuses name.
struct Own {
    /// The upload with the smallest stamp that names it.
    birth: Option<Place>,
    /// Its statuses, by their stamps.
    statuses: Vec<Place>,
    state: State,
    /// Whether one of them is to active: only then can a recall or a withdrawal bear on it.
    has_revert: bool,
}

/// These packs by their numbers, from zero.
#[derive(Default)]
pub struct OwnPacks {
    packs: Vec<Own>,
    /// Those that have a birth and a revert, by the batch of their birth.
    reverted: BTreeSet<(Gtin, Code, u32)>,
    /// What blocks of statuses do, of a pack that has many of them, as far as it was worked out.
    blocks: FxHashMap<u32, Blocks>,
}

impl OwnPacks {
    /// Adds a pack that an upload made, or that no upload names: its number.
    pub fn add(&mut self, birth: Option<Place>) -> u32 {
        self.packs.push(Own { birth, statuses: Vec::new(), state: None, has_revert: false });
        self.packs.len() as u32 - 1
    }

    /// The upload that made a pack, and how it stands; none where no upload names it.
    pub fn get(&self, log: &Log, number: u32) -> Option<(Place, Standing)> {
        let own = &self.packs[number as usize];
        let standing = own.state.map_or(Standing::Active, |change| log.status(change).to);
        Some((own.birth?, standing))
    }

    /// Notes the upload at a place, which names a pack: whether no upload before it does.
    pub fn note_upload(&mut self, history: History, number: u32, place: Place) -> bool {
        let own = &mut self.packs[number as usize];
        if own.birth.is_some_and(|birth| history.log.stamp(birth) <= history.log.stamp(place)) {
            return false;
        }
        let before = own.birth.replace(place);
        if own.has_revert {
            if let Some(before) = before {
                self.reverted.remove(&listed(history.log, before, number));
            }
            self.reverted.insert(listed(history.log, place, number));
        }
        self.work_out(history, number);
        true
    }

    /// Notes the status of a pack at a place: its effect.
    pub fn note_status(&mut self, history: History, number: u32, place: Place) -> &'static str {
        let own = &mut self.packs[number as usize];
        if history.log.status(place).to == Standing::Active && !own.has_revert {
            own.has_revert = true;
            if let Some(birth) = own.birth {
                self.reverted.insert(listed(history.log, birth, number));
            }
        }
        let at = own.place_of(history.log, place);
        let Some(birth) = own.birth else {
            own.statuses.insert(at, place);
            return "E2";
        };
        let life = Life { history, birth };
        if own.statuses.len() < MOST_ALONE {
            own.note_status(life, at, place)
        } else {
            let blocks = self.blocks.entry(number).or_insert_with(|| Blocks::of(life, &own.statuses));
            let effect = blocks.insert(life, &mut own.statuses, at, place);
            own.state = blocks.state();
            effect
        }
    }

    /// Works out the packs that a late recall of a batch can bear on.
    pub fn note_recall(&mut self, history: History, batch: &BatchKey) {
        let BatchKey { gtin, batch } = *batch;
        let of_batch = self.reverted.range((gtin, batch, 0)..=(gtin, batch, u32::MAX));
        let numbers: Vec<u32> = of_batch.map(|(_, _, number)| *number).collect();
        numbers.into_iter().for_each(|number| self.work_out(history, number));
    }

    /// Works out the packs that a late withdrawal of a product can bear on.
    pub fn note_withdrawal(&mut self, history: History, gtin: Gtin) {
        let of_product = self.reverted.range((gtin, Code::LEAST, 0)..).take_while(|(other, _, _)| *other == gtin);
        let numbers: Vec<u32> = of_product.map(|(_, _, number)| *number).collect();
        numbers.into_iter().for_each(|number| self.work_out(history, number));
    }

    /// Works out what stands of a pack, once its first upload is known.
    fn work_out(&mut self, history: History, number: u32) {
        let own = &mut self.packs[number as usize];
        self.blocks.remove(&number);
        if let Some(birth) = own.birth {
            own.state = Life { history, birth }.after(None, &own.statuses);
        }
    }
}

/// How a pack is listed under the batch of its first upload.
fn listed(log: &Log, birth: Place, number: u32) -> (Gtin, Code, u32) {
    let upload = log.upload(birth);
    (upload.gtin, upload.batch, number)
}

impl Own {
    /// The place of a new status among the others.
    fn place_of(&self, log: &Log, place: Place) -> usize {
        let stamp = log.stamp(place);
        match self.statuses.last() {
            Some(last) if stamp < log.stamp(*last) => self.statuses.partition_point(|other| log.stamp(*other) < stamp),
            _ => self.statuses.len(),
        }
    }

    /// Puts a status at its place among the others: its effect.
    fn note_status(&mut self, life: Life, at: usize, place: Place) -> &'static str {
        let mut state = if at == self.statuses.len() { self.state } else { life.after(None, &self.statuses[..at]) };
        let effect = life.note(&mut state, place);
        if at == self.statuses.len() {
            self.state = state;
        } else if effect == "E1" {
            self.state = life.after(state, &self.statuses[at..]);
        }
        self.statuses.insert(at, place);
        effect
    }
}

impl Life<'_> {
    /// What statuses leave of a pack. Those before its first upload do nothing.
    pub fn after(self, mut state: State, statuses: &[Place]) -> State {
        let log = self.history.log;
        let first = log.stamp(self.birth);
        let before = match statuses.first() {
            Some(status) if log.stamp(*status) < first => statuses.partition_point(|status| log.stamp(*status) < first),
            _ => 0,
        };
        for status in &statuses[before..] {
            self.advance(&mut state, *status);
        }
        state
    }

    /// Changes a pack by a status that is new: its effect.
    pub fn note(self, state: &mut State, place: Place) -> &'static str {
        let log = self.history.log;
        if log.stamp(place) < log.stamp(self.birth) {
            "E2"
        } else {
            self.advance(state, place)
        }
    }

    /// Changes a pack by a status that stands behind its first upload: its effect.
    fn advance(self, state: &mut State, place: Place) -> &'static str {
        let status = self.history.log.status(place);
        let effect = match (status.to, *state) {
            (Standing::Active, None) => "E4",
            (Standing::Active, Some(change)) => self.revert_effect(change, place, status),
            (_, None) => "E1",
            _ => "E3",
        };
        if effect == "E1" {
            *state = (status.to != Standing::Active).then_some(place);
        }
        effect
    }

    /// What a status to active does to a pack that another changed: the first reason against it, or E1.
    fn revert_effect(self, change: Place, place: Place, revert: &Status) -> &'static str {
        let History { log, stops } = self.history;
        let changed = log.status(change);
        if changed.to.is_for_ever() {
            return "E5";
        }
        if log.entry(change).sender != log.entry(place).sender || changed.user != revert.user {
            return "E6";
        }
        let upload = log.upload(self.birth);
        let batch = BatchKey { gtin: upload.gtin, batch: upload.batch };
        if revert.at < changed.at {
            "E7"
        } else if revert.at > changed.at + REVERT_SECONDS {
            "E8"
        } else if upload.expiry.is_before(revert.at) {
            "E9"
        } else if stops.is_recalled_before(&batch, log.stamp(place)) {
            "E10"
        } else if stops.is_withdrawn_before(upload.gtin, log.stamp(place)) {
            "E13"
        } else {
            "E1"
        }
    }
}
