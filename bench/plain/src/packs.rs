//! The packs that a repository holds.

use crate::log::{Log, Place};
use crate::own::{History, OwnPacks};
use crate::values::{BatchKey, Code, Gtin, PackKey, Standing};
use rustc_hash::FxHashMap;
use std::collections::hash_map::Entry;

/// What is kept of a pack.
#[derive(Clone, Copy)]
enum Kept {
    /// It is as the upload at this place made it.
    Made(Place),
    /// It is the one with this number of those that statuses name.
    Own(u32),
}

/// All packs that an upload or a status names.
#[derive(Default)]
pub struct Packs {
    /// The packs of each product, by their serial numbers.
    table: FxHashMap<Gtin, FxHashMap<Code, Kept>>,
    own: OwnPacks,
}

impl Packs {
    /// The upload that made a pack, and how it stands; none where no upload names it.
    pub fn get(&self, log: &Log, pack: &PackKey) -> Option<(Place, Standing)> {
        self.stand(log, *self.table.get(&pack.gtin)?.get(&pack.serial)?)
    }

    fn stand(&self, log: &Log, kept: Kept) -> Option<(Place, Standing)> {
        match kept {
            Kept::Made(birth) => Some((birth, Standing::Active)),
            Kept::Own(number) => self.own.get(log, number),
        }
    }

    /// How many packs are held, and how many of them are active.
    #[cfg(feature = "threads")]
    pub fn counts(&self, log: &Log) -> (usize, usize) {
        let kept = self.table.values().flat_map(|packs| packs.values());
        let held = kept.filter_map(|kept| self.stand(log, *kept));
        held.fold((0, 0), |(packs, active), (_, standing)| {
            (packs + 1, active + usize::from(standing == Standing::Active))
        })
    }

    /// Notes the upload at a place: how many packs no upload before it names.
    pub fn note_upload(&mut self, history: History, place: Place) -> usize {
        let stamp = history.log.stamp(place);
        let upload = history.log.upload(place);
        let packs = self.table.entry(upload.gtin).or_default();
        let mut new = 0;
        for serial in upload.serials.iter() {
            let is_new = match packs.entry(*serial) {
                Entry::Vacant(entry) => {
                    entry.insert(Kept::Made(place));
                    true
                }
                Entry::Occupied(mut entry) => match *entry.get() {
                    Kept::Made(birth) if stamp < history.log.stamp(birth) => {
                        entry.insert(Kept::Made(place));
                        true
                    }
                    Kept::Made(_) => false,
                    Kept::Own(number) => self.own.note_upload(history, number, place),
                },
            };
            new += usize::from(is_new);
        }
        new
    }

    /// Notes the status at a place: its effect.
    pub fn note_status(&mut self, history: History, place: Place) -> &'static str {
        let PackKey { gtin, serial } = history.log.status(place).pack;
        let number = match self.table.entry(gtin).or_default().entry(serial) {
            Entry::Vacant(entry) => {
                let number = self.own.add(None);
                entry.insert(Kept::Own(number));
                number
            }
            Entry::Occupied(mut entry) => match *entry.get() {
                Kept::Own(number) => number,
                Kept::Made(birth) => {
                    let number = self.own.add(Some(birth));
                    entry.insert(Kept::Own(number));
                    number
                }
            },
        };
        self.own.note_status(history, number, place)
    }

    /// Works out the packs that a late recall of a batch can bear on.
    pub fn note_recall(&mut self, history: History, batch: &BatchKey) {
        self.own.note_recall(history, batch);
    }

    /// Works out the packs that a late withdrawal of a product can bear on.
    pub fn note_withdrawal(&mut self, history: History, gtin: Gtin) {
        self.own.note_withdrawal(history, gtin);
    }
}
