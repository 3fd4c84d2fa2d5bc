//! A national repository: its log, and what that means in the order of stamps.

use crate::inquiries::{Inquiries, Joint, Verdict};
use crate::link::Item;
use crate::log::{Log, Place};
use crate::message::{Found, Message};
use crate::own::History;
use crate::packs::Packs;
use crate::party::Party;
use crate::stops::Stops;
use crate::values::{BatchKey, Gtin, PackKey};
use rustc_hash::FxHashMap;

/// What applying an item did.
#[derive(Clone, Copy)]
pub enum Effect {
    /// By its number.
    Done(&'static str),
    /// An upload was noted: so many of its packs are new, so many were there.
    Uploaded { new: usize, old: usize },
}

/// A repository of a party.
pub struct Repository {
    party: Party,
    log: Log,
    /// The greatest stamp in the log.
    latest: u32,
    /// The master with the greatest stamp of each product.
    masters: FxHashMap<Gtin, Place>,
    packs: Packs,
    stops: Stops,
    inquiries: Inquiries,
}

impl Repository {
    /// A repository that has applied nothing.
    pub fn new(party: Party) -> Repository {
        Repository {
            party,
            log: Log::default(),
            latest: 0,
            masters: FxHashMap::default(),
            packs: Packs::default(),
            stops: Stops::default(),
            inquiries: Inquiries::default(),
        }
    }

    /// Its entries, products, packs, active packs and recalled batches.
    #[cfg(feature = "threads")]
    pub fn counts(&self) -> [usize; 5] {
        let (packs, active) = self.packs.counts(&self.log);
        [self.log.len(), self.masters.len(), packs, active, self.stops.recalled()]
    }

    /// What a query finds of a pack.
    pub fn found(&self, pack: &PackKey) -> Option<Found> {
        let (birth, standing) = self.packs.get(&self.log, pack)?;
        let upload = self.log.upload(birth);
        Some(Found {
            batch: upload.batch,
            expiry: upload.expiry,
            national: upload.national,
            recalled: self.stops.is_recalled(&BatchKey { gtin: pack.gtin, batch: upload.batch }),
            standing,
            withdrawn: self.stops.is_withdrawn(pack.gtin),
        })
    }

    /// Whether a pack that is held is authentic.
    pub fn verify(&self, pack: &PackKey) -> Option<Verdict> {
        self.found(pack).as_ref().map(Verdict::of)
    }

    /// The verdict on the party's own query of this number.
    pub fn verdict(&self, q: u32) -> Joint {
        self.inquiries.verdict(q)
    }

    /// Applies an item: its effect, at its own place in the order of stamps.
    pub fn apply(&mut self, sender: Party, item: Item) -> Effect {
        let place = self.log.push(sender, item);
        let Repository { party, log, latest, masters, packs, stops, inquiries } = self;
        let (stamp, message) = match &log.entry(place).item {
            Item::Carried { stamp, message, .. } => (*stamp, &**message),
            Item::Receipt { k, is_query, reach } => {
                if *is_query && sender == *party {
                    inquiries.note_receipt(*k, *reach);
                }
                return Effect::Done("E11");
            }
        };
        let is_late = stamp < *latest;
        *latest = stamp.max(*latest);
        Effect::Done(match message {
            Message::Master(master) => {
                let last = masters.entry(master.gtin).or_insert(place);
                if log.stamp(*last) < stamp {
                    *last = place;
                }
                "E1"
            }
            Message::Upload(upload) => {
                let new = packs.note_upload(History { log, stops }, place);
                return Effect::Uploaded { new, old: upload.serials.len() - new };
            }
            Message::Status(_) => packs.note_status(History { log, stops }, place),
            Message::Recall { batch, .. } => {
                let is_first = stops.add_recall(*batch, stamp);
                if is_first && is_late {
                    packs.note_recall(History { log, stops }, batch);
                }
                stop_effect(is_first)
            }
            Message::Withdrawal { gtin, .. } => {
                let is_first = stops.add_withdrawal(*gtin, stamp);
                if is_first && is_late {
                    packs.note_withdrawal(History { log, stops }, *gtin);
                }
                stop_effect(is_first)
            }
            Message::Answer(answer) => {
                if answer.asker == u32::from(*party) {
                    inquiries.note_answer(answer.q, sender, answer.found.as_ref());
                }
                "E11"
            }
            Message::Query(_) | Message::Repack(_) => "E11",
        })
    }
}

/// The effect of a recall or a withdrawal.
fn stop_effect(is_first: bool) -> &'static str {
    if is_first {
        "E1"
    } else {
        "E11"
    }
}
