//! A party's own queries: whom each reached, who has answered, and what was found.

use crate::message::Found;
use crate::party::{Party, PartySet};
use crate::values::Standing;
use rustc_hash::FxHashMap;

/// Whether a pack is authentic.
pub enum Verdict {
    Authentic,
    NotAuthentic { is_falsification: bool },
}

/// The verdict on a query.
pub enum Joint {
    NotAsked,
    /// So many parties have not answered yet.
    Pending(u32),
    Decided(Verdict),
}

#[derive(Default)]
struct Inquiry {
    /// Whom the query reached, once its receipt is here.
    asked: Option<PartySet>,
    answered: PartySet,
    is_active: bool,
    is_stopped: bool,
}

/// The queries by their numbers.
#[derive(Default)]
pub struct Inquiries(FxHashMap<u32, Inquiry>);

impl Verdict {
    /// By whether the pack was found active, and whether there is a reason other than falsification.
    fn new(is_active: bool, is_stopped: bool) -> Verdict {
        if is_active {
            Verdict::Authentic
        } else {
            Verdict::NotAuthentic { is_falsification: !is_stopped }
        }
    }

    /// By what one repository found.
    pub fn of(found: &Found) -> Verdict {
        Verdict::new(found.standing == Standing::Active, is_stopped(found))
    }
}

/// Recalled, withdrawn, or to be destroyed.
fn is_stopped(found: &Found) -> bool {
    found.recalled || found.withdrawn || found.standing == Standing::Destruction
}

impl Inquiries {
    /// Notes that a query was routed, and whom it reached.
    pub fn note_receipt(&mut self, q: u32, reach: PartySet) {
        self.0.entry(q).or_default().asked.get_or_insert(reach);
    }

    /// Notes an answer.
    pub fn note_answer(&mut self, q: u32, sender: Party, found: Option<&Found>) {
        let inquiry = self.0.entry(q).or_default();
        inquiry.answered.insert(sender);
        if let Some(found) = found {
            inquiry.is_active |= found.standing == Standing::Active;
            inquiry.is_stopped |= is_stopped(found);
        }
    }

    /// The verdict by the answers that are here.
    pub fn verdict(&self, q: u32) -> Joint {
        let Some(inquiry) = self.0.get(&q) else {
            return Joint::NotAsked;
        };
        match inquiry.asked.map(|asked| asked.without(inquiry.answered).len()) {
            None => Joint::NotAsked,
            Some(0) => Joint::Decided(Verdict::new(inquiry.is_active, inquiry.is_stopped)),
            Some(left) => Joint::Pending(left),
        }
    }
}
