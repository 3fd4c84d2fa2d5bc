//! What a repository applied, entry by entry.

use crate::link::Item;
use crate::message::{Message, Status, Upload};
use crate::party::Party;

/// A place in a log.
pub type Place = u32;

/// An item that was applied, and who sent it.
pub struct LogEntry {
    pub sender: Party,
    pub item: Item,
}

/// The entries in the order in which they were applied.
#[derive(Default)]
pub struct Log(Vec<LogEntry>);

impl Log {
    /// Adds an entry: its place.
    pub fn push(&mut self, sender: Party, item: Item) -> Place {
        self.0.push(LogEntry { sender, item });
        self.0.len() as Place - 1
    }

    /// How many entries there are.
    #[cfg(feature = "threads")]
    pub fn len(&self) -> usize {
        self.0.len()
    }

    /// The entry at a place.
    pub fn entry(&self, place: Place) -> &LogEntry {
        &self.0[place as usize]
    }

    /// The stamp of an entry that is a message.
    pub fn stamp(&self, place: Place) -> u32 {
        match self.entry(place).item {
            Item::Carried { stamp, .. } => stamp,
            Item::Receipt { .. } => unreachable!("a place of a message"),
        }
    }

    /// The upload at a place that has one.
    pub fn upload(&self, place: Place) -> &Upload {
        match &self.entry(place).item {
            Item::Carried { message, .. } => match &**message {
                Message::Upload(upload) => upload,
                _ => unreachable!("a place of an upload"),
            },
            Item::Receipt { .. } => unreachable!("a place of an upload"),
        }
    }

    /// The status at a place that has one.
    pub fn status(&self, place: Place) -> &Status {
        match &self.entry(place).item {
            Item::Carried { message, .. } => match &**message {
                Message::Status(status) => status,
                _ => unreachable!("a place of a status"),
            },
            Item::Receipt { .. } => unreachable!("a place of a status"),
        }
    }
}
