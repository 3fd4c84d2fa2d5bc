//! The link from one party to another: what the hub puts on it, and its wire.

use crate::message::Message;
use crate::party::PartySet;
use crate::shared::Shared;
use crate::world::Refusal;
use std::collections::VecDeque;

/// What a link carries.
#[derive(Clone)]
pub enum Item {
    /// The sender's message of this number was routed, and reached these parties.
    Receipt { k: u32, is_query: bool, reach: PartySet },
    /// A message, with its number and the place of its routing in the record.
    Carried { k: u32, stamp: u32, message: Shared<Message> },
}

/// One link: the sending end, the wire, and how many frames the receiving end has accepted.
#[derive(Default)]
pub struct Link {
    /// The last items that were put on it, as many as the window holds.
    items: VecDeque<Item>,
    pushed: u32,
    relayed: u32,
    /// The frames under way: their numbers and items.
    wire: VecDeque<(u32, Item)>,
    accepted: u32,
}

/// What comes of the front frame of a wire.
pub enum Arrival<'a> {
    Next(u32, &'a Item),
    Old(u32),
    Gap { number: u32, expected: u32 },
}

impl Link {
    /// Whether so many items more can wait to be relayed.
    pub fn has_room(&self, count: u32, window: u32) -> bool {
        self.pushed - self.relayed + count <= window
    }

    /// Puts an item on the link; where the window is full the oldest is kept no longer.
    pub fn push(&mut self, item: Item, window: u32) {
        if self.items.len() == window as usize {
            self.items.pop_front();
        }
        self.items.push_back(item);
        self.pushed += 1;
    }

    /// Puts the next frame on the wire, which has so many places.
    pub fn relay(&mut self, places: usize) -> Result<u32, Refusal> {
        if self.wire.len() == places {
            return Err(Refusal::WireFull);
        }
        if self.relayed == self.pushed {
            return Err(Refusal::AllRelayed);
        }
        self.relayed += 1;
        self.put_on_wire(self.relayed);
        Ok(self.relayed)
    }

    /// Puts a frame that was relayed on the wire again.
    pub fn repeat(&mut self, number: u32, places: usize) -> Result<(), Refusal> {
        if self.wire.len() == places {
            return Err(Refusal::WireFull);
        }
        if number == 0 || number > self.relayed {
            return Err(Refusal::NotRelayed);
        }
        if number <= self.pushed - self.items.len() as u32 {
            return Err(Refusal::NotKept);
        }
        self.put_on_wire(number);
        Ok(())
    }

    /// Puts the frame of a number on the wire, whose item is kept.
    fn put_on_wire(&mut self, number: u32) {
        let behind = (self.pushed - number) as usize;
        let item = self.items[self.items.len() - 1 - behind].clone();
        self.wire.push_back((number, item));
    }

    /// Takes the front frame from the wire.
    pub fn pop(&mut self) -> Result<(u32, Item), Refusal> {
        self.wire.pop_front().ok_or(Refusal::WireEmpty)
    }

    /// The front frame of the wire, as the receiver sees it.
    pub fn arrival(&self) -> Result<Arrival<'_>, Refusal> {
        let (number, item) = self.wire.front().ok_or(Refusal::WireEmpty)?;
        let (number, expected) = (*number, self.accepted + 1);
        Ok(if number == expected {
            Arrival::Next(number, item)
        } else if number < expected {
            Arrival::Old(number)
        } else {
            Arrival::Gap { number, expected }
        })
    }

    /// Takes the front frame from the wire, which is the next one.
    pub fn accept(&mut self) -> Result<Item, Refusal> {
        let (_, item) = self.pop()?;
        self.accepted += 1;
        Ok(item)
    }
}
