//! The hub: its record, what it knows of products and batches, and to whom a message goes.

use crate::link::{Item, Link};
use crate::message::{Message, Upload};
use crate::party::{Party, PartySet};
use crate::shared::Shared;
use crate::values::{BatchKey, Code, Expiry, Gtin, Market};
use crate::world::Refusal;
use rustc_hash::FxHashMap;
use std::collections::BTreeSet;

/// What happened at the hub.
#[allow(dead_code)]
enum Entry {
    Routed { from: Party, k: u32, message: Shared<Message> },
    Closed { from: Party, to: Party },
}

/// What the hub knows of a product.
#[derive(Default)]
struct Product {
    master: Option<Shared<Message>>,
    /// The parties that serve a market of its last master.
    sold: PartySet,
    /// The batches of its uploads and their dates, numbered in the order in which they were first routed.
    batches: FxHashMap<(Code, Expiry), u32>,
}

/// The hub, but for the links that it puts messages on.
pub struct Hub {
    window: u32,
    serving: FxHashMap<Market, Party>,
    /// To whom the link from each party is open.
    open: Vec<PartySet>,
    routed: Vec<u32>,
    record: Vec<Entry>,
    products: FxHashMap<Gtin, Product>,
    /// The batches that were repackaged, each with one that it became.
    repackaged: BTreeSet<(BatchKey, BatchKey)>,
}

impl Hub {
    /// A hub whose parties serve these markets.
    pub fn new(markets: &[Vec<Market>], window: u32) -> Hub {
        let count = markets.len();
        let serves = |(party, served): (usize, &Vec<Market>)| {
            served.iter().map(|market| (*market, party as Party)).collect::<Vec<_>>()
        };
        Hub {
            window,
            serving: markets.iter().enumerate().flat_map(serves).collect(),
            open: vec![PartySet::all(count); count],
            routed: vec![0; count],
            record: Vec::new(),
            products: FxHashMap::default(),
            repackaged: BTreeSet::new(),
        }
    }

    /// How many messages of a party were routed.
    pub fn routed(&self, from: Party) -> u32 {
        self.routed[usize::from(from)]
    }

    /// Closes a link.
    pub fn close(&mut self, from: Party, to: Party) -> Result<(), Refusal> {
        let open = &mut self.open[usize::from(from)];
        if !open.contains(to) {
            return Err(Refusal::Closed);
        }
        open.remove(to);
        self.record.push(Entry::Closed { from, to });
        Ok(())
    }

    /// Routes the next message of a party onto its links: its number, and the parties that it reaches.
    pub fn route(
        &mut self,
        from: Party,
        message: &Shared<Message>,
        links: &mut [Link],
    ) -> Result<(u32, PartySet), Refusal> {
        let open = self.open[usize::from(from)];
        let reach = self.targets(from, message).and(open);
        let has_receipt = open.contains(from);
        let own: PartySet = has_receipt.then_some(from).into_iter().collect();
        for to in reach.or(own).parties() {
            let gain = u32::from(reach.contains(to)) + u32::from(own.contains(to));
            if !links[usize::from(to)].has_room(gain, self.window) {
                return Err(Refusal::LinkFull(to));
            }
        }
        let k = self.routed(from) + 1;
        self.routed[usize::from(from)] = k;
        self.record.push(Entry::Routed { from, k, message: message.clone() });
        self.note(message);
        let stamp = self.record.len() as u32;
        if has_receipt {
            let is_query = matches!(**message, Message::Query(_));
            links[usize::from(from)].push(Item::Receipt { k, is_query, reach }, self.window);
        }
        for to in reach.parties() {
            links[usize::from(to)].push(Item::Carried { k, stamp, message: message.clone() }, self.window);
        }
        Ok((k, reach))
    }

    /// The parties that a message is for.
    fn targets(&self, from: Party, message: &Message) -> PartySet {
        match message {
            Message::Master(master) => self.sold(master.gtin).or(self.serving(&master.markets)),
            Message::Upload(upload) => self.sold(upload.gtin),
            Message::Status(status) => self.sold(status.pack.gtin),
            Message::Recall { batch, .. } => self.sold(batch.gtin),
            Message::Withdrawal { gtin, .. } => self.sold(*gtin),
            Message::Repack(repack) => self.sold(repack.before.gtin).or(self.sold(repack.after.gtin)),
            Message::Query(pack) => {
                let mut others = self.sold(pack.gtin);
                others.remove(from);
                others
            }
            Message::Answer(answer) => {
                let asker = Party::try_from(answer.asker).ok();
                asker.filter(|party| usize::from(*party) < self.open.len()).into_iter().collect()
            }
        }
    }

    /// The parties that serve a market of the last master of a product.
    fn sold(&self, gtin: Gtin) -> PartySet {
        self.products.get(&gtin).map_or(PartySet::default(), |product| product.sold)
    }

    /// The parties that serve one of these markets.
    fn serving(&self, markets: &[Market]) -> PartySet {
        markets.iter().filter_map(|market| self.serving.get(market).copied()).collect()
    }

    /// Notes what a message says of products and batches.
    fn note(&mut self, message: &Shared<Message>) {
        match &**message {
            Message::Master(master) => {
                let sold = self.serving(&master.markets);
                let product = self.products.entry(master.gtin).or_default();
                product.master = Some(message.clone());
                product.sold = sold;
            }
            Message::Upload(Upload { batch, expiry, gtin, .. }) => {
                let batches = &mut self.products.entry(*gtin).or_default().batches;
                let number = batches.len() as u32;
                batches.entry((*batch, *expiry)).or_insert(number);
            }
            Message::Repack(repack) => {
                self.repackaged.insert((repack.before, repack.after));
            }
            _ => (),
        }
    }
}
