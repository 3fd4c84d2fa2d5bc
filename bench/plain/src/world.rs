//! The whole system: what the parties submit, the hub, the links and the repositories.

use crate::hub::Hub;
use crate::inquiries::{Joint, Verdict};
use crate::link::{Arrival, Item, Link};
use crate::message::{Answer, Message};
use crate::party::{Party, PartySet, MOST_PARTIES};
use crate::repository::{Effect, Repository};
use crate::request::{LinkKey, Opening, Step};
use crate::shared::Shared;
use crate::values::PackKey;
use rustc_hash::FxHashSet;
use std::collections::VecDeque;

/// Why an opening or a step is refused.
pub enum Refusal {
    NoParty,
    TooManyParties,
    MarketTwice,
    Window,
    Wire,
    Uplink,
    Submissions,
    NotOpen,
    AlreadyOpen,
    #[cfg(feature = "threads")]
    NotOfAPlan,
    NoSuchParty,
    NotSubmitted,
    UplinkFull,
    SubmissionsFull,
    NothingWaits,
    LinkFull(Party),
    WireFull,
    WireEmpty,
    NotRelayed,
    NotKept,
    AllRelayed,
    Closed,
    AnswerBusy,
}

/// What comes of an opening or a step that is not refused.
pub enum Reply {
    Opened(usize),
    Submitted(u32),
    Verdict(Verdict),
    Asked(u32),
    Joint(Joint),
    Routed {
        k: u32,
        reach: PartySet,
    },
    Relayed(u32),
    /// A frame was applied; a query was answered by the party's message of this number.
    Applied {
        number: u32,
        effect: Effect,
        answer: Option<u32>,
    },
    Old(u32),
    Gap {
        number: u32,
        expected: u32,
    },
    Repeated(u32),
    Closed,
    Lost(u32),
}

/// What a party submitted.
#[derive(Default)]
struct Submissions {
    /// The messages that are not routed yet; the others are in the record.
    waiting: VecDeque<Shared<Message>>,
    count: u32,
}

/// The system: one process plays the hub, the links and all parties.
pub struct World {
    wire: usize,
    uplink: usize,
    most_submissions: u32,
    submissions: Vec<Submissions>,
    hub: Hub,
    /// The links, by their senders and then by their receivers.
    links: Vec<Link>,
    repositories: Vec<Repository>,
}

impl World {
    /// Opens a system.
    pub fn open(opening: &Opening) -> Result<World, Refusal> {
        let count = opening.parties.len();
        check_opening(opening)?;
        Ok(World {
            wire: opening.wire as usize,
            uplink: opening.uplink as usize,
            most_submissions: opening.submissions,
            submissions: (0..count).map(|_| Submissions::default()).collect(),
            hub: Hub::new(&opening.parties, opening.window),
            links: (0..count * count).map(|_| Link::default()).collect(),
            repositories: (0..count).map(|party| Repository::new(party as Party)).collect(),
        })
    }

    /// Takes a step.
    pub fn step(&mut self, step: Step) -> Result<Reply, Refusal> {
        match step {
            Step::Submit { from, message } => self.submit(from, message),
            Step::Verify { party, pack } => self.verify(party, &pack),
            Step::Verdict { party, q } => {
                let party = self.party(party)?;
                Ok(Reply::Joint(self.repositories[usize::from(party)].verdict(q)))
            }
            Step::Route { from } => self.route(from),
            Step::Relay(link) => {
                let wire = self.wire;
                self.link(link)?.relay(wire).map(Reply::Relayed)
            }
            Step::Apply(link) => self.apply(link),
            Step::Repeat { link, number } => {
                let wire = self.wire;
                self.link(link)?.repeat(number, wire)?;
                Ok(Reply::Repeated(number))
            }
            Step::Close(LinkKey { from, to }) => {
                self.hub.close(self.party(from)?, self.party(to)?)?;
                Ok(Reply::Closed)
            }
            Step::Lose(link) => self.link(link)?.pop().map(|(number, _)| Reply::Lost(number)),
        }
    }

    /// The party of a number.
    fn party(&self, number: u32) -> Result<Party, Refusal> {
        if (number as usize) < self.repositories.len() {
            Ok(number as Party)
        } else {
            Err(Refusal::NoSuchParty)
        }
    }

    fn link(&mut self, LinkKey { from, to }: LinkKey) -> Result<&mut Link, Refusal> {
        let place = usize::from(self.party(from)?) * self.repositories.len() + usize::from(self.party(to)?);
        Ok(&mut self.links[place])
    }

    /// Refuses where a party can submit nothing now.
    fn check_room(&self, party: Party) -> Result<(), Refusal> {
        let submissions = &self.submissions[usize::from(party)];
        if submissions.waiting.len() == self.uplink {
            Err(Refusal::UplinkFull)
        } else if submissions.count == self.most_submissions {
            Err(Refusal::SubmissionsFull)
        } else {
            Ok(())
        }
    }

    /// Adds to what a party submitted: the number of the message.
    fn add(&mut self, party: Party, message: Message) -> u32 {
        let submissions = &mut self.submissions[usize::from(party)];
        submissions.waiting.push_back(Shared::new(message));
        submissions.count += 1;
        submissions.count
    }

    fn submit(&mut self, from: u32, message: Message) -> Result<Reply, Refusal> {
        let from = self.party(from)?;
        if matches!(message, Message::Query(_) | Message::Answer(_)) {
            return Err(Refusal::NotSubmitted);
        }
        self.check_room(from)?;
        Ok(Reply::Submitted(self.add(from, message)))
    }

    fn verify(&mut self, party: u32, pack: &PackKey) -> Result<Reply, Refusal> {
        let party = self.party(party)?;
        if let Some(verdict) = self.repositories[usize::from(party)].verify(pack) {
            return Ok(Reply::Verdict(verdict));
        }
        self.check_room(party)?;
        Ok(Reply::Asked(self.add(party, Message::Query(*pack))))
    }

    fn route(&mut self, from: u32) -> Result<Reply, Refusal> {
        let from = self.party(from)?;
        let waiting = &mut self.submissions[usize::from(from)].waiting;
        let message = waiting.front().ok_or(Refusal::NothingWaits)?;
        let count = self.repositories.len();
        let links = &mut self.links[usize::from(from) * count..][..count];
        let (k, reach) = self.hub.route(from, message, links)?;
        waiting.pop_front();
        Ok(Reply::Routed { k, reach })
    }

    fn apply(&mut self, key: LinkKey) -> Result<Reply, Refusal> {
        let link = self.link(key)?;
        let (number, query) = match link.arrival()? {
            Arrival::Next(number, item) => (number, query_of(item)),
            Arrival::Old(number) => {
                link.pop()?;
                return Ok(Reply::Old(number));
            }
            Arrival::Gap { number, expected } => {
                link.pop()?;
                return Ok(Reply::Gap { number, expected });
            }
        };
        let receiver = self.party(key.to)?;
        if query.is_some() {
            self.check_room(receiver).map_err(|_| Refusal::AnswerBusy)?;
        }
        let item = self.link(key)?.accept()?;
        let answer = query.map(|(q, pack)| {
            let found = self.repositories[usize::from(receiver)].found(&pack);
            let answer = Answer { asker: key.from, found, pack, q };
            self.add(receiver, Message::Answer(Box::new(answer)))
        });
        let effect = self.repositories[usize::from(receiver)].apply(key.from as Party, item);
        Ok(Reply::Applied { number, effect, answer })
    }
}

/// The query that an item carries, with its number.
pub fn query_of(item: &Item) -> Option<(u32, PackKey)> {
    match item {
        Item::Carried { k, message, .. } => match **message {
            Message::Query(pack) => Some((*k, pack)),
            _ => None,
        },
        Item::Receipt { .. } => None,
    }
}

/// Refuses parties and limits that no system has.
pub fn check_opening(opening: &Opening) -> Result<(), Refusal> {
    let mut served = FxHashSet::default();
    if opening.parties.is_empty() {
        Err(Refusal::NoParty)
    } else if opening.parties.len() > MOST_PARTIES {
        Err(Refusal::TooManyParties)
    } else if !opening.parties.iter().flatten().all(|market| served.insert(market)) {
        Err(Refusal::MarketTwice)
    } else if !(2..=256).contains(&opening.window) {
        Err(Refusal::Window)
    } else if !(1..=64).contains(&opening.wire) {
        Err(Refusal::Wire)
    } else if !(1..=64).contains(&opening.uplink) {
        Err(Refusal::Uplink)
    } else if !(1..=1_000_000).contains(&opening.submissions) {
        Err(Refusal::Submissions)
    } else {
        Ok(())
    }
}

impl Refusal {
    /// Its number.
    pub fn code(&self) -> &'static str {
        match self {
            Refusal::NoParty => "H1",
            Refusal::TooManyParties => "H2",
            Refusal::MarketTwice => "H3",
            Refusal::Window => "O1",
            Refusal::Wire => "O2",
            Refusal::Uplink => "O3",
            Refusal::Submissions => "O4",
            Refusal::NotOpen => "C1",
            Refusal::AlreadyOpen => "C2",
            #[cfg(feature = "threads")]
            Refusal::NotOfAPlan => "C3",
            Refusal::NoSuchParty => "S1",
            Refusal::NotSubmitted => "S2",
            Refusal::UplinkFull => "S3",
            Refusal::SubmissionsFull => "S4",
            Refusal::NothingWaits => "S5",
            Refusal::LinkFull(_) => "S6",
            Refusal::WireFull => "S7",
            Refusal::WireEmpty => "S8",
            Refusal::NotRelayed => "S9",
            Refusal::NotKept => "S10",
            Refusal::AllRelayed => "S11",
            Refusal::Closed => "S12",
            Refusal::AnswerBusy => "S13",
        }
    }
}
