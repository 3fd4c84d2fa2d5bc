//! Carries a plan out: the hub in a thread, and each repository in one of its own.
//!
//! What is submitted goes to the hub by one channel, and what a repository is to apply by one of its own. A repository waits for both at
//! once, and is never kept from taking by what it has to send, so that the hub can always go on.

use crate::hub::Hub;
use crate::link::{Item, Link};
use crate::message::{Answer, Message};
use crate::party::{Party, PartySet};
use crate::plan::Plan;
use crate::repository::Repository;
use crate::shared::Shared;
use crate::world::query_of;
use crossbeam_channel::{bounded, select, Receiver, Sender};
use std::collections::VecDeque;
use std::sync::atomic::{AtomicUsize, Ordering};
use std::thread;

/// What comes to the hub.
enum Note {
    Submitted(Party, Shared<Message>),
    /// Nothing is left to be done.
    Done,
}

/// An item under its number on its link.
struct Frame {
    from: Party,
    number: u32,
    item: Item,
}

/// How many messages are to be submitted or routed, and frames to be applied. Where none is left all is done.
struct Left(AtomicUsize);

impl Left {
    fn add(&self, count: usize) {
        self.0.fetch_add(count, Ordering::Relaxed);
    }

    /// One less: whether none is left.
    fn take(&self) -> bool {
        self.0.fetch_sub(1, Ordering::AcqRel) == 1
    }
}

/// The hub's end of the channels, and its links.
struct HubEnd {
    hub: Hub,
    links: Vec<Link>,
    inboxes: Vec<Sender<Frame>>,
}

impl HubEnd {
    /// Routes what comes until nothing is left. With it the channels to the repositories end.
    fn run(mut self, notes: &Receiver<Note>, left: &Left) -> Hub {
        for note in notes {
            match note {
                Note::Submitted(from, message) => {
                    self.route(from, &message, left);
                    if left.take() {
                        break;
                    }
                }
                Note::Done => break,
            }
        }
        self.hub
    }

    /// Routes a message, and sends what this puts on each link.
    fn route(&mut self, from: Party, message: &Shared<Message>, left: &Left) {
        let count = self.inboxes.len();
        let links = &mut self.links[usize::from(from) * count..][..count];
        let Ok((_, reach)) = self.hub.route(from, message, links) else {
            unreachable!("all that was put on a link was sent");
        };
        let own: PartySet = [from].into_iter().collect();
        for to in reach.or(own).parties() {
            let link = &mut links[usize::from(to)];
            while link.relay(1).is_ok() {
                let Ok((number, item)) = link.pop() else {
                    unreachable!("a frame was relayed");
                };
                left.add(1);
                let sent = self.inboxes[usize::from(to)].send(Frame { from, number, item });
                assert!(sent.is_ok(), "a repository takes what comes until the hub ends");
            }
        }
    }
}

/// A repository's end of the channels.
struct RepositoryEnd {
    party: Party,
    repository: Repository,
    /// What waits to be submitted: answers first.
    waiting: VecDeque<Message>,
    submitted: u32,
    most: u32,
    /// How many frames of each sender were applied.
    accepted: Vec<u32>,
    frames: Receiver<Frame>,
    hub: Sender<Note>,
}

impl RepositoryEnd {
    /// Submits and applies until the hub ends: the repository, and how many messages were submitted.
    fn run(mut self, left: &Left) -> (Repository, u32) {
        loop {
            if self.waiting.is_empty() {
                match self.frames.recv() {
                    Ok(frame) => self.apply(frame, left),
                    Err(_) => return (self.repository, self.submitted),
                }
            } else {
                select! {
                    recv(self.frames) -> frame => match frame {
                        Ok(frame) => self.apply(frame, left),
                        Err(_) => return (self.repository, self.submitted),
                    },
                    send(self.hub, next(&mut self.waiting, self.party)) -> _ => {
                        self.submitted += 1;
                        assert!(self.submitted <= self.most, "a party submits more than it may");
                    }
                }
            }
        }
    }

    /// Applies a frame, and answers a query.
    fn apply(&mut self, frame: Frame, left: &Left) {
        let accepted = &mut self.accepted[usize::from(frame.from)];
        assert_eq!(frame.number, *accepted + 1, "frames come in order");
        *accepted += 1;
        if let Some((q, pack)) = query_of(&frame.item) {
            let found = self.repository.found(&pack);
            let answer = Answer { asker: u32::from(frame.from), found, pack, q };
            left.add(1);
            self.waiting.push_front(Message::Answer(Box::new(answer)));
        }
        self.repository.apply(frame.from, frame.item);
        if left.take() {
            let _ = self.hub.send(Note::Done);
        }
    }
}

/// The next of the messages that wait.
fn next(waiting: &mut VecDeque<Message>, party: Party) -> Note {
    match waiting.pop_front() {
        Some(message) => Note::Submitted(party, Shared::new(message)),
        None => unreachable!("a message waits"),
    }
}

/// Carries a plan out, to its end: the report.
pub fn carry_out(plan: Plan) -> String {
    let count = plan.work.len();
    let opening = &plan.opening;
    let left = &Left(AtomicUsize::new(plan.work.iter().map(VecDeque::len).sum()));
    let (hub_sender, notes) = bounded(opening.uplink as usize * count);
    let (inboxes, frames): (Vec<_>, Vec<_>) = (0..count).map(|_| bounded(opening.wire as usize * count)).unzip();
    let links = (0..count * count).map(|_| Link::default()).collect();
    let hub = HubEnd { hub: Hub::new(&opening.parties, opening.window), links, inboxes };
    let most = opening.submissions;
    let is_empty = left.0.load(Ordering::Relaxed) == 0;
    let ends: Vec<RepositoryEnd> = (0..count as Party)
        .zip(plan.work.into_iter().zip(frames))
        .map(|(party, (waiting, frames))| RepositoryEnd {
            party,
            repository: Repository::new(party),
            waiting,
            submitted: 0,
            most,
            accepted: vec![0; count],
            frames,
            hub: hub_sender.clone(),
        })
        .collect();
    if is_empty {
        let _ = hub_sender.send(Note::Done);
    }
    drop(hub_sender);
    let (hub, repositories) = thread::scope(|scope| {
        let repositories: Vec<_> = ends.into_iter().map(|end| scope.spawn(|| end.run(left))).collect();
        let hub = scope.spawn(|| hub.run(&notes, left));
        let joined = |thread: thread::ScopedJoinHandle<(Repository, u32)>| thread.join().expect("a thread ends");
        (hub.join().expect("a thread ends"), repositories.into_iter().map(joined).collect::<Vec<_>>())
    });
    let text = report(&hub, &repositories);
    // The process gives its memory back at once.
    std::mem::forget((hub, repositories));
    text
}

/// The report of a plan that was finished.
fn report(hub: &Hub, repositories: &[(Repository, u32)]) -> String {
    let mut text = "     party submitted    routed   applied  products     packs    active  recalled\n".to_string();
    for (party, (repository, submitted)) in repositories.iter().enumerate() {
        let own = [party, *submitted as usize, hub.routed(party as Party) as usize];
        for number in own.into_iter().chain(repository.counts()) {
            text += &format!("{number:>10}");
        }
        text.push('\n');
    }
    text + "closed links: 0\nfinished\n"
}
