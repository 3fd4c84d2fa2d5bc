//! The statuses of a pack that has many, in blocks that are passed at once.
//!
//! A status that comes late can turn all that stand behind it over. It does not look at each of them: of a block it is known what it leaves
//! of a pack that comes to it active, and whose reverts stand in it; for one that another has changed it does nothing.

use crate::log::Place;
use crate::own::{Life, State};
use crate::party::PartySet;
use crate::values::Standing;

/// Fewer statuses are looked at one by one.
pub const MOST_ALONE: usize = 256;

/// A block has so many statuses as it is begun or parted, and at most twice as many.
const BLOCK: usize = 128;

/// What some statuses of a pack do that stand one behind the other.
struct Block {
    count: usize,
    /// Whose statuses to active are among them.
    reverters: PartySet,
    /// What they leave of a pack that comes to them active.
    of_active: State,
    /// What they leave of the pack that came to them last of those whose change they may revert, and by what that was changed.
    of_changed: Option<(Place, State)>,
    /// What they leave of the pack as it comes to them.
    after: State,
}

/// All statuses of a pack, in blocks.
pub struct Blocks(Vec<Block>);

impl Blocks {
    /// The blocks of statuses.
    pub fn of(life: Life, statuses: &[Place]) -> Blocks {
        let mut blocks = Blocks(Vec::new());
        for some in statuses.chunks(BLOCK) {
            let before = blocks.state();
            blocks.0.push(Block::of(life, before, some));
        }
        blocks
    }

    /// What all statuses leave of the pack.
    pub fn state(&self) -> State {
        self.before(self.0.len())
    }

    /// The pack as it comes to a block.
    fn before(&self, block: usize) -> State {
        self.0[..block].last().and_then(|block| block.after)
    }

    /// Puts a status at its place among all of them: its effect.
    pub fn insert(&mut self, life: Life, statuses: &mut Vec<Place>, at: usize, place: Place) -> &'static str {
        if at == statuses.len() {
            statuses.push(place);
            return self.push(life, place);
        }
        let (number, start) = self.find(life, statuses, at);
        let mut state = life.after(self.before(number), &statuses[start..at]);
        let effect = life.note(&mut state, place);
        statuses.insert(at, place);
        let end = start + self.0[number].count + 1;
        let block = Block::of(life, self.before(number), &statuses[start..end]);
        let is_changed = block.after != self.0[number].after;
        self.0[number] = block;
        if is_changed {
            self.pass(life, &statuses[end..], number);
        }
        effect
    }

    /// Adds a status behind all others: its effect.
    fn push(&mut self, life: Life, place: Place) -> &'static str {
        let before = self.state();
        match self.0.last_mut() {
            Some(block) if block.count < BLOCK => block.push(life, place),
            _ => {
                let (mut block, mut state) = (Block::of(life, before, &[]), before);
                let effect = life.note(&mut state, place);
                block.push(life, place);
                self.0.push(block);
                effect
            }
        }
    }

    /// The block in which a place stands that is none behind all others, and where it begins. One that is full is parted.
    fn find(&mut self, life: Life, statuses: &[Place], at: usize) -> (usize, usize) {
        let (mut number, mut start) = (0, 0);
        while start + self.0[number].count < at {
            start += self.0[number].count;
            number += 1;
        }
        if self.0[number].count == 2 * BLOCK {
            let before = self.before(number);
            let first = Block::of(life, before, &statuses[start..][..BLOCK]);
            let second = Block::of(life, first.after, &statuses[start + BLOCK..][..BLOCK]);
            self.0.splice(number..=number, [first, second]);
            if at > start + BLOCK {
                return (number + 1, start + BLOCK);
            }
        }
        (number, start)
    }

    /// Takes the pack through the blocks behind one, as far as it comes to them as it did not before.
    fn pass(&mut self, life: Life, mut statuses: &[Place], number: usize) {
        let mut state = self.0[number].after;
        for block in &mut self.0[number + 1..] {
            let (own, behind) = statuses.split_at(block.count);
            let after = block.pass(life, state, own);
            if after == block.after {
                return;
            }
            block.after = after;
            (state, statuses) = (after, behind);
        }
    }
}

impl Block {
    /// What statuses do to a pack that comes to them so.
    fn of(life: Life, before: State, statuses: &[Place]) -> Block {
        let log = life.history.log;
        let reverts = statuses.iter().filter(|place| log.status(**place).to == Standing::Active);
        let reverters = reverts.map(|place| log.entry(*place).sender).collect();
        let of_active = life.after(None, statuses);
        let mut block = Block { count: statuses.len(), reverters, of_active, of_changed: None, after: None };
        block.after = block.pass(life, before, statuses);
        block
    }

    /// Adds a status behind the others: its effect on the pack as it comes to it.
    fn push(&mut self, life: Life, place: Place) -> &'static str {
        let log = life.history.log;
        if log.status(place).to == Standing::Active {
            self.reverters.insert(log.entry(place).sender);
        }
        self.count += 1;
        life.note(&mut self.of_active, place);
        self.of_changed = None;
        life.note(&mut self.after, place)
    }

    /// What the statuses of the block leave of a pack that comes to them.
    fn pass(&mut self, life: Life, state: State, statuses: &[Place]) -> State {
        let Some(change) = state else {
            return self.of_active;
        };
        if !self.reverters.contains(life.history.log.entry(change).sender) {
            return state;
        }
        match self.of_changed {
            Some((before, after)) if before == change => after,
            _ => {
                let after = life.after(state, statuses);
                self.of_changed = Some((change, after));
                after
            }
        }
    }
}
