//! Parties, and sets of them.

/// A party, by its number, which is below 64.
pub type Party = u8;

/// A system has so many parties at most.
pub const MOST_PARTIES: usize = 64;

/// A set of parties, with a bit for each.
#[derive(Clone, Copy, Default, PartialEq, Eq)]
pub struct PartySet(u64);

impl PartySet {
    /// All of so many parties.
    pub fn all(count: usize) -> PartySet {
        (0..count as Party).collect()
    }

    /// Puts a party in.
    pub fn insert(&mut self, party: Party) {
        self.0 |= 1 << party;
    }

    /// Takes a party out.
    pub fn remove(&mut self, party: Party) {
        self.0 &= !(1 << party);
    }

    /// Whether a party is in it.
    pub fn contains(self, party: Party) -> bool {
        self.0 & 1 << party != 0
    }

    /// Whether no party is in it.
    pub fn is_empty(self) -> bool {
        self.0 == 0
    }

    /// How many parties are in it.
    pub fn len(self) -> u32 {
        self.0.count_ones()
    }

    /// Those in this set or in the other.
    pub fn or(self, other: PartySet) -> PartySet {
        PartySet(self.0 | other.0)
    }

    /// Those in both sets.
    pub fn and(self, other: PartySet) -> PartySet {
        PartySet(self.0 & other.0)
    }

    /// Those that are not in the other set.
    pub fn without(self, other: PartySet) -> PartySet {
        PartySet(self.0 & !other.0)
    }

    /// Its parties, ascending.
    pub fn parties(mut self) -> impl Iterator<Item = Party> {
        std::iter::from_fn(move || {
            let party = self.0.trailing_zeros() as Party;
            (!self.is_empty()).then(|| {
                self.remove(party);
                party
            })
        })
    }
}

impl FromIterator<Party> for PartySet {
    fn from_iter<I: IntoIterator<Item = Party>>(parties: I) -> PartySet {
        let mut set = PartySet::default();
        parties.into_iter().for_each(|party| set.insert(party));
        set
    }
}
