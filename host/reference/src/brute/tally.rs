//! How often there was what the naive check is about, so that a test can say
//! that it has looked at enough of it.

use std::cell::RefCell;
use std::collections::BTreeMap;

/// What can be in a fabric and what was asked of it.
#[derive(Clone, Copy, Debug, PartialEq, Eq, PartialOrd, Ord)]
pub enum Fact {
    /// It is one.
    Fabric,
    /// There are more ways or units than are looked at.
    Skipped,
    Found,
    /// Found after three hops or more.
    FoundFar,
    /// A pair in two finds.
    FoundTwice,
    Reached,
    IsolatedWithFinds,
    /// No packet meets a tie.
    NoTie,
    /// A run that is tied where it starts.
    TiedAtTheStart,
    /// A run that is tied behind a link.
    TiedBehindALink,
    /// A run that is tied by three or more.
    TiedByThree,
    /// A run that is tied by entries that all do the same.
    TiedByAlike,
    /// A run past two equals below the entry that takes the packet.
    PastEqualsBelow,
    /// A run that is still travelling at the limit, to where it would be tied.
    TravellingToATie,
    /// A packet that arrives under one choice and not under another.
    ArrivesByChoice,
    /// The same of a foreign packet.
    LeaksByChoice,
    /// Reached, and isolated if the earlier of equals always took the packet.
    LeaksByTheLater,
    /// No entry copies or swaps.
    NoTransfer,
    /// Found by a copy. Here and below, one that changes the header.
    FoundByACopy,
    FoundByASwap,
    /// Found by a swap whose rewrite writes to an address.
    FoundByASwapRewritten,
    /// Found by a copy or swap behind a link.
    FoundByATransferFar,
    /// A run that is dropped by an entry that copies or swaps.
    DroppedByATransfer,
    /// A run that is tied after a copy or swap.
    TiedAfterATransfer,
    /// In the trace a copy is undone that joins wanted bits, and they agree.
    JoinsThatAgree,
    /// They don't, so that it ends there.
    JoinsThatDisagree,
    /// Under OpenFlow 1.3, a list of the lost that is refused.
    LostRefused,
    /// Found by a list of the lost, after no hop. Here and below, of such a list.
    LostAtOnce,
    /// Found after two hops or more.
    LostFar,
    /// Found after one hop less than the limit, which is above 1.
    LostAtTheLimit,
    /// A pair in two finds.
    LostTwice,
    /// A packet that is found and under another choice isn't lost.
    LostByChoice,
    /// Found though it started with a header outside the asked set.
    LostWithinTheAsked,
    /// A packet that started inside it and isn't found, since it is outside when lost.
    LostOutsideTheAsked,
    /// Under OpenFlow 1.3, a run that no entry takes at the start.
    MissedAtTheStart,
    /// The same behind a link.
    MissedBehindALink,
    /// A run that is still travelling at the limit, to where no entry takes it.
    TravellingToAMiss,
    /// A packet that is found, and with an Ethernet bit turned is not.
    FoundByEthernet,
    /// Found with other Ethernet bits than it started with.
    FoundRewritten,
    /// A packet that arrives and is foreign, and with an Ethernet bit turned is not
    /// foreign.
    ForeignByEthernet,
    /// A packet that meets a tie, and with an Ethernet bit turned meets none.
    TiedByEthernet,
    /// A packet that a list of the lost finds, and with an Ethernet bit turned not.
    LostByEthernet,
}

impl Fact {
    /// Those that only equal priorities bring about.
    pub const OF_TIES: [Fact; 10] = [
        Fact::FoundTwice,
        Fact::TiedAtTheStart,
        Fact::TiedBehindALink,
        Fact::TiedByThree,
        Fact::TiedByAlike,
        Fact::PastEqualsBelow,
        Fact::TravellingToATie,
        Fact::ArrivesByChoice,
        Fact::LeaksByChoice,
        Fact::LeaksByTheLater,
    ];

    /// Those that only copies and swaps bring about.
    pub const OF_TRANSFERS: [Fact; 8] = [
        Fact::FoundByACopy,
        Fact::FoundByASwap,
        Fact::FoundByASwapRewritten,
        Fact::FoundByATransferFar,
        Fact::DroppedByATransfer,
        Fact::TiedAfterATransfer,
        Fact::JoinsThatAgree,
        Fact::JoinsThatDisagree,
    ];

    /// Those that only table misses bring about.
    pub const OF_MISSES: [Fact; 11] = [
        Fact::LostRefused,
        Fact::LostAtOnce,
        Fact::LostFar,
        Fact::LostAtTheLimit,
        Fact::LostTwice,
        Fact::LostByChoice,
        Fact::LostWithinTheAsked,
        Fact::LostOutsideTheAsked,
        Fact::MissedAtTheStart,
        Fact::MissedBehindALink,
        Fact::TravellingToAMiss,
    ];

    /// Those that only Ethernet fields bring about, but for what is lost by them.
    pub const OF_ETHERNET: [Fact; 4] = [
        Fact::FoundByEthernet,
        Fact::FoundRewritten,
        Fact::ForeignByEthernet,
        Fact::TiedByEthernet,
    ];
}

/// In how many fabrics there was each of them.
#[derive(Debug, Default)]
pub struct Tally {
    counts: RefCell<BTreeMap<Fact, u32>>,
}

impl Tally {
    pub(super) fn count(&self, facts: impl IntoIterator<Item = Fact>) {
        for fact in facts {
            *self.counts.borrow_mut().entry(fact).or_default() += 1;
        }
    }

    fn of(&self, fact: Fact) -> u32 {
        self.counts.borrow().get(&fact).copied().unwrap_or(0)
    }

    /// Whether a single seed was asked for.
    fn replayed(&self) -> bool {
        self.of(Fact::Fabric) == 1
    }

    /// Fails if fewer fabrics than this had one of these.
    pub fn has(&self, floor: u32, facts: &[Fact]) {
        for &fact in facts {
            let enough = self.of(fact) >= floor || self.replayed();
            assert!(enough, "too little {fact:?}: {self:?}");
        }
    }

    /// Fails if as many as one fabric of these had it.
    pub(super) fn has_less_than_once_in(&self, times: u32, fact: Fact) {
        let few = self.of(fact) * times < self.of(Fact::Fabric);
        assert!(few || self.replayed(), "too much {fact:?}: {self:?}");
    }
}
