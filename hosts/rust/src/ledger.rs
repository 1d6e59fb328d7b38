//! A ledger of accounts: what the members agree on. Blocks are applied when they are final, in order of views.

use crate::block::{Block, Transfer};
use crate::digest::Digest;
use crate::effect::{Parent, View};
use crate::error::{Error, Malformed, Result};
use crate::store::{BlockStore, Gap};
use std::collections::BTreeMap;

const MOST_TRANSFERS: usize = 200;
const MOST_WAITING: usize = 10_000;

/// Balances, and how many transfers each account sent.
#[derive(Clone, Debug, Default, Eq, PartialEq)]
pub struct State {
    pub balances: BTreeMap<String, u64>,
    pub sent: BTreeMap<String, u64>,
}

impl State {
    pub fn new(balances: BTreeMap<String, u64>) -> State {
        State {
            balances,
            sent: BTreeMap::new(),
        }
    }

    fn next_number(&self, account: &str) -> u64 {
        self.sent.get(account).copied().unwrap_or(0)
    }

    /// Makes the transfer, where it may be next: whether it may.
    pub fn apply(&mut self, it: &Transfer) -> bool {
        let is_next = it.number == self.next_number(&it.sender);
        if !is_next || it.amount == 0 || it.sender == it.receiver {
            return false;
        }
        let (Some(&from), Some(&to)) = (
            self.balances.get(&it.sender),
            self.balances.get(&it.receiver),
        ) else {
            return false;
        };
        let (Some(less), Some(more)) = (from.checked_sub(it.amount), to.checked_add(it.amount))
        else {
            return false;
        };
        self.balances.insert(it.sender.clone(), less);
        self.balances.insert(it.receiver.clone(), more);
        self.sent.insert(it.sender.clone(), it.number + 1);
        true
    }

    /// The state after these transfers, or none where one of them may not be.
    fn after(&self, transfers: &[Transfer]) -> Option<State> {
        let mut state = self.clone();
        transfers.iter().all(|it| state.apply(it)).then_some(state)
    }
}

/// What the application says to a request.
#[derive(Clone, Debug, Eq, PartialEq)]
pub enum Verdict<T> {
    Is(T),
    /// It cannot say before this block is here.
    Lacks(Digest),
}

/// The state after the last applied block, transfers that wait for one, and blocks.
pub struct Ledger {
    pub store: BlockStore,
    pub state: State,
    /// The applied blocks, from that of view 0.
    pub chain: Vec<Parent>,
    /// The greatest final view, which may lack a block yet.
    pub last_final: Parent,
    waiting: BTreeMap<(String, u64), Transfer>,
}

impl Ledger {
    /// `head` is the last block that was applied in an earlier life.
    pub fn new(
        accounts: BTreeMap<String, u64>,
        genesis: Digest,
        store: BlockStore,
        head: Option<Parent>,
    ) -> Result<Ledger> {
        let genesis = Parent {
            view: 0,
            payload: genesis,
        };
        let mut ledger = Ledger {
            store,
            state: State::new(accounts),
            chain: vec![genesis],
            last_final: head.unwrap_or(genesis),
            waiting: BTreeMap::new(),
        };
        ledger.apply_finals()?;
        Ok(ledger)
    }

    pub fn head(&self) -> Parent {
        // The chain has at least the block of view 0.
        self.chain[self.chain.len() - 1]
    }

    pub fn waiting(&self) -> usize {
        self.waiting.len()
    }

    /// Takes a transfer that a block may have: whether it is a new one.
    pub fn submit(&mut self, it: Transfer) -> bool {
        let key = (it.sender.clone(), it.number);
        let is_new = !self.waiting.contains_key(&key)
            && it.number >= self.state.next_number(&it.sender)
            && self.waiting.len() < MOST_WAITING;
        if is_new {
            self.waiting.insert(key, it);
        }
        is_new
    }

    fn state_at(&mut self, parent: Parent) -> std::result::Result<Option<State>, Gap> {
        let path = self.store.path(parent, self.head())?;
        let mut state = Some(self.state.clone());
        for (_, stored) in path {
            state = state.and_then(|state| state.after(&stored.block.transfers));
        }
        Ok(state)
    }

    /// A block for the view after this parent; none where the parent is off the chain.
    pub fn propose(&mut self, view: View, parent: Parent) -> Verdict<Option<Block>> {
        let mut state = match self.state_at(parent) {
            Ok(Some(state)) => state,
            Ok(None) | Err(Gap::OtherChain) => return Verdict::Is(None),
            Err(Gap::Missing(digest)) => return Verdict::Lacks(digest),
        };
        let mut transfers = Vec::new();
        for it in self.waiting.values() {
            if transfers.len() < MOST_TRANSFERS && state.apply(it) {
                transfers.push(it.clone());
            }
        }
        Verdict::Is(Some(Block {
            view,
            parent,
            transfers,
        }))
    }

    /// Whether the block may follow its parent.
    pub fn verify(&mut self, view: View, parent: Parent, payload: Digest) -> Verdict<bool> {
        let Some(stored) = self.store.get(payload) else {
            return Verdict::Lacks(payload);
        };
        let block = &stored.block;
        if (block.view, block.parent) != (view, parent) {
            return Verdict::Is(false);
        }
        match self.state_at(parent) {
            Ok(Some(state)) => Verdict::Is(state.after(&block.transfers).is_some()),
            Ok(None) | Err(Gap::OtherChain) => Verdict::Is(false),
            Err(Gap::Missing(digest)) => Verdict::Lacks(digest),
        }
    }

    /// The block of this view is final, and all before it. It may come twice. The digest of a block that is missing, or none.
    pub fn finalize(&mut self, last: Parent) -> Result<Option<Digest>> {
        if last.view > self.last_final.view {
            self.last_final = last;
        }
        let before = self.head();
        let missing = self.apply_finals()?;
        if self.head() != before {
            self.store.note_final(self.head());
        }
        Ok(missing)
    }

    /// Takes the bytes of a block, and applies what is final and there: the digest of the block, and of one that is missing.
    pub fn add(&mut self, bytes: Vec<u8>) -> std::result::Result<Digest, Malformed> {
        self.store.add(bytes)
    }

    /// Applies what is final and there: the digest of a block that is missing, or none.
    pub fn catch_up(&mut self) -> Result<Option<Digest>> {
        self.finalize(self.last_final)
    }

    fn apply_finals(&mut self) -> Result<Option<Digest>> {
        let (last, head) = (self.last_final, self.head());
        if last.view <= head.view {
            return Ok(None);
        }
        let path = match self.store.path(last, head) {
            Ok(path) => path,
            Err(Gap::Missing(digest)) => return Ok(Some(digest)),
            Err(Gap::OtherChain) => {
                let (view, payload) = (last.view, last.payload);
                return Err(Error::Fault(format!(
                    "view {view} is final with {payload}, which does not follow view {}",
                    head.view
                )));
            }
        };
        for (digest, stored) in path {
            let block = &stored.block;
            self.state = self
                .state
                .after(&block.transfers)
                .ok_or_else(|| Error::Fault(format!("a final block is not valid: {digest}")))?;
            self.chain.push(Parent {
                view: block.view,
                payload: digest,
            });
        }
        let state = &self.state;
        self.waiting
            .retain(|_, it| it.number >= state.next_number(&it.sender));
        Ok(None)
    }
}

#[cfg(test)]
mod tests {
    #![allow(clippy::unwrap_used)]
    use super::*;
    use crate::testing::Room;

    fn genesis() -> Parent {
        Parent {
            view: 0,
            payload: Digest::genesis(0),
        }
    }

    fn transfer(words: &str) -> Transfer {
        Transfer::parse(&words.split(' ').collect::<Vec<_>>()).unwrap()
    }

    fn block(view: View, parent: Parent, transfers: &[&str]) -> Block {
        let transfers = transfers.iter().map(|words| transfer(words)).collect();
        Block {
            view,
            parent,
            transfers,
        }
    }

    fn named(block: &Block) -> Parent {
        Parent {
            view: block.view,
            payload: Digest::of(&block.encode()),
        }
    }

    fn open(room: &Room) -> Ledger {
        let accounts = [("a", 10), ("b", 0)].map(|(name, balance)| (name.to_owned(), balance));
        let (store, head) = BlockStore::open(&room.path().join("blocks"), |_| ()).unwrap();
        Ledger::new(accounts.into(), genesis().payload, store, head).unwrap()
    }

    fn balances(ledger: &Ledger) -> [u64; 2] {
        ["a", "b"].map(|name| ledger.state.balances[name])
    }

    #[test]
    fn a_transfer_moves_an_amount() {
        let mut state = State::new([("a".to_owned(), 10), ("b".to_owned(), 0)].into());
        assert!(state.apply(&transfer("a b 4 0")) && state.apply(&transfer("b a 1 0")));
        assert_eq!((state.balances["a"], state.balances["b"]), (7, 3));
        assert_eq!((state.sent["a"], state.sent["b"]), (1, 1));
    }

    #[test]
    fn what_no_transfer_may_be() {
        let before = State::new([("a".to_owned(), 10), ("b".to_owned(), u64::MAX)].into());
        for words in [
            "a b 11 0", "a b 0 0", "a a 1 0", "a c 1 0", "c a 1 0", "a b 1 1", "a b 1 0",
        ] {
            let mut state = before.clone();
            assert!(!state.apply(&transfer(words)), "{words}");
            assert_eq!(state, before);
        }
    }

    #[test]
    fn a_leader_proposes_what_waits_in_order() {
        let room = Room::new("proposes");
        let mut ledger = open(&room);
        for words in ["a b 2 1", "a b 3 0", "b a 9 0"] {
            assert!(ledger.submit(transfer(words)));
        }
        assert!(!ledger.submit(transfer("a b 3 0")));
        let Verdict::Is(Some(found)) = ledger.propose(1, genesis()) else {
            panic!("no proposal");
        };
        assert_eq!(found, block(1, genesis(), &["a b 3 0", "a b 2 1"]));
        let digest = ledger.add(found.encode()).unwrap();
        assert_eq!(ledger.verify(1, genesis(), digest), Verdict::Is(true));
    }

    #[test]
    fn blocks_that_are_refused() {
        let room = Room::new("refused");
        let mut ledger = open(&room);
        let other = Parent {
            view: 0,
            payload: Digest::of(b""),
        };
        for it in [
            block(2, genesis(), &[]),
            block(1, other, &[]),
            block(1, genesis(), &["a b 11 0"]),
        ] {
            let digest = ledger.add(it.encode()).unwrap();
            assert_eq!(ledger.verify(1, genesis(), digest), Verdict::Is(false));
        }
    }

    #[test]
    fn a_missing_block_is_named() {
        let room = Room::new("missing");
        let mut ledger = open(&room);
        let parent = block(1, genesis(), &["a b 4 0"]);
        let child = block(2, named(&parent), &["a b 4 1"]);
        let (up, down) = (named(&parent), named(&child).payload);
        assert_eq!(ledger.verify(2, up, down), Verdict::Lacks(down));
        ledger.add(child.encode()).unwrap();
        assert_eq!(ledger.verify(2, up, down), Verdict::Lacks(up.payload));
        ledger.add(parent.encode()).unwrap();
        assert_eq!(ledger.verify(2, up, down), Verdict::Is(true));
    }

    #[test]
    fn ancestors_of_a_final_block_are_applied_first() {
        let room = Room::new("ancestors");
        let mut ledger = open(&room);
        let parent = block(1, genesis(), &["a b 4 0"]);
        let child = block(3, named(&parent), &["b a 1 0"]);
        ledger.add(child.encode()).unwrap();
        let missing = ledger.finalize(named(&child)).unwrap();
        assert_eq!(missing, Some(named(&parent).payload));
        assert_eq!(ledger.head(), genesis());
        ledger.add(parent.encode()).unwrap();
        assert_eq!(ledger.catch_up().unwrap(), None);
        assert_eq!(balances(&ledger), [7, 3]);
        let views: Vec<View> = ledger.chain.iter().map(|it| it.view).collect();
        assert_eq!(views, [0, 1, 3]);
        // It comes again after a restart of the member.
        assert_eq!(ledger.finalize(named(&parent)).unwrap(), None);
        assert_eq!(balances(&ledger), [7, 3]);
    }

    #[test]
    fn two_final_blocks_of_other_chains_are_a_fault() {
        let room = Room::new("fault");
        let mut ledger = open(&room);
        let (one, other) = (block(1, genesis(), &[]), block(2, genesis(), &[]));
        for it in [&one, &other] {
            ledger.add(it.encode()).unwrap();
        }
        ledger.finalize(named(&one)).unwrap();
        assert!(matches!(
            ledger.finalize(named(&other)),
            Err(Error::Fault(_))
        ));
    }

    #[test]
    fn a_block_on_what_is_no_longer_the_end_is_refused() {
        let room = Room::new("end");
        let mut ledger = open(&room);
        let (first, other) = (block(1, genesis(), &[]), block(2, genesis(), &[]));
        ledger.add(first.encode()).unwrap();
        ledger.finalize(named(&first)).unwrap();
        let digest = ledger.add(other.encode()).unwrap();
        assert_eq!(ledger.verify(2, genesis(), digest), Verdict::Is(false));
        assert_eq!(ledger.propose(2, genesis()), Verdict::Is(None));
    }

    #[test]
    fn a_transfer_that_was_applied_waits_no_more() {
        let room = Room::new("waits");
        let mut ledger = open(&room);
        ledger.submit(transfer("a b 4 0"));
        let it = block(1, genesis(), &["a b 4 0"]);
        ledger.add(it.encode()).unwrap();
        ledger.finalize(named(&it)).unwrap();
        assert_eq!(ledger.waiting(), 0);
        assert!(!ledger.submit(transfer("a b 4 0")));
    }
}
