//! The same work as `bench state`, in plain Rust: one member's state, view after view.
//! `bench_state WORK 5 TURNS`, where WORK is `final`, `given_up` or `all`, and 5 is how many views a term has.

// Of its certificates only the parts are used here.
#[allow(dead_code)]
#[path = "../wire.rs"]
mod wire;

use std::collections::{BTreeMap, BTreeSet};
use wire::{Keyed, Proposal, Round, Signed, Subject};

const MEMBERS: u32 = 4;
const ME: u32 = 0;
const LENGTH: u64 = 5;
const LOOKAHEAD: u64 = 2;
const RETENTION: u64 = 10;
const PAYLOAD: [u8; 32] = [9; 32];

fn term_index(view: u64) -> u64 {
    view.div_ceil(LENGTH)
}

fn term_start(view: u64) -> u64 {
    match term_index(view).checked_sub(1) {
        None => 0,
        Some(before) => before * LENGTH + 1,
    }
}

fn term_end(view: u64) -> u64 {
    term_index(view).saturating_mul(LENGTH)
}

fn next_term_start(view: u64) -> u64 {
    term_end(view).saturating_add(1)
}

fn leader_of(view: u64) -> u32 {
    (term_index(view) % u64::from(MEMBERS)) as u32
}

/// What a request to the application is about. Its parts but the view and the parent are told to others.
#[allow(dead_code)]
#[derive(Clone, Copy)]
struct Context {
    round: Round,
    leader: u32,
    parent: u64,
    payload: [u8; 32],
}

/// A proposal that is wanted, and whether it is one for the next term whose parent is not certified yet.
struct Request {
    context: Context,
    #[allow(dead_code)]
    is_handoff: bool,
}

// What is missing is told to others.
#[allow(dead_code)]
enum Verify {
    Ready(Context, Proposal),
    Resolve { proposal: u64, view: u64, is_notarization: bool, target: u32 },
    Wait,
}

#[derive(Clone, Copy)]
struct Attested {
    #[allow(dead_code)]
    signature: [u8; 32],
}

/// What is known of a view.
#[derive(Clone, Copy, Default)]
struct Known {
    notarized: Option<Proposal>,
    finalized: Option<Proposal>,
    voted: Option<Proposal>,
    proposed: Option<Proposal>,
    answered: bool,
    asked: Option<Proposal>,
    approved: bool,
    voted_final: bool,
    verdict: Option<bool>,
    published: Option<u64>,
    proposal_asked: bool,
    certify_asked: bool,
    parent_asked: bool,
}

impl Known {
    fn slot(&self) -> Option<Proposal> {
        self.notarized.or(self.finalized).or(self.voted).or(self.proposed)
    }

    fn is_own(&self, proposal: &Proposal) -> bool {
        self.answered && self.proposed.as_ref() == Some(proposal)
    }

    fn is_checked(&self) -> bool {
        self.slot().is_some_and(|slot| {
            let vouched = self.voted == Some(slot)
                || self.is_own(&slot)
                || (self.approved && self.asked == Some(slot));
            vouched
                && self.notarized.is_none_or(|it| it == slot)
                && self.finalized.is_none_or(|it| it == slot)
        })
    }

    fn wants_verify(&self) -> bool {
        self.slot().is_some_and(|slot| !self.is_own(&slot))
            && self.asked.is_none()
            && self.voted.is_none()
            && self.notarized.is_none()
            && self.finalized.is_none()
    }

    fn is_open(&self) -> bool {
        self.verdict.is_none() && !self.certify_asked
    }
}

/// A certificate that is held, and whether it was sent.
struct Held<T> {
    certificate: Signed<T>,
    sent: bool,
}

fn hold<T>(held: &mut BTreeMap<u64, Held<T>>, view: u64, certificate: Signed<T>) {
    held.entry(view).or_insert(Held { certificate, sent: false });
}

fn unsent<T: Clone>(held: &mut BTreeMap<u64, Held<T>>, view: u64) -> Option<Signed<T>> {
    let held = held.get_mut(&view).filter(|held| !held.sent)?;
    held.sent = true;
    Some(held.certificate.clone())
}

fn forget_sent<T>(held: &mut BTreeMap<u64, Held<T>>, may_go: impl Fn(u64) -> bool) {
    while let Some(first) = held.first_entry() {
        if !first.get().sent || !may_go(*first.key()) {
            break;
        }
        first.remove();
    }
}

fn remove_below(views: &mut BTreeSet<u64>, least: u64) {
    while views.first().is_some_and(|first| *first < least) {
        views.pop_first();
    }
}

/// What one member knows.
struct State {
    scheme: Keyed,
    last_finalized: u64,
    finalized_at: u64,
    current: u64,
    entered: u64,
    term_entered: u64,
    pruned: u64,
    rounds: BTreeMap<u64, Known>,
    nullified: BTreeSet<u64>,
    certified: BTreeSet<u64>,
    covered: BTreeMap<u64, u64>,
    waiting: BTreeSet<u64>,
    missing: BTreeSet<(u64, u64, bool)>,
    notarizations: BTreeMap<u64, Held<Proposal>>,
    nullifications: BTreeMap<u64, Held<Round>>,
    finalizations: BTreeMap<u64, Held<Proposal>>,
}

impl State {
    fn new() -> State {
        State {
            scheme: Keyed::new(1, MEMBERS),
            last_finalized: 0,
            finalized_at: 0,
            current: 1,
            entered: 0,
            term_entered: 0,
            pruned: 0,
            rounds: BTreeMap::new(),
            nullified: BTreeSet::new(),
            certified: BTreeSet::new(),
            covered: BTreeMap::new(),
            waiting: BTreeSet::new(),
            missing: BTreeSet::new(),
            notarizations: BTreeMap::new(),
            nullifications: BTreeMap::new(),
            finalizations: BTreeMap::new(),
        }
    }

    fn known(&self, view: u64) -> Known {
        self.rounds.get(&view).copied().unwrap_or_default()
    }

    fn at(&mut self, view: u64) -> &mut Known {
        self.rounds.entry(view).or_default()
    }

    fn sign(&self, subject: Subject) -> Attested {
        Attested { signature: self.scheme.signature(ME, &subject) }
    }

    fn limit(&self) -> u64 {
        term_end(self.current).min(self.current.saturating_add(LOOKAHEAD))
    }

    fn is_ahead(&self, view: u64) -> bool {
        self.current < view && view <= self.limit()
    }

    fn least_active(&self) -> u64 {
        self.last_finalized.saturating_sub(RETENTION)
    }

    fn open(&mut self, view: u64, now: u64) {
        if view <= self.current {
            return;
        }
        if term_index(view) != term_index(self.current) {
            self.term_entered = now;
        }
        self.current = view;
        self.entered = now;
    }

    fn gap_between(&self, parent: u64, view: u64) -> Option<u64> {
        let mut at = parent + 1;
        while at < view {
            match self.covered.get(&term_index(at)) {
                Some(least) if *least <= at => at = next_term_start(at),
                _ => return Some(at),
            }
        }
        None
    }

    fn is_certified(&self, view: u64) -> bool {
        view == self.last_finalized || (self.last_finalized < view && self.certified.contains(&view))
    }

    fn is_met(&self, parent: u64, view: u64) -> bool {
        parent + 1 == view && self.known(parent).voted.is_some() && !self.nullified.contains(&parent)
    }

    fn has_ancestry(&self, parent: u64, view: u64) -> bool {
        self.last_finalized <= parent
            && parent < view
            && self.gap_between(parent, view).is_none()
            && (self.is_certified(parent) || self.is_met(parent, view))
    }

    fn greatest_parent(&self, view: u64) -> Option<u64> {
        if view <= self.last_finalized {
            return None;
        }
        if self.is_met(view - 1, view) {
            return Some(view - 1);
        }
        let certified = self.certified.range(..view).next_back().copied().unwrap_or(0);
        let parent = certified.max(self.last_finalized);
        self.gap_between(parent, view).is_none().then_some(parent)
    }

    fn may_propose(&self, view: u64) -> bool {
        leader_of(view) == ME && self.greatest_parent(view).is_some() && {
            let known = self.known(view);
            known.slot().is_none() && !self.nullified.contains(&view) && !known.proposal_asked
        }
    }

    fn context(&self, view: u64, parent: u64) -> Context {
        let payload = self.known(parent).slot().map_or([0; 32], |it| it.payload);
        Context { round: Round { epoch: 0, view }, leader: leader_of(view), parent, payload }
    }

    fn try_propose(&mut self) -> Option<Request> {
        let next = next_term_start(self.current);
        let view = (self.current..=self.limit())
            .find(|view| self.may_propose(*view))
            .or_else(|| self.may_propose(next).then_some(next))?;
        let parent = self.greatest_parent(view)?;
        let context = self.context(view, parent);
        let is_handoff = view == term_start(view) && !self.is_certified(parent);
        self.at(view).proposal_asked = true;
        Some(Request { context, is_handoff })
    }

    fn proposed(&mut self, context: &Context, payload: [u8; 32]) {
        let view = context.round.view;
        if view < self.current || self.known(view).slot().is_some() || self.nullified.contains(&view) {
            return;
        }
        let known = self.at(view);
        known.proposed = Some(Proposal { round: context.round, parent: context.parent, payload });
        known.answered = true;
    }

    fn set_proposal(&mut self, proposal: &Proposal) {
        let view = proposal.round.view;
        let admitted = view <= self.current.saturating_add(1)
            || view == next_term_start(self.current)
            || self.is_ahead(view);
        if admitted && view > self.last_finalized && self.known(view).slot().is_none() {
            self.at(view).proposed = Some(*proposal);
        }
    }

    fn wants_verify(&self, view: u64) -> bool {
        !self.nullified.contains(&view) && self.known(view).wants_verify()
    }

    fn try_verify(&mut self) -> Verify {
        let mut waiting = self
            .rounds
            .range(self.current..=self.limit())
            .map(|(view, _)| *view)
            .filter(|view| self.wants_verify(*view));
        let Some(first) = waiting.clone().next() else {
            return Verify::Wait;
        };
        let ready = waiting.find(|view| {
            self.known(*view).slot().is_some_and(|slot| self.has_ancestry(slot.parent, *view))
        });
        if let Some((view, slot)) = ready.and_then(|view| Some((view, self.known(view).slot()?))) {
            let context = self.context(view, slot.parent);
            self.at(view).asked = Some(slot);
            return Verify::Ready(context, slot);
        }
        self.missing(first)
    }

    fn missing(&mut self, proposal: u64) -> Verify {
        let Some(parent) = self.known(proposal).slot().map(|slot| slot.parent) else {
            return Verify::Wait;
        };
        if parent < self.last_finalized || proposal <= parent {
            return Verify::Wait;
        }
        let lacks = !self.is_certified(parent)
            && self.known(parent).notarized.is_none()
            && !self.is_met(parent, proposal);
        let missing = if lacks { Some(parent) } else { self.gap_between(parent, proposal) };
        let Some(view) = missing.filter(|view| self.missing.insert((proposal, *view, lacks))) else {
            return Verify::Wait;
        };
        Verify::Resolve { proposal, view, is_notarization: lacks, target: leader_of(proposal) }
    }

    fn verified(&mut self, view: u64) {
        if self.known(view).asked.is_some() {
            self.at(view).approved = true;
        }
    }

    fn construct_notarize(&mut self, view: u64) -> Option<Attested> {
        let known = self.known(view);
        let proposal = known.slot()?;
        let votable = view == self.current
            || self.is_ahead(view)
            || (view == next_term_start(self.current) && known.is_own(&proposal));
        let ready = votable
            && known.is_checked()
            && known.voted.is_none()
            && !self.nullified.contains(&view)
            && self.has_ancestry(proposal.parent, view);
        if !ready {
            return None;
        }
        self.at(view).voted = Some(proposal);
        Some(self.sign(Subject::Notarize(proposal)))
    }

    fn construct_finalize(&mut self, view: u64) -> Option<Attested> {
        let known = self.known(view);
        if view <= self.last_finalized || !self.certified.contains(&view) || known.voted_final {
            return None;
        }
        let last = self.nullified.range(..=view).next_back();
        if last.is_some_and(|last| self.last_finalized < *last && term_index(*last) == term_index(view)) {
            return None;
        }
        let proposal = known.slot()?;
        self.at(view).voted_final = true;
        Some(self.sign(Subject::Finalize(proposal)))
    }

    fn construct_nullify(&mut self, view: u64, now: u64) -> (bool, Attested) {
        let repeated = !self.nullified.insert(view);
        self.at(view).published = Some(now);
        (repeated, self.sign(Subject::Nullify(Round { epoch: 0, view })))
    }

    fn contradicted_leader(&self, proposal: &Proposal) -> Option<u32> {
        let slot = self.known(proposal.round.view).slot()?;
        (slot != *proposal).then(|| leader_of(proposal.round.view))
    }

    fn add_notarization(&mut self, notarization: Signed<Proposal>) -> (bool, Option<u32>) {
        let view = notarization.about.round.view;
        if view < self.least_active() || self.known(view).notarized.is_some() {
            return (false, None);
        }
        let leader = self.contradicted_leader(&notarization.about);
        self.at(view).notarized = Some(notarization.about);
        self.waiting.insert(view);
        hold(&mut self.notarizations, view, notarization);
        (true, leader)
    }

    fn add_nullification(&mut self, nullification: Signed<Round>, now: u64) -> bool {
        let view = nullification.about.view;
        if view < self.least_active() || self.nullifications.contains_key(&view) {
            return false;
        }
        let least = self.covered.entry(term_index(view)).or_insert(view);
        *least = view.min(*least);
        self.open(next_term_start(view), now);
        hold(&mut self.nullifications, view, nullification);
        true
    }

    fn add_finalization(&mut self, finalization: Signed<Proposal>, now: u64) -> (bool, Option<u32>) {
        let view = finalization.about.round.view;
        if view < self.least_active() || self.known(view).finalized.is_some() {
            return (false, None);
        }
        let leader = self.contradicted_leader(&finalization.about);
        self.at(view).finalized = Some(finalization.about);
        self.open(view.saturating_add(1), now);
        if view > self.last_finalized {
            self.last_finalized = view;
            self.finalized_at = now;
        }
        hold(&mut self.finalizations, view, finalization);
        (true, leader)
    }

    fn certify_candidates(&mut self) -> (Vec<Proposal>, Vec<(u64, u64)>) {
        let (rounds, last) = (&self.rounds, self.last_finalized);
        self.waiting.retain(|view| last < *view && rounds.get(view).is_none_or(Known::is_open));
        let (mut proposals, mut fetches) = (Vec::new(), Vec::new());
        for view in &self.waiting {
            let known = self.known(*view);
            let Some(proposal) = known.notarized else { continue };
            if self.is_certified(proposal.parent) {
                proposals.push(proposal);
            }
            let parent = self.known(proposal.parent);
            let lacking = last < proposal.parent && parent.verdict.is_none() && parent.notarized.is_none();
            if lacking && !known.parent_asked {
                fetches.push((*view, proposal.parent));
            }
        }
        for proposal in &proposals {
            self.at(proposal.round.view).certify_asked = true;
        }
        for (view, _) in &fetches {
            self.at(*view).parent_asked = true;
        }
        (proposals, fetches)
    }

    fn certified(&mut self, view: u64, now: u64) -> Option<Signed<Proposal>> {
        let known = self.known(view);
        if view <= self.last_finalized || known.notarized.is_none() || known.verdict.is_some() {
            return None;
        }
        self.at(view).verdict = Some(true);
        self.certified.insert(view);
        self.open(view.saturating_add(1), now);
        self.notarizations.get(&view).map(|held| held.certificate.clone())
    }

    fn prune(&mut self) -> Option<u64> {
        let least = self.least_active();
        if least <= self.pruned {
            return None;
        }
        self.pruned = least;
        while self.rounds.first_key_value().is_some_and(|(first, _)| *first < least) {
            self.rounds.pop_first();
        }
        remove_below(&mut self.certified, least);
        remove_below(&mut self.waiting, least);
        while self.missing.first().is_some_and(|(proposal, _, _)| *proposal < least) {
            self.missing.pop_first();
        }
        while self.covered.first_key_value().is_some_and(|(first, _)| *first < term_index(least)) {
            self.covered.pop_first();
        }
        let current = self.current;
        forget_sent(&mut self.notarizations, |view| view < least);
        forget_sent(&mut self.finalizations, |view| view < least);
        forget_sent(&mut self.nullifications, |view| view < least && next_term_start(view) < current);
        Some(least)
    }
}

#[derive(Default)]
struct Counts {
    votes: u64,
    sent: u64,
    pruned: u64,
}

fn propose(member: &mut State, proposal: &Proposal) {
    if let Some(request) = member.try_propose() {
        member.proposed(&request.context, proposal.payload);
        return;
    }
    member.set_proposal(proposal);
    if let Verify::Ready(_, wanted) = member.try_verify() {
        member.verified(wanted.round.view);
    }
}

fn signed<T>(about: T) -> Signed<T> {
    Signed { about, certificate: Vec::new() }
}

fn turn(member: &mut State, gives_up: bool, now: u64, counts: &mut Counts) {
    let view = member.current;
    let round = Round { epoch: 0, view };
    let proposal = Proposal { round, parent: member.last_finalized, payload: PAYLOAD };
    propose(member, &proposal);
    counts.votes += u64::from(member.construct_notarize(view).is_some());
    member.add_notarization(signed(proposal));
    counts.sent += u64::from(unsent(&mut member.notarizations, view).is_some());
    member.certify_candidates();
    member.certified(view, now);
    counts.votes += u64::from(member.construct_finalize(view).is_some());
    member.add_finalization(signed(proposal), now);
    counts.sent += u64::from(unsent(&mut member.finalizations, view).is_some());
    counts.pruned += u64::from(member.prune().is_some());
    if gives_up {
        let view = member.current;
        member.construct_nullify(view, now);
        counts.votes += 1;
        member.add_nullification(signed(Round { epoch: 0, view }), now);
        counts.sent += u64::from(unsent(&mut member.nullifications, view).is_some());
    }
}

fn main() {
    let words: Vec<String> = std::env::args().collect();
    let length: u64 = words[2].parse().expect("how many views a term has");
    assert_eq!(length, LENGTH, "a term has as many views here");
    let times: u64 = words[3].parse().expect("how many times");
    for (work, gives_up) in [("final", false), ("given_up", true)] {
        if words[1] != work && words[1] != "all" {
            continue;
        }
        let mut member = State::new();
        let mut counts = Counts::default();
        for now in 0..times {
            turn(&mut member, gives_up, now, &mut counts);
        }
        let done = counts.votes + counts.sent + counts.pruned;
        println!("state {work} {length} {times} {done}");
    }
}
