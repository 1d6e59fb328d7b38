//! The same work as `bench repair`, in plain Rust: a repair state that is given nullifications, far ahead and one by
//! one. `bench_repair WORK TERMS TIMES`, where WORK is `jump`, `fill` or `all`.

// Of a certificate only the bytes are used here.
#[allow(dead_code)]
#[path = "../wire.rs"]
mod wire;

use std::collections::{BTreeMap, BTreeSet};
use wire::{Certificate, Proposal, Round, Signed};

const LENGTH: u64 = 5;

fn term_index(view: u64) -> u64 {
    view.div_ceil(LENGTH)
}

fn term_start(view: u64) -> u64 {
    match term_index(view).checked_sub(1) {
        None => 0,
        Some(before) => before * LENGTH + 1,
    }
}

fn term_end(view: u64) -> u64 {
    term_index(view).saturating_mul(LENGTH)
}

fn next_term_start(view: u64) -> u64 {
    term_end(view).saturating_add(1)
}

#[derive(Clone, Copy)]
enum Kind {
    Notarization,
    Nullification,
}

// The ranges and views are told to others, and only counted here.
#[allow(dead_code)]
enum Effect {
    Fetch { view: u64 },
    Settled { kind: Kind, start: u64, end: u64 },
    Finalized(u64),
    Raised(u64),
}

/// What one member holds for others, and which nullifications it lacks.
#[derive(Default)]
struct RepairState {
    is_replayed: bool,
    finalization: Option<Signed<Proposal>>,
    floor: u64,
    top: u64,
    failed: BTreeSet<u64>,
    good: BTreeSet<u64>,
    notarizations: BTreeMap<u64, Signed<Proposal>>,
    nullifications: BTreeMap<u64, Signed<Round>>,
}

impl RepairState {
    fn updated(&mut self, certificate: &Certificate) -> Vec<Effect> {
        match certificate {
            Certificate::Notarization(it) => self.take_notarization(it),
            Certificate::Nullification(it) => self.take_nullification(it),
            Certificate::Finalization(it) => self.take_finalization(it),
        }
    }

    fn replayed(&mut self) -> Vec<Effect> {
        let mut effects = Vec::new();
        if !self.is_replayed {
            self.is_replayed = true;
            self.fetch(self.floor, self.top, &mut effects);
        }
        effects
    }

    fn take_notarization(&mut self, it: &Signed<Proposal>) -> Vec<Effect> {
        let view = it.about.round.view;
        let behind = self.asked_to(self.top.min(view));
        let mut effects = Vec::new();
        if !self.is_final(view) && !self.notarizations.contains_key(&view) {
            effects.push(Effect::Settled { kind: Kind::Notarization, start: view, end: view });
            self.notarizations.insert(view, it.clone());
        }
        self.top = self.top.max(view);
        self.fetch(behind, view, &mut effects);
        effects
    }

    fn take_nullification(&mut self, it: &Signed<Round>) -> Vec<Effect> {
        let view = it.about.view;
        let last = next_term_start(view);
        let behind = self.asked_to(self.top.min(last));
        let mut effects = Vec::new();
        if !self.is_final(view) && !self.nullifications.contains_key(&view) {
            effects.push(Effect::Settled { kind: Kind::Nullification, start: view, end: term_end(view) });
            self.nullifications.insert(view, it.clone());
        }
        self.top = self.top.max(last);
        self.fetch(behind, last, &mut effects);
        effects
    }

    fn take_finalization(&mut self, it: &Signed<Proposal>) -> Vec<Effect> {
        let view = it.about.round.view;
        let next = self.floor.max(view).saturating_add(1);
        let behind = self.asked_to(next);
        let mut effects = Vec::new();
        if !self.is_final(view) {
            effects.push(Effect::Finalized(view));
            self.finalization = Some(it.clone());
            self.notarizations.retain(|held, _| view < *held);
            self.nullifications.retain(|held, _| view < *held);
            self.failed.retain(|held| view < *held);
            self.good.retain(|held| view < *held);
        }
        if self.floor < view {
            self.floor = view;
            effects.push(Effect::Raised(view));
        }
        self.top = self.top.max(next);
        self.fetch(behind, next, &mut effects);
        effects
    }

    /// The bytes of the certificate for one who asks for the view.
    fn produce(&self, view: u64) -> Option<Vec<u8>> {
        self.certificate_for(view).map(|certificate| certificate.encode())
    }

    fn certificate_for(&self, view: u64) -> Option<Certificate> {
        if self.is_final(view) {
            return self.finalization.clone().map(Certificate::Finalization);
        }
        if self.good.contains(&view) {
            return self.notarizations.get(&view).cloned().map(Certificate::Notarization);
        }
        if let Some((_, it)) = self.nullifications.range(term_start(view)..=view).next() {
            return Some(Certificate::Nullification(it.clone()));
        }
        if view <= self.floor && self.good.contains(&self.floor) {
            return self.notarizations.get(&self.floor).cloned().map(Certificate::Notarization);
        }
        None
    }

    fn is_final(&self, view: u64) -> bool {
        self.finalization.as_ref().is_some_and(|it| view <= it.about.round.view)
    }

    fn is_nullified(&self, view: u64) -> bool {
        self.nullifications.range(term_start(view)..=view).next().is_some()
    }

    /// Asks for the gaps behind one view and up to another.
    fn fetch(&self, behind: u64, last: u64, effects: &mut Vec<Effect>) {
        if !self.is_replayed {
            return;
        }
        let mut at = self.floor.max(behind);
        while at < last {
            let view = self.candidate_from(at + 1);
            if view > last {
                break;
            }
            if self.is_gap(view) {
                effects.push(Effect::Fetch { view });
            }
            at = view;
        }
    }

    fn asked_to(&self, view: u64) -> u64 {
        if self.is_gap(view) { view } else { view.saturating_sub(1) }
    }

    fn is_gap(&self, view: u64) -> bool {
        if !self.is_replayed || view <= self.floor || self.is_nullified(view) {
            return false;
        }
        (view < self.top && self.is_first_above(view)) || self.failed.contains(&view)
    }

    fn is_first_above(&self, view: u64) -> bool {
        view == (self.floor + 1).max(term_start(view))
    }

    /// The least view from this one on that can be a gap.
    fn candidate_from(&self, view: u64) -> u64 {
        let first = if self.is_first_above(view) { view } else { next_term_start(view) };
        self.failed.range(view..).next().map_or(first, |failed| first.min(*failed))
    }
}

/// What came out: views to ask for, ranges that are settled, and bytes that were handed out.
#[derive(Default)]
struct Counts {
    fetched: u64,
    settled: u64,
    served: u64,
}

impl Counts {
    fn take(&mut self, effects: &[Effect]) {
        for effect in effects {
            match effect {
                Effect::Fetch { .. } => self.fetched += 1,
                Effect::Settled { .. } => self.settled += 1,
                Effect::Finalized(_) | Effect::Raised(_) => (),
            }
        }
    }
}

fn nullification(view: u64) -> Certificate {
    let round = Round { epoch: 0, view };
    Certificate::Nullification(Signed { about: round, certificate: Vec::new() })
}

fn jump(terms: u64, counts: &mut Counts) -> RepairState {
    let mut repair = RepairState::default();
    counts.take(&repair.replayed());
    counts.take(&repair.updated(&nullification(terms * LENGTH + 1)));
    repair
}

fn fill(repair: &mut RepairState, term: u64, counts: &mut Counts) {
    let first = term * LENGTH + 1;
    counts.take(&repair.updated(&nullification(first)));
    if let Some(bytes) = repair.produce(term_end(first)) {
        counts.served += bytes.len() as u64;
    }
}

fn main() {
    let words: Vec<String> = std::env::args().collect();
    let terms: u64 = words[2].parse().expect("how many terms");
    let times: u64 = words[3].parse().expect("how many times");
    for work in ["jump", "fill"] {
        if words[1] != work && words[1] != "all" {
            continue;
        }
        let mut counts = Counts::default();
        if work == "jump" {
            for _ in 0..times {
                jump(terms, &mut counts);
            }
        } else {
            let mut repair = jump(terms, &mut counts);
            for at in 0..times {
                fill(&mut repair, at % terms, &mut counts);
            }
        }
        let done = counts.fetched + counts.settled + counts.served;
        println!("repair {work} {terms} {times} {done}");
    }
}
