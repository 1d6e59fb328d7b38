//! The same work as `bench round`, in plain Rust: rounds that are given all votes and make their certificates.
//! `bench_round WORK MEMBERS TIMES`, where WORK is `take`, `make` or `all`.

// Of its certificates only the signatures are used here.
#[allow(dead_code)]
#[path = "../wire.rs"]
mod wire;

use std::collections::{BTreeMap, BTreeSet};
use wire::{Attestation, Certificate, Keyed, Proposal, Round as ViewRound, Signed, Subject};

const KEY_BASE: u64 = 1;

#[derive(Clone, Copy, PartialEq, Eq)]
enum Kind {
    Notarization,
    Nullification,
    Finalization,
}

#[derive(Clone, Copy)]
struct Vote {
    subject: Subject,
    attestation: Attestation,
}

impl Vote {
    fn kind(&self) -> Kind {
        match self.subject {
            Subject::Notarize(_) => Kind::Notarization,
            Subject::Nullify(_) => Kind::Nullification,
            Subject::Finalize(_) => Kind::Finalization,
        }
    }

    fn proposal(&self) -> Option<Proposal> {
        match self.subject {
            Subject::Notarize(proposal) | Subject::Finalize(proposal) => Some(proposal),
            Subject::Nullify(_) => None,
        }
    }
}

/// What two votes of a signer prove.
#[derive(Clone, Copy, PartialEq, Eq, PartialOrd, Ord)]
enum Crime {
    Notarizes,
    Finalizes,
    NullifyFinalize,
}

fn crime(first: &Subject, second: &Subject) -> Option<Crime> {
    match (first, second) {
        (Subject::Notarize(p), Subject::Notarize(q)) => (p != q).then_some(Crime::Notarizes),
        (Subject::Finalize(p), Subject::Finalize(q)) => (p != q).then_some(Crime::Finalizes),
        (Subject::Nullify(_), Subject::Finalize(_))
        | (Subject::Finalize(_), Subject::Nullify(_)) => Some(Crime::NullifyFinalize),
        _ => None,
    }
}

#[allow(dead_code)]
enum Activity {
    Vote(Vote),
    Evidence(Crime, Vote, Vote),
}

#[derive(Default)]
struct Out {
    reports: Vec<Activity>,
    blocks: Vec<u32>,
}

struct Ballot {
    vote: Vote,
    found: Option<bool>,
}

#[allow(dead_code)]
struct Batch {
    processed: u64,
    invalid: Vec<u32>,
    certificate: Option<Certificate>,
}

struct Round {
    round: ViewRound,
    members: u32,
    quorum: u32,
    leader: Option<u32>,
    notarizes: BTreeMap<u32, Ballot>,
    others: BTreeMap<u32, Ballot>,
    accused: BTreeSet<(Crime, u32)>,
    held: [Option<Certificate>; 3],
}

impl Round {
    fn new(round: ViewRound, members: u32, quorum: u32) -> Round {
        Round {
            round,
            members,
            quorum,
            leader: None,
            notarizes: BTreeMap::new(),
            others: BTreeMap::new(),
            accused: BTreeSet::new(),
            held: [None, None, None],
        }
    }

    fn side(&mut self, kind: Kind) -> &mut BTreeMap<u32, Ballot> {
        match kind {
            Kind::Notarization => &mut self.notarizes,
            Kind::Nullification | Kind::Finalization => &mut self.others,
        }
    }

    fn add_network(&mut self, sender: u32, vote: Vote, out: &mut Out) -> bool {
        let signer = vote.attestation.signer;
        if signer != sender {
            out.blocks.push(sender);
            return false;
        }
        let Some(accepted) = self.side(vote.kind()).get(&signer) else {
            out.reports.push(Activity::Vote(vote));
            self.side(vote.kind())
                .insert(signer, Ballot { vote, found: None });
            return true;
        };
        let accepted = accepted.vote;
        if let Some(crime) = crime(&accepted.subject, &vote.subject) {
            if self.accused.insert((crime, signer)) {
                out.reports.push(Activity::Evidence(crime, accepted, vote));
                out.blocks.push(signer);
            }
        }
        false
    }

    fn proposal(&self) -> Option<Proposal> {
        for held in self.held.iter().flatten() {
            match held {
                Certificate::Notarization(it) | Certificate::Finalization(it) => {
                    return Some(it.about)
                }
                Certificate::Nullification(_) => {}
            }
        }
        self.notarizes.get(&self.leader?)?.vote.proposal()
    }

    fn subject(&self, kind: Kind) -> Option<Subject> {
        match kind {
            Kind::Notarization => Some(Subject::Notarize(self.proposal()?)),
            Kind::Nullification => Some(Subject::Nullify(self.round)),
            Kind::Finalization => Some(Subject::Finalize(self.proposal()?)),
        }
    }

    fn try_construct(&mut self, scheme: &Keyed) -> Option<Batch> {
        [Kind::Notarization, Kind::Nullification, Kind::Finalization]
            .into_iter()
            .find_map(|kind| self.construct(scheme, kind))
    }

    fn construct(&mut self, scheme: &Keyed, kind: Kind) -> Option<Batch> {
        if self.held[kind as usize].is_some() {
            return None;
        }
        let subject = self.subject(kind)?;
        let members = self.members;
        let quorum = self.quorum as usize;
        let side = self.side(kind);
        let on = |ballot: &Ballot| ballot.vote.subject == subject && ballot.found != Some(false);
        if side.len() < quorum || side.values().filter(|ballot| on(ballot)).count() < quorum {
            return None;
        }
        let mut processed = 0;
        let mut invalid = Vec::new();
        let mut valid = Vec::new();
        for ballot in side.values_mut().filter(|ballot| on(ballot)) {
            let attestation = ballot.vote.attestation;
            let signer = attestation.signer;
            let found = ballot.found.unwrap_or_else(|| {
                processed += 1;
                signer < members && attestation.signature == scheme.signature(signer, &subject)
            });
            ballot.found = Some(found);
            if found {
                valid.push(attestation);
            } else {
                invalid.push(signer);
            }
        }
        let certificate = (valid.len() >= quorum).then(|| certificate_on(&subject, valid));
        if processed == 0 && certificate.is_none() {
            return None;
        }
        self.held[kind as usize] = certificate.clone();
        Some(Batch {
            processed,
            invalid,
            certificate,
        })
    }
}

fn certificate_on(subject: &Subject, certificate: Vec<Attestation>) -> Certificate {
    match *subject {
        Subject::Notarize(about) => Certificate::Notarization(Signed { about, certificate }),
        Subject::Nullify(about) => Certificate::Nullification(Signed { about, certificate }),
        Subject::Finalize(about) => Certificate::Finalization(Signed { about, certificate }),
    }
}

// ---- the work

fn round_of(view: u64) -> ViewRound {
    ViewRound { epoch: 3, view }
}

fn proposal() -> Proposal {
    Proposal {
        round: round_of(300),
        parent: 299,
        payload: [17; 32],
    }
}

fn vote(scheme: &Keyed, signer: u32, subject: Subject) -> Vote {
    let signature = scheme.signature(signer, &subject);
    Vote {
        subject,
        attestation: Attestation { signer, signature },
    }
}

/// The round, and how many votes it accepts.
fn taken(view: u64, members: u32, votes: &[Vote]) -> (Round, u64) {
    let mut taken = Round::new(round_of(view), members, members - (members - 1) / 3);
    let mut out = Out::default();
    taken.leader = Some(0);
    let mut accepted = 0;
    for vote in votes {
        accepted += u64::from(taken.add_network(vote.attestation.signer, *vote, &mut out));
    }
    (taken, accepted)
}

fn made(mut round: Round, scheme: &Keyed) -> u64 {
    (0..3)
        .filter(|_| {
            round
                .try_construct(scheme)
                .is_some_and(|batch| batch.certificate.is_some())
        })
        .count() as u64
}

fn main() {
    let words: Vec<String> = std::env::args().collect();
    let word = words.get(1).map_or("all", String::as_str);
    let members: u32 = words.get(2).map_or(4, |word| word.parse().unwrap());
    let times: u32 = words.get(3).map_or(3, |word| word.parse().unwrap());
    for (name, makes) in [("take", false), ("make", true)] {
        if word != name && word != "all" {
            continue;
        }
        let scheme = Keyed::new(KEY_BASE, members);
        let mut kept = Vec::new();
        let mut given_up = Vec::new();
        for member in 0..members {
            kept.push(vote(&scheme, member, Subject::Notarize(proposal())));
            kept.push(vote(&scheme, member, Subject::Finalize(proposal())));
            given_up.push(vote(&scheme, member, Subject::Nullify(round_of(301))));
        }
        let mut done = 0;
        for _ in 0..times {
            let (kept, accepted) = taken(300, members, std::hint::black_box(&kept));
            let (given_up, more) = taken(301, members, std::hint::black_box(&given_up));
            if makes {
                done += made(kept, &scheme) + made(given_up, &scheme);
            } else {
                std::hint::black_box((&kept, &given_up));
                done += accepted + more;
            }
        }
        println!("round {name} {members} {times} {done}");
    }
}
