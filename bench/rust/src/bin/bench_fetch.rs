//! The same work as `bench fetch`, in plain Rust: calls of a fetcher with many open views.
//! `bench_fetch WORK VIEWS TIMES`, where WORK is `ask`, `answer`, `serve`, `expire`, `sweep` or `all`.

use std::collections::{BTreeMap, BTreeSet};

const MEMBERS: u32 = 100;

#[derive(Clone, Copy, PartialEq, Eq)]
#[allow(dead_code)]
enum Kind {
    Nullification,
    Notarization,
}

#[derive(Clone, Copy, PartialEq, Eq)]
enum Until {
    Floor,
    Finalized,
}

#[derive(Clone, Copy, PartialEq, Eq)]
struct Ask {
    kind: Kind,
    until: Until,
}

#[derive(Clone, Copy)]
#[allow(dead_code)]
enum Outcome {
    Ignored,
    Invalid,
    Complete,
    Partial,
    Unresolved,
}

#[allow(dead_code)]
enum Retire {
    Settled { kind: Kind, start: u64, end: u64 },
    Finalized(u64),
    Floor(u64),
}

#[allow(dead_code)]
enum Out {
    Send {
        to: u32,
        bytes: Vec<u8>,
    },
    Deliver {
        id: u64,
        view: u64,
        bytes: Vec<u8>,
        asks: Vec<Ask>,
    },
    Produce {
        id: u64,
        view: u64,
    },
    Block(u32),
    Left(u64),
}

// ---- messages

enum Body {
    Request(u64),
    Response(Vec<u8>),
    Error,
}

fn push_number(out: &mut Vec<u8>, mut number: u64) {
    while number >= 128 {
        out.push((number % 128) as u8 + 128);
        number /= 128;
    }
    out.push(number as u8);
}

fn encode(id: u64, body: &Body) -> Vec<u8> {
    let mut out = Vec::new();
    out.extend_from_slice(&id.to_be_bytes());
    match body {
        Body::Request(view) => {
            out.push(0);
            out.extend_from_slice(&view.to_be_bytes());
        }
        Body::Response(bytes) => {
            out.push(1);
            push_number(&mut out, bytes.len() as u64);
            out.extend_from_slice(bytes);
        }
        Body::Error => out.push(2),
    }
    out
}

fn wide(bytes: &mut &[u8]) -> Option<u64> {
    let (front, rest) = bytes.split_first_chunk::<8>()?;
    *bytes = rest;
    Some(u64::from_be_bytes(*front))
}

fn number(bytes: &mut &[u8], most: u64) -> Option<u64> {
    let mut number = 0;
    let mut shift = 0;
    loop {
        let (byte, rest) = bytes.split_first()?;
        *bytes = rest;
        let left = most >> shift;
        let low = u64::from(byte & 127);
        if *byte < 128 {
            if left < low || (low == 0 && shift > 0) {
                return None;
            }
            return Some(number | low << shift);
        }
        if left < 128 {
            return None;
        }
        number |= low << shift;
        shift += 7;
    }
}

fn decode(mut bytes: &[u8]) -> Option<(u64, Body)> {
    let id = wide(&mut bytes)?;
    let (tag, rest) = bytes.split_first()?;
    bytes = rest;
    let body = match tag {
        0 => Body::Request(wide(&mut bytes)?),
        1 => {
            let count = number(&mut bytes, u64::from(u32::MAX))? as usize;
            let (front, rest) = bytes.split_at_checked(count)?;
            bytes = rest;
            Body::Response(front.to_vec())
        }
        2 => Body::Error,
        _ => return None,
    };
    bytes.is_empty().then_some((id, body))
}

// ---- the fetcher

enum State {
    Waiting(Option<u64>),
    Asked {
        id: u64,
        peer: u32,
        deadline: u64,
    },
    Judged {
        id: u64,
        peer: u32,
        delivered: Vec<Ask>,
    },
}

impl State {
    fn deadline(&self) -> Option<u64> {
        match self {
            State::Waiting(until) => *until,
            State::Asked { deadline, .. } => Some(*deadline),
            State::Judged { .. } => None,
        }
    }

    fn id(&self) -> Option<u64> {
        match self {
            State::Waiting(_) => None,
            State::Asked { id, .. } | State::Judged { id, .. } => Some(*id),
        }
    }
}

struct Entry {
    arrivals: Vec<(Ask, Option<u32>)>,
    attempts: u64,
    state: State,
}

impl Entry {
    fn has_kind(&self, kind: Kind) -> bool {
        self.arrivals.iter().any(|(ask, _)| ask.kind == kind)
    }

    fn has_floor(&self) -> bool {
        self.arrivals
            .iter()
            .any(|(ask, _)| ask.until == Until::Floor)
    }
}

struct Fetcher {
    me: u32,
    n: u32,
    timeout: u64,
    delay: u64,
    views: BTreeMap<u64, Entry>,
    timers: BTreeSet<(u64, u64)>,
    numbers: BTreeMap<u64, u64>,
    nullifications: BTreeSet<u64>,
    notarizations: BTreeSet<u64>,
    floors: BTreeSet<u64>,
    next_id: u64,
    serving: BTreeMap<u64, (u32, u64)>,
    next_serve: u64,
}

impl Fetcher {
    fn new(me: u32, n: u32, timeout: u64, delay: u64) -> Fetcher {
        Fetcher {
            me,
            n,
            timeout,
            delay,
            views: BTreeMap::new(),
            timers: BTreeSet::new(),
            numbers: BTreeMap::new(),
            nullifications: BTreeSet::new(),
            notarizations: BTreeSet::new(),
            floors: BTreeSet::new(),
            next_id: 0,
            serving: BTreeMap::new(),
            next_serve: 0,
        }
    }

    fn take(&mut self, view: u64) -> Option<Entry> {
        let entry = self.views.remove(&view)?;
        if let Some(deadline) = entry.state.deadline() {
            self.timers.remove(&(deadline, view));
        }
        if let Some(id) = entry.state.id() {
            self.numbers.remove(&id);
        }
        if entry.has_kind(Kind::Nullification) {
            self.nullifications.remove(&view);
        }
        if entry.has_kind(Kind::Notarization) {
            self.notarizations.remove(&view);
        }
        if entry.has_floor() {
            self.floors.remove(&view);
        }
        Some(entry)
    }

    fn put(&mut self, view: u64, entry: Entry) {
        if let Some(deadline) = entry.state.deadline() {
            self.timers.insert((deadline, view));
        }
        if let Some(id) = entry.state.id() {
            self.numbers.insert(id, view);
        }
        if entry.has_kind(Kind::Nullification) {
            self.nullifications.insert(view);
        }
        if entry.has_kind(Kind::Notarization) {
            self.notarizations.insert(view);
        }
        if entry.has_floor() {
            self.floors.insert(view);
        }
        self.views.insert(view, entry);
    }

    fn peer_of(&self, view: u64, entry: &Entry) -> Option<u32> {
        if self.n == 1 {
            return None;
        }
        if entry.arrivals.iter().all(|(_, target)| target.is_some()) {
            let mut targets = Vec::new();
            for target in entry.arrivals.iter().filter_map(|(_, target)| *target) {
                if !targets.contains(&target) {
                    targets.push(target);
                }
            }
            let place = entry.attempts.checked_rem(targets.len() as u64)?;
            return targets.get(place as usize).copied();
        }
        let others = u64::from(self.n - 1);
        let place = ((view % others + entry.attempts % others) % others) as u32;
        Some(if place < self.me { place } else { place + 1 })
    }

    fn attempt(&mut self, view: u64, mut entry: Entry, now: u64, outs: &mut Vec<Out>) {
        let Some(peer) = self.peer_of(view, &entry) else {
            entry.state = State::Waiting(None);
            return self.put(view, entry);
        };
        let id = self.next_id;
        entry.attempts += 1;
        entry.state = State::Asked {
            id,
            peer,
            deadline: now + self.timeout,
        };
        self.next_id += 1;
        self.put(view, entry);
        outs.push(Out::Send {
            to: peer,
            bytes: encode(id, &Body::Request(view)),
        });
    }

    fn retry(&mut self, view: u64, mut entry: Entry, now: u64) {
        entry.state = State::Waiting(Some(now + self.delay));
        self.put(view, entry);
    }

    fn fetch(&mut self, view: u64, ask: Ask, target: Option<u32>, now: u64) -> Vec<Out> {
        let mut outs = Vec::new();
        let taken = self.take(view);
        let is_new = taken.is_none();
        let mut entry = taken.unwrap_or(Entry {
            arrivals: Vec::new(),
            attempts: 0,
            state: State::Waiting(None),
        });
        if !entry.arrivals.contains(&(ask, target)) {
            entry.arrivals.push((ask, target));
        }
        if is_new {
            self.attempt(view, entry, now, &mut outs);
        } else {
            self.put(view, entry);
        }
        outs
    }

    fn touched(&self, retire: &Retire) -> Vec<u64> {
        let (first, last) = match retire {
            Retire::Settled { start, end, .. } => (*start, *end),
            Retire::Finalized(view) | Retire::Floor(view) => (0, *view),
        };
        if last < first {
            return Vec::new();
        }
        let holders = match retire {
            Retire::Settled {
                kind: Kind::Nullification,
                ..
            } => &self.nullifications,
            Retire::Settled {
                kind: Kind::Notarization,
                ..
            } => &self.notarizations,
            Retire::Floor(_) => &self.floors,
            Retire::Finalized(_) => {
                let views = self.views.range(first..=last);
                return views.map(|(view, _)| *view).collect();
            }
        };
        holders.range(first..=last).copied().collect()
    }

    fn retain(&mut self, retire: &Retire) -> Vec<Out> {
        let mut outs = Vec::new();
        let views = self.touched(retire);
        for view in views {
            let Some(mut entry) = self.take(view) else {
                continue;
            };
            entry.arrivals.retain(|(ask, _)| match retire {
                Retire::Settled { kind, .. } => ask.kind != *kind,
                Retire::Finalized(_) => false,
                Retire::Floor(_) => ask.until != Until::Floor,
            });
            if !entry.arrivals.is_empty() {
                self.put(view, entry);
            } else if let State::Judged { id, .. } = entry.state {
                outs.push(Out::Left(id));
            }
        }
        outs
    }

    fn asked_view(&self, id: u64, sender: u32) -> Option<u64> {
        let view = *self.numbers.get(&id)?;
        match self.views.get(&view)?.state {
            State::Asked { id: open, peer, .. } if open == id && peer == sender => Some(view),
            _ => None,
        }
    }

    fn hear(&mut self, sender: u32, bytes: &[u8], now: u64) -> Vec<Out> {
        let Some((id, body)) = decode(bytes) else {
            return vec![Out::Block(sender)];
        };
        match body {
            Body::Request(view) => {
                let number = self.next_serve;
                self.serving.insert(number, (sender, id));
                self.next_serve += 1;
                vec![Out::Produce { id: number, view }]
            }
            Body::Response(bytes) => self.hear_response(sender, id, bytes),
            Body::Error => {
                let asked = self.asked_view(id, sender);
                if let Some((view, entry)) = asked.and_then(|view| Some((view, self.take(view)?))) {
                    self.retry(view, entry, now);
                }
                Vec::new()
            }
        }
    }

    fn hear_response(&mut self, sender: u32, id: u64, bytes: Vec<u8>) -> Vec<Out> {
        let Some(view) = self.asked_view(id, sender) else {
            return Vec::new();
        };
        let Some(mut entry) = self.take(view) else {
            return Vec::new();
        };
        let mut asks: Vec<Ask> = Vec::new();
        for (ask, _) in &entry.arrivals {
            if !asks.contains(ask) {
                asks.push(*ask);
            }
        }
        entry.state = State::Judged {
            id,
            peer: sender,
            delivered: asks.clone(),
        };
        self.put(view, entry);
        vec![Out::Deliver {
            id,
            view,
            bytes,
            asks,
        }]
    }

    fn verdict(&mut self, id: u64, verdict: Option<Outcome>, now: u64) -> Vec<Out> {
        let mut outs = Vec::new();
        let Some(view) = self.numbers.get(&id).copied() else {
            return outs;
        };
        let is_judged = self
            .views
            .get(&view)
            .is_some_and(|entry| matches!(entry.state, State::Judged { .. }));
        if !is_judged {
            return outs;
        }
        let Some(mut entry) = self.take(view) else {
            return outs;
        };
        match verdict {
            None | Some(Outcome::Ignored | Outcome::Complete) => {
                if let State::Judged { delivered, .. } = &entry.state {
                    entry.arrivals.retain(|(ask, _)| !delivered.contains(ask));
                }
                if !entry.arrivals.is_empty() {
                    self.attempt(view, entry, now, &mut outs);
                }
            }
            Some(Outcome::Invalid) => {
                if let State::Judged { peer, .. } = entry.state {
                    outs.push(Out::Block(peer));
                }
                self.retry(view, entry, now);
            }
            Some(Outcome::Partial | Outcome::Unresolved) => self.retry(view, entry, now),
        }
        outs
    }

    fn serve(&mut self, id: u64, bytes: Option<Vec<u8>>) -> Vec<Out> {
        let Some((to, request)) = self.serving.remove(&id) else {
            return Vec::new();
        };
        let body = bytes.map_or(Body::Error, Body::Response);
        vec![Out::Send {
            to,
            bytes: encode(request, &body),
        }]
    }

    fn expire(&mut self, now: u64) -> Vec<Out> {
        let due: BTreeSet<u64> = self
            .timers
            .range(..(now + 1, 0))
            .map(|(_, view)| *view)
            .collect();
        let mut outs = Vec::with_capacity(due.len());
        for view in due {
            let Some(entry) = self.take(view) else {
                continue;
            };
            match entry.state {
                State::Asked { .. } => self.retry(view, entry, now),
                State::Waiting(_) => self.attempt(view, entry, now, &mut outs),
                State::Judged { .. } => self.put(view, entry),
            }
        }
        outs
    }
}

// ---- the work

const ANCESTOR: Ask = Ask {
    kind: Kind::Notarization,
    until: Until::Finalized,
};

fn open(views: u32) -> Fetcher {
    let period = u64::from(views);
    let mut fetcher = Fetcher::new(0, MEMBERS, period, period);
    for view in 0..period {
        fetcher.fetch(view, ANCESTOR, None, view);
    }
    fetcher
}

fn answer(fetcher: &mut Fetcher, at: u32, views: u32) -> usize {
    let place = u64::from(at % views) + u64::from(at / views);
    let peer = (place % u64::from(MEMBERS - 1)) as u32 + 1;
    let bytes = encode(u64::from(at), &Body::Response(vec![7; 32]));
    let delivered = fetcher.hear(peer, &bytes, 0).len();
    let judged = fetcher
        .verdict(u64::from(at), Some(Outcome::Partial), 0)
        .len();
    delivered + judged + fetcher.expire(u64::from(views)).len()
}

fn serve(fetcher: &mut Fetcher, at: u32) -> usize {
    let bytes = encode(u64::from(at), &Body::Request(u64::from(at)));
    let wanted = fetcher.hear(1, &bytes, 0).len();
    wanted + fetcher.serve(u64::from(at), Some(vec![7; 32])).len()
}

fn turn(fetcher: &mut Fetcher, work: &str, views: u32, at: u32) -> usize {
    let view = u64::from(views);
    match work {
        "ask" => {
            let retire = Retire::Settled {
                kind: Kind::Notarization,
                start: view,
                end: view,
            };
            fetcher.fetch(view, ANCESTOR, None, 0).len() + fetcher.retain(&retire).len()
        }
        "answer" => answer(fetcher, at, views),
        "serve" => serve(fetcher, at),
        "expire" => fetcher.expire(view + u64::from(at)).len(),
        _ => fetcher.retain(&Retire::Floor(u64::MAX)).len(),
    }
}

fn main() {
    let words: Vec<String> = std::env::args().collect();
    let word = words.get(1).map_or("all", String::as_str);
    let views: u32 = words.get(2).map_or(10, |word| word.parse().unwrap());
    let times: u32 = words.get(3).map_or(20, |word| word.parse().unwrap());
    for work in ["ask", "answer", "serve", "expire", "sweep"] {
        if word == work || word == "all" {
            let mut fetcher = open(views);
            let told: usize = (0..times)
                .map(|at| turn(&mut fetcher, work, views, at))
                .sum();
            println!("fetch {work} {views} {times} {told}");
        }
    }
}
