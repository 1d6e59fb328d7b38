//! A member over TCP: the loop over its process, its peers, its application and its clients.
//!
//! The loop never waits for a disk, a peer or the process: threads do, and all they have to say comes through one queue.

use crate::block::Transfer;
use crate::client::{self, Query};
use crate::config::Config;
use crate::digest::Digest;
use crate::effect::{Effect, Parent, Question, Recipients, Request, Seat};
use crate::error::{Error, Result};
use crate::frame::Frame;
use crate::hex::Hex;
use crate::json::Value;
use crate::ledger::{Ledger, Verdict};
use crate::peers::Peers;
use crate::process::{Answer, Process, Program, Said};
use crate::store::{BlockStore, Kept};
use std::collections::hash_map::Entry;
use std::collections::{BTreeMap, HashMap};
use std::io::{self, Read};
use std::path::Path;
use std::sync::mpsc::{self, Receiver, SyncSender};
use std::thread;
use std::time::{Duration, Instant};

/// What waits for the loop. Who brings more waits too, so that a peer which sends too much is slowed by TCP.
const MOST_EVENTS: usize = 1024;
/// Events that are heard before the process is served again.
const MOST_AT_ONCE: usize = 64;
/// After which a block that is missing is asked for again.
const ASK_AGAIN: Duration = Duration::from_millis(200);
const SHORTEST_PAUSE: Duration = Duration::from_millis(50);
const LONGEST_PAUSE: Duration = Duration::from_secs(2);
const LONGEST_REPLY: usize = 1000;

enum Event {
    /// In this life of the process.
    Said(u64, Said),
    Frame(Seat, Frame),
    Kept(Kept),
    Query(Query, SyncSender<String>),
    Stop,
}

/// A request that waits for transfers, for a block, or until a block is kept.
struct Pending {
    question: Question,
    since: Instant,
    stage: Stage,
}

/// How far the answer to a request for a payload is.
#[derive(Clone, Copy, Debug, Eq, PartialEq)]
enum Stage {
    /// It waits for transfers.
    Waits,
    /// It waits for a block that peers have.
    Lacks,
    /// It waits until this block is kept.
    Proposed(Digest),
}

pub struct Member {
    process: Process,
    ledger: Ledger,
    peers: Peers,
    pace: Duration,
    events: Receiver<Event>,
    tell: SyncSender<Event>,
    pending: BTreeMap<Request, Pending>,
    /// Blocks that are missing, and when peers were asked.
    wanted: HashMap<Digest, Instant>,
    /// The block that all peers were sent when it was proposed, ahead of its `relay`.
    offered: Option<Digest>,
    /// Evidence and blocked members, which an operator should see.
    notes: Vec<String>,
    ends: Vec<Option<i32>>,
    lost_blocks: u64,
    pause: Duration,
    restart: Option<Instant>,
    is_stopped: bool,
}

/// The program of a configuration.
pub fn program_of(config: &Config) -> Program {
    Program {
        path: config.program.clone(),
        me: config.me,
        setup: config.setup.clone(),
        journal: config.journal(),
    }
}

impl Member {
    pub fn start(config: &Config, log: Option<&Path>) -> Result<Member> {
        let (tell, events) = mpsc::sync_channel(MOST_EVENTS);
        let hear = tell.clone();
        let (store, head) = BlockStore::open(&config.folder.join("ledger"), move |kept| {
            send(&hear, Event::Kept(kept));
        })?;
        let genesis = Digest::genesis(config.epoch());
        let ledger = Ledger::new(config.accounts.clone(), genesis, store, head)?;
        let hear = tell.clone();
        let peers = Peers::start(config.me, &config.peers, move |from, frame| {
            send(&hear, Event::Frame(from, frame));
        })?;
        let hear = tell.clone();
        client::serve(&config.client, move |query, reply| {
            send(&hear, Event::Query(query, reply));
        })?;
        Ok(Member {
            process: Process::new(program_of(config), log)?,
            ledger,
            peers,
            pace: config.pace,
            events,
            tell,
            pending: BTreeMap::new(),
            wanted: HashMap::new(),
            offered: None,
            notes: Vec::new(),
            ends: Vec::new(),
            lost_blocks: 0,
            pause: SHORTEST_PAUSE,
            restart: Some(Instant::now()),
            is_stopped: false,
        })
    }

    /// Runs until something ends it that a new process does not mend.
    pub fn run(mut self) -> Result<()> {
        while !self.is_stopped {
            let now = Instant::now();
            if self.restart.is_some_and(|at| at <= now) {
                self.start_process()?;
            }
            self.try_again(now)?;
            self.process.pump();
            // Both ends of the queue are the member's, so only a time that is up is an error here.
            let mut next = self.events.recv_timeout(self.until_due()).ok();
            let mut heard = 0;
            while let Some(event) = next {
                self.hear(event)?;
                heard += 1;
                next = if heard < MOST_AT_ONCE {
                    self.events.try_recv().ok()
                } else {
                    None
                };
            }
        }
        if self.process.id().is_some() {
            self.process.end()?;
        }
        Ok(())
    }

    /// Lets the member stop once this input has ended, so that it does not outlive who started it.
    pub fn attach(&self, mut input: impl Read + Send + 'static) {
        let tell = self.tell.clone();
        thread::spawn(move || {
            // What comes is of no matter, and an error is an end too.
            let _ = io::copy(&mut input, &mut io::sink());
            send(&tell, Event::Stop);
        });
    }

    fn start_process(&mut self) -> Result<()> {
        self.restart = None;
        self.pending.clear();
        self.offered = None;
        let hear = self.tell.clone();
        self.process.start(move |life, said| {
            send(&hear, Event::Said(life, said));
        })
    }

    /// Tries what had to wait for a time.
    fn try_again(&mut self, now: Instant) -> Result<()> {
        let is_due = |asked: &Instant| now >= *asked + ASK_AGAIN;
        if self.wanted.values().any(is_due) {
            // Who still lacks a block says so again.
            self.wanted.retain(|_, asked| !is_due(asked));
            self.catch_up()?;
            return self.try_pending();
        }
        if self.until_proposal().is_some_and(|wait| wait.is_zero()) {
            self.try_pending()?;
        }
        Ok(())
    }

    fn until_due(&self) -> Duration {
        let now = Instant::now();
        let restart = self.restart.map(|at| at.saturating_duration_since(now));
        let wanted = self.wanted.values().min();
        let wanted = wanted.map(|asked| (*asked + ASK_AGAIN).saturating_duration_since(now));
        [
            self.process.until_due(),
            self.until_proposal(),
            restart,
            wanted,
        ]
        .into_iter()
        .flatten()
        .min()
        .unwrap_or(LONGEST_PAUSE)
    }

    /// How long a leader still waits for transfers.
    fn until_proposal(&self) -> Option<Duration> {
        let waits = self.pending.values().filter(|it| it.waits_for_transfers());
        let since = waits.map(|it| it.since).min()?;
        Some((since + self.pace).saturating_duration_since(Instant::now()))
    }

    fn hear(&mut self, event: Event) -> Result<()> {
        match event {
            Event::Said(life, _) if life != self.process.life => Ok(()),
            Event::Said(_, Said::Effects(effects)) => {
                if !effects.is_empty() {
                    self.pause = SHORTEST_PAUSE;
                }
                effects.into_iter().try_for_each(|it| self.take(it))
            }
            Event::Said(_, Said::End) => self.process_ended(),
            Event::Frame(from, frame) => self.take_frame(from, frame),
            Event::Kept(Kept::Blocks(digests)) => {
                for digest in digests {
                    self.ledger.store.mark_kept(digest);
                }
                self.try_pending()
            }
            Event::Kept(Kept::Failed(why)) => Err(Error::Io("the ledger".to_owned(), why)),
            Event::Stop => {
                self.is_stopped = true;
                Ok(())
            }
            Event::Query(query, reply) => {
                let line = self.reply(query)?;
                // A client that is gone needs no reply.
                let _ = reply.send(line);
                Ok(())
            }
        }
    }

    fn process_ended(&mut self) -> Result<()> {
        let end = self.process.end()?;
        eprintln!("the process ended: {end}");
        self.ends.push(end.status);
        if end.is_hopeless() {
            return Err(Error::Setup(
                "a new process would end as this one".to_owned(),
            ));
        }
        // A killed host leaves a process that holds the lock of the folder until it sees that its input ended; so try again.
        self.restart = Some(Instant::now() + self.pause);
        self.pause = LONGEST_PAUSE.min(2 * self.pause);
        Ok(())
    }

    // What the member does.

    fn take(&mut self, effect: Effect) -> Result<()> {
        match effect {
            Effect::Send { channel, to, bytes } => {
                self.peers.send(&Frame::Packet(channel, bytes), &to);
            }
            Effect::Relay { payload, to, .. } => {
                if to != Recipients::All || self.offered != Some(payload) {
                    self.send_block(payload, &to);
                }
            }
            Effect::Ask(request, question) => {
                let pending = Pending {
                    question,
                    since: Instant::now(),
                    stage: Stage::Waits,
                };
                self.pending.insert(request, pending);
                self.try_request(request)?;
            }
            Effect::Drop(request) => {
                self.pending.remove(&request);
            }
            Effect::Final { view, payload, .. } => {
                let missing = self.ledger.finalize(Parent { view, payload })?;
                self.want(missing);
            }
            Effect::Evidence { .. } | Effect::Block { .. } => {
                eprintln!("{effect:?}");
                self.notes.push(format!("{effect:?}"));
            }
            Effect::Ready { view, deadline } => self.process.ready(view, deadline),
            // An answer to a request that was dropped meanwhile.
            Effect::Error { .. } => {}
        }
        Ok(())
    }

    fn try_pending(&mut self) -> Result<()> {
        let requests: Vec<Request> = self.pending.keys().copied().collect();
        requests.into_iter().try_for_each(|it| self.try_request(it))
    }

    /// Answers the request, unless it has to wait.
    ///
    /// A block is synced before the answer, not only before the vote goes out: the record of a vote may outlast a power loss that the
    /// block does not, and the member sends that vote again.
    fn try_request(&mut self, request: Request) -> Result<()> {
        let Some(pending) = self.pending.get(&request) else {
            return Ok(());
        };
        let verdict = match pending.question {
            Question::Propose { .. } => self.propose(request),
            Question::Verify {
                view,
                parent,
                payload,
            } => match self.ledger.verify(view, parent, payload) {
                Verdict::Is(true) if !self.ledger.store.is_kept(payload) => return Ok(()),
                Verdict::Is(truth) => Verdict::Is(Some(Answer::Is(truth))),
                Verdict::Lacks(digest) => Verdict::Lacks(digest),
            },
            // A quorum verified it; certified is what can be had here.
            Question::Certify { payload } => match self.ledger.store.has(payload) {
                true if self.ledger.store.is_kept(payload) => Verdict::Is(Some(Answer::Is(true))),
                true => Verdict::Is(None),
                false => Verdict::Lacks(payload),
            },
        };
        match verdict {
            Verdict::Is(Some(answer)) => {
                self.pending.remove(&request);
                self.process.answer(request, answer);
            }
            Verdict::Is(None) => {}
            Verdict::Lacks(digest) => self.want(Some(digest)),
        }
        Ok(())
    }

    /// The answer to a request for a payload, or none before the block is kept.
    fn propose(&mut self, request: Request) -> Verdict<Option<Answer>> {
        let Some(pending) = self.pending.get_mut(&request) else {
            return Verdict::Is(None);
        };
        let Question::Propose { view, parent, .. } = pending.question else {
            return Verdict::Is(None);
        };
        if let Stage::Proposed(digest) = pending.stage {
            let is_kept = self.ledger.store.is_kept(digest);
            return Verdict::Is(is_kept.then_some(Answer::Payload(digest)));
        }
        if self.ledger.waiting() == 0 && pending.since.elapsed() < self.pace {
            pending.stage = Stage::Waits;
            return Verdict::Is(None);
        }
        let block = match self.ledger.propose(view, parent) {
            Verdict::Is(Some(block)) => block,
            Verdict::Is(None) => return Verdict::Is(Some(Answer::Closed)),
            Verdict::Lacks(digest) => {
                // Its time is up, but only the block brings it on.
                pending.stage = Stage::Lacks;
                return Verdict::Lacks(digest);
            }
        };
        let bytes = block.encode();
        let Ok(digest) = self.ledger.store.add(bytes) else {
            return Verdict::Is(Some(Answer::Closed));
        };
        pending.stage = Stage::Proposed(digest);
        let is_kept = self.ledger.store.is_kept(digest);
        // Peers get it now, so that they sync it while this member does.
        self.send_block(digest, &Recipients::All);
        self.offered = Some(digest);
        Verdict::Is(is_kept.then_some(Answer::Payload(digest)))
    }

    // Blocks and peers.

    fn send_block(&mut self, digest: Digest, to: &Recipients) {
        if let Some(stored) = self.ledger.store.get(digest) {
            let frame = Frame::Block(Hex::encode(&stored.bytes));
            self.peers.send(&frame, to);
        }
    }

    fn want(&mut self, missing: Option<Digest>) {
        if let Some(digest) = missing {
            if let Entry::Vacant(entry) = self.wanted.entry(digest) {
                entry.insert(Instant::now());
                self.peers.send(&Frame::Want(digest), &Recipients::All);
            }
        }
    }

    fn catch_up(&mut self) -> Result<()> {
        let missing = self.ledger.catch_up()?;
        self.want(missing);
        Ok(())
    }

    fn take_frame(&mut self, from: Seat, frame: Frame) -> Result<()> {
        match frame {
            Frame::Hello(_) => {}
            Frame::Packet(channel, bytes) => self.process.packet(from, channel, &bytes),
            Frame::Block(_) if self.ledger.store.is_busy() => self.lost_blocks += 1,
            Frame::Block(bytes) => {
                if let Ok(digest) = self.ledger.store.add(bytes.decode()) {
                    self.wanted.remove(&digest);
                    self.catch_up()?;
                    self.try_pending()?;
                }
            }
            Frame::Want(digest) => self.send_block(digest, &Recipients::Some(vec![from])),
            Frame::Transfer(transfer) => {
                self.submit(transfer)?;
            }
        }
        Ok(())
    }

    fn submit(&mut self, transfer: Transfer) -> Result<bool> {
        let is_new = self.ledger.submit(transfer);
        if is_new {
            self.try_pending()?;
        }
        Ok(is_new)
    }

    // Clients.

    fn reply(&mut self, query: Query) -> Result<String> {
        let value = match query {
            Query::Transfer(transfer) => {
                // The next leader is another member.
                let frame = Frame::Transfer(transfer.clone());
                self.peers.send(&frame, &Recipients::All);
                let word = if self.submit(transfer)? {
                    "ok"
                } else {
                    "known"
                };
                return Ok(word.to_owned());
            }
            Query::Balances => {
                let state = &self.ledger.state;
                Value::object([
                    ("view", self.ledger.head().view.into()),
                    ("height", (self.ledger.chain.len() as u64 - 1).into()),
                    ("balances", numbers(&state.balances)),
                    ("sent", numbers(&state.sent)),
                ])
            }
            Query::Chain(start) => {
                let rest = self.ledger.chain.iter().skip(start).take(LONGEST_REPLY);
                rest.map(|it| Value::List(vec![it.view.into(), Value::text(it.payload)]))
                    .collect()
            }
            Query::Status => self.status(),
        };
        Ok(value.to_string())
    }

    fn status(&self) -> Value {
        let status_of = |status: &Option<i32>| match status {
            Some(status) => Value::text(status),
            None => Value::text("a signal"),
        };
        let lost = self.process.lost_packets() + self.peers.lost() + self.lost_blocks;
        Value::object([
            ("view", self.process.view.into()),
            ("final", self.ledger.last_final.view.into()),
            ("applied", self.ledger.head().view.into()),
            ("lives", self.process.life.into()),
            ("ends", self.ends.iter().map(status_of).collect()),
            (
                "process",
                self.process
                    .id()
                    .map_or(Value::Null, |id| u64::from(id).into()),
            ),
            ("waiting", (self.ledger.waiting() as u64).into()),
            ("notes", self.notes.iter().map(Value::text).collect()),
            ("lost", lost.into()),
            ("connects", self.peers.connects().into()),
            ("bad_lines", self.peers.bad_lines().into()),
            ("syncs", self.ledger.store.syncs().into()),
        ])
    }
}

impl Pending {
    fn waits_for_transfers(&self) -> bool {
        matches!(self.question, Question::Propose { .. }) && self.stage == Stage::Waits
    }
}

fn numbers(of: &BTreeMap<String, u64>) -> Value {
    let entries = of
        .iter()
        .map(|(name, number)| (name.clone(), (*number).into()));
    Value::Object(entries.collect())
}

/// Brings an event to the loop. Where the loop ended, so does the program.
fn send(tell: &SyncSender<Event>, event: Event) {
    let _ = tell.send(event);
}
