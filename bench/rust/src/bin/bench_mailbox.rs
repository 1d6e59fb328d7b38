//! The same work as `bench mailbox`, in plain Rust: messages pass through a voter's mailbox of capacity 16 that holds SIZE
//! others. `bench_mailbox WORK SIZE TIMES`, where WORK is `pass` or `all`.

use std::collections::VecDeque;

const CAPACITY: usize = 16;

#[derive(Clone, Copy, PartialEq)]
enum Reason {
    Inactivity,
    LeaderNullify,
}

// The variants and fields are those of the proved mailbox; the work uses proposals alone.
#[allow(dead_code)]
enum Message {
    Proposal { epoch: u64, view: u64, parent: u64, payload: [u8; 32] },
    Timeout { epoch: u64, view: u64, reason: Reason },
    Verified { kind: u8, view: u64, signers: Vec<(u32, [u8; 32])> },
}

impl Message {
    fn view(&self) -> u64 {
        match self {
            Message::Proposal { view, .. } | Message::Timeout { view, .. } | Message::Verified { view, .. } => *view,
        }
    }

    fn is_final(&self) -> bool {
        matches!(self, Message::Verified { kind: 2, .. })
    }

    fn stands_for(&self, other: &Message) -> bool {
        match (self, other) {
            (Message::Proposal { view: v, .. }, Message::Proposal { view: w, .. }) => v == w,
            (Message::Timeout { view: v, .. }, Message::Timeout { view: w, .. }) => v == w,
            (Message::Verified { kind: k, view: v, .. }, Message::Verified { kind: l, view: w, .. }) => k == l && v == w,
            _ => false,
        }
    }

    fn change_by(&mut self, message: &Message) {
        if let (Message::Timeout { view, reason, .. }, Message::Timeout { view: w, reason: other, .. }) = (self, message) {
            if view == w && *reason == Reason::Inactivity && *other == Reason::LeaderNullify {
                *reason = *other;
            }
        }
    }
}

struct Mailbox {
    ready: VecDeque<Message>,
    place: Option<Message>,
    rest: VecDeque<Message>,
}

impl Mailbox {
    fn new() -> Mailbox {
        Mailbox { ready: VecDeque::with_capacity(CAPACITY), place: None, rest: VecDeque::new() }
    }

    fn enqueue(&mut self, message: Message) {
        if self.place.is_none() && self.rest.is_empty() && self.ready.len() < CAPACITY {
            self.ready.push_back(message);
            return;
        }
        if self.place.as_ref().is_some_and(|last| last.view() >= message.view()) {
            return;
        }
        if message.is_final() {
            self.rest.retain(|queued| queued.view() > message.view());
            self.place = Some(message);
            return;
        }
        if self.rest.iter().any(|queued| queued.stands_for(&message)) {
            for queued in &mut self.rest {
                queued.change_by(&message);
            }
            return;
        }
        self.rest.push_back(message);
    }

    fn recv(&mut self) -> Option<Message> {
        let message = self.ready.pop_front()?;
        while self.ready.len() < CAPACITY {
            match self.place.take().or_else(|| self.rest.pop_front()) {
                Some(waiting) => self.ready.push_back(waiting),
                None => break,
            }
        }
        Some(message)
    }
}

fn proposed(view: u64) -> Message {
    Message::Proposal { epoch: 0, view, parent: 0, payload: [17; 32] }
}

fn pass(mailbox: &mut Mailbox, first: u64, times: u64) -> u64 {
    let mut views = 0u64;
    for turn in 0..times {
        mailbox.enqueue(proposed(first + turn));
        if let Some(message) = mailbox.recv() {
            views = views.saturating_add(message.view());
        }
    }
    views
}

fn filled(views: u64) -> Mailbox {
    let mut mailbox = Mailbox::new();
    for view in 0..views {
        mailbox.enqueue(proposed(view));
    }
    mailbox
}

fn main() {
    let words: Vec<String> = std::env::args().collect();
    let held: u64 = words[2].parse().expect("how many it holds");
    let times: u64 = words[3].parse().expect("how many times");
    if matches!(words[1].as_str(), "pass" | "all") {
        let views = pass(&mut filled(held), held, times);
        println!("mailbox pass {held} {times} {views}");
    }
}
