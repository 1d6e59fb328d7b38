//! The same work as `bench shared pass`, in plain Rust: a mailbox of capacity 16, with the list of its calls, behind a
//! mutex. `bench_shared THREADS TIMES`, where each thread puts a letter and takes one so many times.

use std::collections::VecDeque;
use std::sync::Mutex;
use std::thread;

const CAPACITY: usize = 16;

// The fields are those of the proved mailbox's calls; the work reads none of them again.
#[allow(dead_code)]
#[derive(Clone, Copy)]
struct Letter {
    writer: u32,
    number: u32,
}

#[derive(Clone, Copy)]
enum Feedback {
    Ok,
    Backoff,
}

#[allow(dead_code)]
enum Op {
    Put { caller: u32, message: Letter, feedback: Feedback },
    Took { caller: u32, got: Option<Letter> },
}

struct Mailbox {
    ready: VecDeque<Letter>,
    waiting: VecDeque<Letter>,
    log: Vec<Op>,
}

impl Mailbox {
    fn new() -> Mailbox {
        Mailbox { ready: VecDeque::with_capacity(CAPACITY), waiting: VecDeque::new(), log: Vec::new() }
    }

    fn enqueue(&mut self, caller: u32, message: Letter) -> Feedback {
        let feedback = if self.waiting.is_empty() && self.ready.len() < CAPACITY {
            self.ready.push_back(message);
            Feedback::Ok
        } else {
            self.waiting.push_back(message);
            Feedback::Backoff
        };
        self.log.push(Op::Put { caller, message, feedback });
        feedback
    }

    fn recv(&mut self, caller: u32) -> Option<Letter> {
        let got = self.ready.pop_front();
        while self.ready.len() < CAPACITY {
            let Some(letter) = self.waiting.pop_front() else { break };
            self.ready.push_back(letter);
        }
        self.log.push(Op::Took { caller, got });
        got
    }
}

fn main() {
    let mut words = std::env::args().skip(1);
    let threads: u32 = words.next().and_then(|word| word.parse().ok()).expect("how many threads");
    let times: u32 = words.next().and_then(|word| word.parse().ok()).expect("how many times");
    let mailbox = Mutex::new(Mailbox::new());
    thread::scope(|scope| {
        for writer in 0..threads {
            let mailbox = &mailbox;
            scope.spawn(move || {
                for number in 0..times {
                    mailbox.lock().unwrap().enqueue(writer, Letter { writer, number });
                    mailbox.lock().unwrap().recv(writer);
                }
            });
        }
    });
    println!("{} calls", mailbox.into_inner().unwrap().log.len());
}
