//! A member's processes, one after another: commands go in as lines, and effects come out.
//!
//! Before each command the member is told the clock where it moved on, so what it does depends on its input lines alone.

use crate::digest::Digest;
use crate::effect::{Channel, Effect, Request, Seat, View};
use crate::error::{During, Error, Result};
use crate::frame;
use crate::hex::Hex;
use crate::json::Value;
use crate::queue::Bounded;
use std::collections::VecDeque;
use std::fmt;
use std::fs::{File, OpenOptions};
use std::io::{BufRead, BufReader, Read, Write};
use std::path::{Path, PathBuf};
use std::process::{Child, ChildStdin, ChildStdout, Command, Stdio};
use std::sync::mpsc::{self, Receiver, Sender};
use std::sync::{Arc, Mutex, PoisonError};
use std::thread;
use std::time::{Duration, Instant, SystemTime, UNIX_EPOCH};

/// Commands that the process has and did not answer.
const WINDOW: usize = 64;
/// Packets that wait for the process.
const MOST_WAITING: usize = 2000;
/// Bytes that are written at once.
const MOST_AT_ONCE: usize = 1 << 16;

/// One clock of a member, which never goes back. It starts at the system's, so that lives of a host follow one another.
#[derive(Clone, Copy, Debug)]
pub struct Clock {
    started: Instant,
    base: Duration,
}

impl Clock {
    pub fn start() -> Clock {
        let base = SystemTime::now().duration_since(UNIX_EPOCH);
        Clock {
            started: Instant::now(),
            base: base.unwrap_or_default(),
        }
    }

    fn now(&self) -> Duration {
        self.base + self.started.elapsed()
    }
}

/// All lines that go in and come out, as `hosts/python/join_logs.py` reads them.
#[derive(Clone, Debug)]
struct Log {
    file: Arc<Mutex<File>>,
    clock: Clock,
}

impl Log {
    fn open(path: &Path, clock: Clock) -> Result<Log> {
        let file = OpenOptions::new()
            .append(true)
            .create(true)
            .open(path)
            .during(path.display())?;
        let file = Arc::new(Mutex::new(file));
        Ok(Log { file, clock })
    }

    fn note(&self, life: u64, what: impl fmt::Display) {
        let stamp = self.clock.now().as_nanos();
        let line = format!("{stamp} {life} {what}\n");
        let mut file = self.file.lock().unwrap_or_else(PoisonError::into_inner);
        if let Err(why) = file.write_all(line.as_bytes()) {
            eprintln!("the log: {why}");
        }
    }
}

/// What a process says.
#[derive(Debug)]
pub enum Said {
    /// What one command did, up to its line `ready`.
    Effects(Vec<Effect>),
    /// Nothing more: it ended.
    End,
}

/// How a process ended.
#[derive(Clone, Debug, Eq, PartialEq)]
pub struct End {
    pub status: Option<i32>,
    /// What it wrote to standard error.
    pub words: String,
}

impl End {
    /// Whether a new process would end as this one did.
    pub fn is_hopeless(&self) -> bool {
        matches!(self.status, Some(2 | 3))
    }
}

impl fmt::Display for End {
    fn fmt(&self, out: &mut fmt::Formatter) -> fmt::Result {
        let why = match self.status {
            None => "a signal ended it",
            Some(0) => "the input ended",
            Some(2) => "bad words",
            Some(3) => "bad setup",
            Some(5) => "a read failed",
            Some(6) => "a write failed",
            Some(7) => "out of memory",
            Some(8) => "the folder was not opened",
            Some(9) => "the journal failed",
            Some(10) => "no end of steps",
            Some(_) => "another status",
        };
        write!(out, "{why}. {}", self.words)
    }
}

/// What the application answers.
#[derive(Clone, Copy, Debug, Eq, PartialEq)]
pub enum Answer {
    Payload(Digest),
    Is(bool),
    Closed,
}

impl fmt::Display for Answer {
    fn fmt(&self, out: &mut fmt::Formatter) -> fmt::Result {
        match self {
            Answer::Payload(digest) => write!(out, "payload {digest}"),
            Answer::Is(truth) => write!(out, "{truth}"),
            Answer::Closed => out.write_str("closed"),
        }
    }
}

/// What a member's program runs with.
#[derive(Clone, Debug)]
pub struct Program {
    pub path: PathBuf,
    pub me: Seat,
    pub setup: Value,
    pub journal: PathBuf,
}

impl Program {
    /// Makes the folder of a member that never ran. Only who sets a cluster up calls it: a member whose folder is gone forgot its votes.
    pub fn init(&self) -> Result<()> {
        let mut child = self.spawn("init", Stdio::null())?;
        if let Some(mut input) = child.stdin.take() {
            // Where the process ended before it read, its status says why.
            let _ = writeln!(input, "{}", self.setup);
        }
        let end = end_of(child)?;
        match end.status {
            Some(0) => Ok(()),
            _ => Err(Error::Setup(format!("init {}: {end}", self.me))),
        }
    }

    fn spawn(&self, word: &str, output: Stdio) -> Result<Child> {
        Command::new(&self.path)
            .args([word, &self.me.to_string()])
            .arg(&self.journal)
            .stdin(Stdio::piped())
            .stdout(output)
            .stderr(Stdio::piped())
            .spawn()
            .during(self.path.display())
    }
}

fn end_of(mut child: Child) -> Result<End> {
    let status = child.wait().during("a member's process")?;
    let mut words = Vec::new();
    if let Some(mut errors) = child.stderr.take() {
        errors
            .read_to_end(&mut words)
            .during("a member's standard error")?;
    }
    let words = String::from_utf8_lossy(&words).trim().to_owned();
    let status = status.code();
    Ok(End { status, words })
}

pub struct Process {
    program: Program,
    clock: Clock,
    log: Option<Log>,
    /// How many processes were started.
    pub life: u64,
    pub view: View,
    running: Option<Running>,
    answers: VecDeque<String>,
    packets: Bounded<String>,
    deadline: Option<u64>,
}

struct Running {
    child: Child,
    input: Sender<String>,
    unanswered: usize,
    told: u64,
}

impl Process {
    pub fn new(program: Program, log: Option<&Path>) -> Result<Process> {
        let clock = Clock::start();
        Ok(Process {
            program,
            clock,
            log: log.map(|path| Log::open(path, clock)).transpose()?,
            life: 0,
            view: 0,
            running: None,
            answers: VecDeque::new(),
            packets: Bounded::new(MOST_WAITING),
            deadline: None,
        })
    }

    /// Starts a process over the folder: a new life, in which requests count anew. `hear` is called on another thread, with the life.
    pub fn start(&mut self, hear: impl Fn(u64, Said) + Send + 'static) -> Result<()> {
        self.answers.clear();
        self.packets.clear();
        self.deadline = None;
        self.life += 1;
        let life = self.life;
        let mut child = self.program.spawn("run", Stdio::piped())?;
        let (input, lines) = mpsc::channel();
        if let Some(stdin) = child.stdin.take() {
            thread::spawn(move || write_lines(stdin, &lines));
        }
        if let Some(stdout) = child.stdout.take() {
            let log = self.log.clone();
            thread::spawn(move || read_effects(stdout, log.as_ref(), life, &hear));
        }
        self.running = Some(Running {
            child,
            input,
            unanswered: 0,
            told: self.milliseconds(),
        });
        self.write(self.program.setup.to_string());
        self.command(format!("start {}", self.milliseconds()));
        Ok(())
    }

    fn milliseconds(&self) -> u64 {
        self.clock.now().as_millis() as u64
    }

    /// Packets were lost because the process was slow.
    pub fn lost_packets(&self) -> u64 {
        self.packets.lost()
    }

    pub fn id(&self) -> Option<u32> {
        self.running.as_ref().map(|running| running.child.id())
    }

    /// Takes a packet that came from this member. The oldest ones are lost where the process is slow: members send again what matters.
    pub fn packet(&mut self, from: Seat, channel: Channel, bytes: &Hex) {
        if self.running.is_some() {
            self.packets
                .push(format!("packet {from} {channel} {bytes}"));
        }
    }

    /// Takes the application's answer to a request of this life.
    pub fn answer(&mut self, request: Request, answer: Answer) {
        if self.running.is_some() {
            self.answers.push_back(format!("answer {request} {answer}"));
        }
    }

    /// Writes what the process may have now: answers, packets, and the clock where its deadline is reached.
    pub fn pump(&mut self) {
        while self.unanswered().is_some_and(|count| count < WINDOW) {
            let Some(line) = self.answers.pop_front().or_else(|| self.packets.pop()) else {
                break;
            };
            self.tell_clock(0);
            self.command(line);
        }
        if let (Some(0), Some(deadline)) = (self.unanswered(), self.deadline) {
            self.tell_clock(deadline);
        }
    }

    fn unanswered(&self) -> Option<usize> {
        self.running.as_ref().map(|running| running.unanswered)
    }

    /// Tells the clock where it moved on and is not before this.
    fn tell_clock(&mut self, not_before: u64) {
        let now = self.milliseconds();
        match &mut self.running {
            Some(running) if now > running.told && now >= not_before => running.told = now,
            _ => return,
        }
        self.command(format!("now {now}"));
    }

    fn command(&mut self, line: String) {
        self.write(line);
        if let Some(running) = &mut self.running {
            running.unanswered += 1;
        }
    }

    fn write(&self, line: String) {
        if let Some(log) = &self.log {
            log.note(self.life, format_args!("< {line}"));
        }
        if let Some(running) = &self.running {
            // The thread that writes ends with the process, whose end comes as `Said::End`.
            let _ = running.input.send(line + "\n");
        }
    }

    /// Hears that the line `ready` came.
    pub fn ready(&mut self, view: View, deadline: Option<u64>) {
        (self.view, self.deadline) = (view, deadline);
        if let Some(running) = &mut self.running {
            running.unanswered = running.unanswered.saturating_sub(1);
        }
    }

    /// How long it is until the clock has to be told.
    pub fn until_due(&self) -> Option<Duration> {
        match (self.unanswered(), self.deadline) {
            (Some(0), Some(deadline)) => {
                let now = self.clock.now();
                Some(Duration::from_millis(deadline).saturating_sub(now))
            }
            _ => None,
        }
    }

    /// Lets the process end, and sees how.
    pub fn end(&mut self) -> Result<End> {
        let Some(running) = self.running.take() else {
            return Err(Error::Setup("no process runs".to_owned()));
        };
        drop(running.input);
        let end = end_of(running.child)?;
        if let Some(log) = &self.log {
            let status = end.status.map_or("-9".to_owned(), |it| it.to_string());
            log.note(self.life, format_args!("ended {status}"));
        }
        Ok(end)
    }
}

/// Writes lines until there are no more or the process ended, and then lets its input end.
fn write_lines(mut input: ChildStdin, lines: &Receiver<String>) {
    while let Ok(mut text) = lines.recv() {
        while text.len() < MOST_AT_ONCE {
            match lines.try_recv() {
                Ok(line) => text += &line,
                Err(_) => break,
            }
        }
        if input.write_all(text.as_bytes()).is_err() {
            return;
        }
    }
}

fn read_effects(output: ChildStdout, log: Option<&Log>, life: u64, hear: &impl Fn(u64, Said)) {
    let mut effects = Vec::new();
    for line in BufReader::with_capacity(frame::MOST_BYTES as usize / 8, output).lines() {
        let Ok(line) = line else { break };
        if let Some(log) = log {
            log.note(life, format_args!("> {line}"));
        }
        match line.parse() {
            Ok(effect) => effects.push(effect),
            Err(why) => {
                eprintln!("{why}: {line}");
                break;
            }
        }
        if let Some(Effect::Ready { .. }) = effects.last() {
            hear(life, Said::Effects(std::mem::take(&mut effects)));
        }
    }
    // What came without its `ready` was done all the same.
    hear(life, Said::Effects(effects));
    hear(life, Said::End);
}

#[cfg(test)]
mod tests {
    #![allow(clippy::unwrap_used)]
    use super::*;
    use crate::config::setup_of;
    use crate::testing::Room;
    use std::os::unix::fs::PermissionsExt;

    /// Stands for a member: it is ready after each line but the first, and asks when it is started.
    const STUB: &str = r#"#!/bin/sh
read setup
while read word number rest; do
    case "$word $number $rest" in
        start*) echo "ask 0 certify 1 aaaaaaaaaaaaaaaaaaaaaaaaaaaaaaaaaaaaaaaaaaaaaaaaaaaaaaaaaaaaaaaa";;
        "packet 1 vote dead") echo "the journal failed" >&2; exit 9;;
    esac
    case $word in
        start|now) echo "ready 1 $((number + 30))";;
        *) echo "ready 1";;
    esac
done
"#;

    struct Stub {
        _room: Room,
        log: PathBuf,
        process: Process,
        said: Receiver<(u64, Said)>,
        tell: Sender<(u64, Said)>,
    }

    impl Stub {
        fn new(name: &str) -> Stub {
            let room = Room::new(name);
            let path = room.path().join("stub");
            std::fs::write(&path, STUB).unwrap();
            std::fs::set_permissions(&path, PermissionsExt::from_mode(0o755)).unwrap();
            let program = Program {
                path,
                me: 0,
                setup: setup_of(1, 20, Duration::from_secs(1)),
                journal: room.path().join("journal"),
            };
            let log = room.path().join("log");
            let process = Process::new(program, Some(&log)).unwrap();
            let (tell, said) = mpsc::channel();
            Stub {
                _room: room,
                log,
                process,
                said,
                tell,
            }
        }

        fn start(&mut self) {
            let tell = self.tell.clone();
            let started = self.process.start(move |life, said| {
                let _ = tell.send((life, said));
            });
            started.unwrap();
        }

        /// The effects of the next command, or none where the process ended.
        fn next(&mut self) -> Option<Vec<Effect>> {
            let end = Instant::now() + Duration::from_secs(10);
            loop {
                assert!(Instant::now() < end, "nothing was said");
                self.process.pump();
                match self.said.recv_timeout(Duration::from_millis(5)) {
                    Ok((_, Said::End)) => return None,
                    Ok((_, Said::Effects(effects))) => {
                        if let Some(&Effect::Ready { view, deadline }) = effects.last() {
                            self.process.ready(view, deadline);
                        }
                        return Some(effects);
                    }
                    Err(_) => {}
                }
            }
        }

        fn logged(&self) -> String {
            std::fs::read_to_string(&self.log).unwrap()
        }
    }

    #[test]
    fn the_clock_is_told_when_the_deadline_is_reached() {
        let mut stub = Stub::new("clock");
        stub.start();
        assert!(matches!(
            stub.next().unwrap()[..],
            [Effect::Ask(0, _), Effect::Ready { .. }]
        ));
        for _ in 0..2 {
            assert_eq!(stub.next().unwrap().len(), 1);
        }
        let told: Vec<u64> = stub
            .logged()
            .lines()
            .filter(|line| line.contains("< start") || line.contains("< now"))
            .map(|line| line.rsplit(' ').next().unwrap().parse().unwrap())
            .collect();
        assert!(told.len() >= 3);
        assert!(
            told.windows(2).all(|pair| pair[1] >= pair[0] + 30),
            "{told:?}"
        );
    }

    #[test]
    fn an_end_says_its_status_and_a_new_process_follows() {
        let mut stub = Stub::new("end");
        stub.start();
        stub.process
            .packet(1, Channel::Vote, &"dead".parse().unwrap());
        while stub.next().is_some() {}
        let end = stub.process.end().unwrap();
        assert_eq!(
            (end.status, end.words.as_str()),
            (Some(9), "the journal failed")
        );
        assert!(!end.is_hopeless());
        // Of a life that ended: nobody takes it.
        stub.process.answer(0, Answer::Is(true));
        stub.start();
        assert_eq!(stub.process.life, 2);
        assert!(stub.next().is_some());
        assert!(!stub.logged().contains("answer"));
    }

    #[test]
    fn answers_go_before_packets_and_no_more_than_a_window_goes() {
        let mut stub = Stub::new("window");
        stub.start();
        for _ in 0..2 * WINDOW {
            stub.process
                .packet(1, Channel::Vote, &"00".parse().unwrap());
        }
        stub.process.answer(0, Answer::Is(true));
        stub.process.pump();
        assert!(stub.process.unanswered().unwrap() <= WINDOW + 1);
        let lines = stub.logged();
        let kinds: Vec<&str> = lines
            .lines()
            .filter_map(|line| line.split(' ').nth(3))
            .filter(|kind| ["answer", "packet"].contains(kind))
            .collect();
        assert_eq!(kinds[0], "answer");
        assert!(kinds.len() <= WINDOW);
    }
}
