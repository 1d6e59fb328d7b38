//! A cluster on 127.0.0.1: it is started, driven until its members agree, and measured.

use crate::config::{program_path, root, setup_of, Config};
use crate::error::{During, Error, Result};
use crate::frame::read_line;
use crate::json::Value;
use std::collections::BTreeMap;
use std::fmt;
use std::fs::File;
use std::io::{self, BufReader, Write};
use std::net::{TcpListener, TcpStream};
use std::path::{Path, PathBuf};
use std::process::{Child, Command, Stdio};
use std::thread;
use std::time::{Duration, Instant};

const ACCOUNTS: [&str; 5] = ["alice", "bob", "carol", "dave", "erin"];
const BALANCE: u64 = 1000;
const POLL: Duration = Duration::from_millis(50);
/// After which transfers that were not applied are submitted again.
const SUBMIT_AGAIN: Duration = Duration::from_secs(2);
const REPLY_TIME: Duration = Duration::from_secs(10);
/// How often a member that has to answer is asked.
const TRIES: u32 = 3;
/// How long members have to stop.
const STOP_TIME: Duration = Duration::from_secs(5);
/// Of a tick in /proc.
const TICK: Duration = Duration::from_millis(10);

/// What to start.
#[derive(Clone, Debug)]
pub struct Plan {
    pub members: usize,
    /// So many of them, the first ones, are hosts in Python.
    pub python: usize,
    /// The program `member` of this package.
    pub member: PathBuf,
    /// `simplex_node_cli`, where it is not the usual one.
    pub program: Option<PathBuf>,
    /// Holds configurations and the members' folders.
    pub folder: PathBuf,
    /// How long a leader waits for transfers.
    pub pace: Duration,
    /// How many views are kept behind the last final one.
    pub retention: u64,
    /// How long a leader has to propose. On a busy machine members may be too slow for a short one.
    pub timeout: Duration,
    pub has_logs: bool,
}

/// When to stop.
#[derive(Clone, Copy, Debug)]
pub struct Goal {
    pub transfers: u64,
    pub views: u64,
    /// After which it is a fault that the cluster is not there yet.
    pub time: Duration,
    /// After which the run ends well, wherever it is.
    pub enough: Option<Duration>,
    /// How often a sample is printed.
    pub every: Option<Duration>,
    pub seed: u64,
}

#[derive(Clone, Copy, Debug, Eq, PartialEq)]
enum Language {
    Rust,
    Python,
}

struct Host {
    language: Language,
    child: Child,
    client: String,
    connection: Option<BufReader<TcpStream>>,
}

/// What a member says of its ledger.
#[derive(Clone, Debug, Eq, PartialEq)]
struct Account {
    view: u64,
    height: u64,
    balances: BTreeMap<String, u64>,
    sent: BTreeMap<String, u64>,
}

/// What came out.
#[derive(Clone, Debug)]
pub struct Outcome {
    pub balances: BTreeMap<String, u64>,
    pub members: usize,
    pub transfers: u64,
    /// The least final view and the length of the longest chain.
    pub views: u64,
    pub blocks: u64,
    pub speed: Speed,
    pub memory: Memory,
    pub work: Work,
    /// Of the ledgers of all hosts in Rust.
    pub host_syncs: u64,
    /// Packets and blocks, of all members.
    pub lost: u64,
}

/// Views by time, from the first view that was final at each member.
#[derive(Clone, Copy, Debug)]
pub struct Speed {
    pub until_first: Duration,
    pub views: u64,
    pub time: Duration,
}

/// The most that one of the processes had in memory, in kB.
#[derive(Clone, Copy, Debug, Default)]
pub struct Memory {
    pub node: u64,
    pub host: u64,
}

/// Processor time of all members together, from the first view that was final at each member.
#[derive(Clone, Copy, Debug, Default)]
pub struct Work {
    pub node: Duration,
    pub host: Duration,
}

impl Speed {
    pub fn views_a_second(&self) -> f64 {
        self.views as f64 / self.time.as_secs_f64().max(1e-9)
    }

    pub fn milliseconds_a_view(&self) -> f64 {
        1e3 * self.time.as_secs_f64() / self.views.max(1) as f64
    }
}

impl fmt::Display for Speed {
    fn fmt(&self, out: &mut fmt::Formatter) -> fmt::Result {
        write!(
            out,
            "{:.1} views a second, {:.2} ms a view ({} views in {:.1} s); the first final view after {:.2} s",
            self.views_a_second(),
            self.milliseconds_a_view(),
            self.views,
            self.time.as_secs_f64(),
            self.until_first.as_secs_f64()
        )
    }
}

impl fmt::Display for Outcome {
    fn fmt(&self, out: &mut fmt::Formatter) -> fmt::Result {
        for (account, balance) in &self.balances {
            writeln!(out, "{account} {balance}")?;
        }
        writeln!(
            out,
            "{} members agree: {} transfers, {} blocks, final view {}",
            self.members, self.transfers, self.blocks, self.views
        )?;
        writeln!(out, "speed: {}", self.speed)?;
        let by_view = |time: Duration| 1e3 * time.as_secs_f64() / self.speed.views.max(1) as f64;
        writeln!(
            out,
            "processor time of all members: nodes {:.2} ms a view, hosts {:.2} ms a view",
            by_view(self.work.node),
            by_view(self.work.host)
        )?;
        writeln!(out, "memory of one member: {}", self.memory)?;
        write!(
            out,
            "syncs of hosts: {}, lost packets: {}",
            self.host_syncs, self.lost
        )
    }
}

impl fmt::Display for Memory {
    fn fmt(&self, out: &mut fmt::Formatter) -> fmt::Result {
        let megabytes = |kilobytes: u64| kilobytes as f64 / 1024.0;
        let (node, host) = (megabytes(self.node), megabytes(self.host));
        write!(out, "node {node:.1} MB, host {host:.1} MB")
    }
}

impl Outcome {
    /// The figures as one line of JSON, in whole numbers.
    pub fn to_json(&self) -> Value {
        let Speed {
            until_first,
            views,
            time,
        } = self.speed;
        let microseconds = |time: Duration| Value::from(time.as_micros() as u64);
        Value::object([
            ("members", (self.members as u64).into()),
            ("final_view", self.views.into()),
            ("blocks", self.blocks.into()),
            ("until_first_us", microseconds(until_first)),
            ("views", views.into()),
            ("time_us", microseconds(time)),
            ("node_work_us", microseconds(self.work.node)),
            ("host_work_us", microseconds(self.work.host)),
            ("node_kb", self.memory.node.into()),
            ("host_kb", self.memory.host.into()),
            ("host_syncs", self.host_syncs.into()),
            ("lost", self.lost.into()),
        ])
    }
}

/// Its processes end when it is dropped.
pub struct Cluster {
    hosts: Vec<Host>,
    started: Instant,
}

impl Cluster {
    pub fn start(plan: &Plan) -> Result<Cluster> {
        let program = program_path(plan.program.clone());
        if !program.exists() {
            return Err(Error::Setup(format!(
                "{} is missing: tools/unproved.py build simplex_node_cli makes it, or --program names one",
                program.display()
            )));
        }
        std::fs::create_dir_all(&plan.folder).during(plan.folder.display())?;
        let mut addresses = free_addresses(2 * plan.members)?;
        let clients = addresses.split_off(plan.members);
        let mut configs = Vec::new();
        for (me, client) in clients.into_iter().enumerate() {
            let config = Config {
                me,
                setup: setup_of(plan.members, plan.retention, plan.timeout),
                program: program.clone(),
                folder: plan.folder.join(format!("member-{me}")),
                peers: addresses.clone(),
                client,
                accounts: ACCOUNTS.map(|name| (name.to_owned(), BALANCE)).into(),
                pace: plan.pace,
            };
            let path = plan.folder.join(format!("member-{me}.json"));
            config.write(&path)?;
            let status = plan.command(me).arg("--init").arg(&path).status();
            if !status.during("member --init")?.success() {
                return Err(Error::Setup(format!("member {me} was not made")));
            }
            configs.push((config, path));
        }
        let mut cluster = Cluster {
            hosts: Vec::new(),
            started: Instant::now(),
        };
        for (config, path) in configs {
            let me = config.me;
            let errors = plan.folder.join(format!("member-{me}.err"));
            let errors = File::create(&errors).during(errors.display())?;
            let mut command = plan.command(me);
            command.arg(path).stdin(Stdio::piped()).stderr(errors);
            if plan.has_logs {
                command.arg("--log");
                command.arg(plan.folder.join(format!("member-{me}.log")));
            }
            if plan.language(me) == Language::Rust {
                command.arg("--attached");
            }
            cluster.hosts.push(Host {
                language: plan.language(me),
                child: command.spawn().during("member")?,
                client: config.client,
                connection: None,
            });
        }
        Ok(cluster)
    }

    /// Submits transfers and waits until all members applied them and the view is final.
    pub fn drive(&mut self, goal: &Goal) -> Result<Outcome> {
        let transfers = transfers_of(goal);
        let mut chance = Chance(goal.seed);
        let mut next_submit = self.started;
        let mut next_sample = goal.every.map(|every| self.started + every);
        let mut first = None;
        let mut memory = Memory::default();
        loop {
            let now = Instant::now();
            if now > self.started + goal.time {
                return Err(Error::Fault(format!("the time is up: {}", self.statuses())));
            }
            if now >= next_submit {
                // Transfers that a member lost come again: numbers make it harmless.
                for (line, _) in &transfers {
                    let at = chance.below(self.hosts.len() as u64) as usize;
                    self.hosts[at].tell(line);
                }
                next_submit = now + SUBMIT_AGAIN;
            }
            let accounts: Vec<Account> = self.hosts.iter_mut().filter_map(Host::account).collect();
            for account in &accounts {
                let sum: u64 = account.balances.values().sum();
                if sum != BALANCE * ACCOUNTS.len() as u64 {
                    return Err(Error::Fault(format!("the sum of balances is {sum}")));
                }
            }
            if accounts.len() == self.hosts.len() {
                let view = accounts.iter().map(|it| it.view).min().unwrap_or(0);
                let at = Instant::now();
                if view > 0 && first.is_none() {
                    first = Some((view, at, self.work()));
                }
                let (first_view, first_at, first_work) =
                    first.unwrap_or((view, at, Work::default()));
                let speed = Speed {
                    until_first: first_at - self.started,
                    views: view - first_view,
                    time: at - first_at,
                };
                if let (Some(every), Some(due)) = (goal.every, next_sample) {
                    if at >= due {
                        let now = self.memory();
                        memory = memory.most(now);
                        let seconds = (at - self.started).as_secs_f64();
                        println!("{seconds:.1} s: final view {view}, {now}, {speed}");
                        next_sample = Some(due + every);
                    }
                }
                let is_applied = |it: &Account| transfers.iter().all(|(_, sent)| it.has(sent));
                let is_done = view >= goal.views && accounts.iter().all(is_applied);
                if is_done
                    && accounts
                        .iter()
                        .any(|it| it.balances != accounts[0].balances)
                {
                    return Err(Error::Fault("balances differ".to_owned()));
                }
                let is_enough = goal.enough.is_some_and(|time| at >= self.started + time);
                if is_done || is_enough {
                    let work = self.work().since(first_work);
                    return self.outcome(goal, &accounts, speed, memory, work);
                }
            }
            thread::sleep(POLL);
        }
    }

    fn outcome(
        &mut self,
        goal: &Goal,
        accounts: &[Account],
        speed: Speed,
        memory: Memory,
        work: Work,
    ) -> Result<Outcome> {
        let memory = memory.most(self.memory());
        let balances = accounts[0].balances.clone();
        let blocks = self.chains_agree()?;
        let statuses: Vec<Value> = self
            .hosts
            .iter_mut()
            .map(|host| host.need("status"))
            .collect::<Result<_>>()?;
        let noted = |it: &&Value| it.get("notes").and_then(Value::as_list) != Some(&[]);
        if let Some(status) = statuses.iter().find(noted) {
            return Err(Error::Fault(format!(
                "members told on each other: {status}"
            )));
        }
        let sum = |name: &str| {
            let found = statuses.iter().filter_map(|it| it.get(name)?.as_number());
            found.sum()
        };
        Ok(Outcome {
            balances,
            members: self.hosts.len(),
            transfers: goal.transfers,
            views: accounts.iter().map(|it| it.view).min().unwrap_or(0),
            blocks,
            speed,
            memory,
            work,
            host_syncs: sum("syncs"),
            lost: sum("lost"),
        })
    }

    /// Sees that each chain is the beginning of the longest one: how long that is.
    fn chains_agree(&mut self) -> Result<u64> {
        let mut chains = Vec::new();
        for host in &mut self.hosts {
            let mut chain = Vec::new();
            loop {
                let reply = host.need(&format!("chain {}", chain.len()))?;
                match reply.as_list() {
                    Some([]) => break,
                    Some(more) => chain.extend_from_slice(more),
                    None => return Err(Error::Fault(format!("no chain: {reply}"))),
                }
            }
            chains.push(chain);
        }
        let longest = chains.iter().max_by_key(|chain| chain.len());
        let longest = longest.map_or(&[][..], Vec::as_slice);
        match chains.iter().position(|it| !longest.starts_with(it)) {
            Some(member) => Err(Error::Fault(format!(
                "the chain of member {member} is another one"
            ))),
            None => Ok(longest.len() as u64 - 1),
        }
    }

    fn memory(&mut self) -> Memory {
        let found = self.hosts.iter_mut().map(|host| Memory {
            node: host.process().and_then(resident).unwrap_or(0),
            host: resident(u64::from(host.child.id())).unwrap_or(0),
        });
        found.fold(Memory::default(), Memory::most)
    }

    fn work(&mut self) -> Work {
        let mut sum = Work::default();
        for host in &mut self.hosts {
            sum.node += host.process().and_then(worked).unwrap_or_default();
            sum.host += worked(u64::from(host.child.id())).unwrap_or_default();
        }
        sum
    }

    fn statuses(&mut self) -> String {
        let statuses = self.hosts.iter_mut().map(|host| match host.status() {
            Some(status) => status.to_string(),
            None => "no answer".to_owned(),
        });
        statuses.collect::<Vec<_>>().join(", ")
    }
}

impl Drop for Cluster {
    fn drop(&mut self) {
        for host in &mut self.hosts {
            // A member in Rust ends by itself when its input ends.
            drop(host.child.stdin.take());
        }
        let end = Instant::now() + STOP_TIME;
        for host in &mut self.hosts {
            while host.language == Language::Rust
                && Instant::now() < end
                && matches!(host.child.try_wait(), Ok(None))
            {
                thread::sleep(Duration::from_millis(1));
            }
            // The process of a killed host sees that its input ended. Who is gone already needs no kill.
            let _ = host.child.kill();
            let _ = host.child.wait();
        }
    }
}

/// Removes the folder of a cluster that ended. The process of a killed host may still write there for a moment.
pub fn remove(folder: &Path) -> Result<()> {
    let end = Instant::now() + STOP_TIME;
    loop {
        match std::fs::remove_dir_all(folder) {
            Err(why) if why.kind() == io::ErrorKind::NotFound => return Ok(()),
            Err(_) if Instant::now() < end => thread::sleep(POLL),
            done => return done.during(folder.display()),
        }
    }
}

impl Plan {
    fn command(&self, me: usize) -> Command {
        match self.language(me) {
            Language::Rust => Command::new(&self.member),
            Language::Python => {
                let mut command = Command::new("python3");
                command.arg(root().join("hosts/python/member.py"));
                command
            }
        }
    }

    fn language(&self, me: usize) -> Language {
        if me < self.python {
            Language::Python
        } else {
            Language::Rust
        }
    }
}

impl Memory {
    fn most(self, other: Memory) -> Memory {
        Memory {
            node: self.node.max(other.node),
            host: self.host.max(other.host),
        }
    }
}

impl Work {
    fn since(self, before: Work) -> Work {
        Work {
            node: self.node.saturating_sub(before.node),
            host: self.host.saturating_sub(before.host),
        }
    }
}

impl Host {
    /// The answer to a line on the client port, or none while nobody answers.
    fn tell(&mut self, line: &str) -> Option<String> {
        let answer = self.try_tell(line).ok().flatten();
        if answer.is_none() {
            self.connection = None;
        }
        answer
    }

    fn try_tell(&mut self, line: &str) -> io::Result<Option<String>> {
        let connection = match &mut self.connection {
            Some(connection) => connection,
            None => {
                let stream = TcpStream::connect(&self.client)?;
                stream.set_nodelay(true)?;
                stream.set_read_timeout(Some(REPLY_TIME))?;
                self.connection.insert(BufReader::new(stream))
            }
        };
        connection
            .get_mut()
            .write_all(format!("{line}\n").as_bytes())?;
        read_line(connection)
    }

    fn ask(&mut self, line: &str) -> Option<Value> {
        Value::parse(&self.tell(line)?).ok()
    }

    /// The answer of a member that has to answer, where it may be slow.
    fn need(&mut self, line: &str) -> Result<Value> {
        let answer = (0..TRIES).find_map(|_| self.ask(line));
        answer.ok_or_else(|| Error::Fault(format!("a member does not answer to {line}")))
    }

    fn status(&mut self) -> Option<Value> {
        self.ask("status")
    }

    fn process(&mut self) -> Option<u64> {
        self.status()?.get("process")?.as_number()
    }

    fn account(&mut self) -> Option<Account> {
        let reply = self.ask("balances")?;
        let numbers = |name| {
            let entries = reply.get(name)?.entries()?.iter();
            entries
                .map(|(name, number)| Some((name.clone(), number.as_number()?)))
                .collect::<Option<BTreeMap<String, u64>>>()
        };
        Some(Account {
            view: reply.get("view")?.as_number()?,
            height: reply.get("height")?.as_number()?,
            balances: numbers("balances")?,
            sent: numbers("sent")?,
        })
    }
}

impl Account {
    fn has(&self, sent: &Sent) -> bool {
        let count = self.sent.get(&sent.account).copied().unwrap_or(0);
        count > sent.number
    }
}

/// The number of a transfer, by its sender.
struct Sent {
    account: String,
    number: u64,
}

fn transfers_of(goal: &Goal) -> Vec<(String, Sent)> {
    let mut chance = Chance(goal.seed);
    let mut numbers = BTreeMap::new();
    let accounts = ACCOUNTS.len() as u64;
    let transfers = (0..goal.transfers).map(|_| {
        let from = chance.below(accounts);
        let to = (from + 1 + chance.below(accounts - 1)) % accounts;
        let (from, to) = (ACCOUNTS[from as usize], ACCOUNTS[to as usize]);
        // So little that each sender has enough, in whatever order they come.
        let most = (900 / goal.transfers).max(1);
        let amount = 1 + chance.below(most);
        let next: &mut u64 = numbers.entry(from).or_default();
        let number = *next;
        *next += 1;
        let line = format!("transfer {from} {to} {amount} {number}");
        let account = from.to_owned();
        (line, Sent { account, number })
    });
    transfers.collect()
}

/// Numbers that look random (xorshift), the same for the same seed.
struct Chance(u64);

impl Chance {
    fn below(&mut self, end: u64) -> u64 {
        let mut state = self.0 | 1 << 63;
        state ^= state << 13;
        state ^= state >> 7;
        state ^= state << 17;
        self.0 = state;
        (state >> 16) % end
    }
}

/// Addresses on 127.0.0.1 that were free.
pub fn free_addresses(count: usize) -> Result<Vec<String>> {
    let listeners: io::Result<Vec<TcpListener>> = (0..count)
        .map(|_| TcpListener::bind("127.0.0.1:0"))
        .collect();
    let addresses = listeners.during("free ports")?;
    let addresses = addresses.iter().map(|it| Ok(it.local_addr()?.to_string()));
    addresses.collect::<io::Result<_>>().during("free ports")
}

/// The processor time of a process, by ticks of the system.
fn worked(process: u64) -> Option<Duration> {
    let stat = read_proc(process, "stat")?;
    // The name before may have blanks. User and system time are the 14th and 15th word of the line.
    let (_, words) = stat.rsplit_once(')')?;
    let mut words = words.split_whitespace().skip(11);
    let mut ticks = || words.next()?.parse::<u32>().ok();
    Some(TICK * (ticks()? + ticks()?))
}

fn read_proc(process: u64, name: &str) -> Option<String> {
    let path = Path::new("/proc").join(process.to_string()).join(name);
    std::fs::read_to_string(path).ok()
}

/// The resident memory of a process, in kB.
fn resident(process: u64) -> Option<u64> {
    let status = read_proc(process, "status")?;
    let line = status.lines().find_map(|it| it.strip_prefix("VmRSS:"))?;
    line.split_whitespace().next()?.parse().ok()
}

#[cfg(test)]
mod tests {
    #![allow(clippy::unwrap_used)]
    use super::*;

    #[test]
    fn transfers_are_numbered_and_can_be_paid() {
        let goal = Goal {
            transfers: 20,
            views: 0,
            time: Duration::ZERO,
            enough: None,
            every: None,
            seed: 7,
        };
        let transfers = transfers_of(&goal);
        assert_eq!(transfers.len(), 20);
        let mut spent: BTreeMap<&str, u64> = BTreeMap::new();
        for (line, sent) in &transfers {
            let words: Vec<&str> = line.split(' ').collect();
            assert_ne!(words[1], words[2]);
            assert_eq!(words[4], sent.number.to_string());
            *spent.entry(words[1]).or_default() += words[3].parse::<u64>().unwrap();
        }
        assert!(spent.values().all(|amount| *amount <= BALANCE));
        assert!(spent.len() > 1);
    }

    #[test]
    fn speeds() {
        let speed = Speed {
            until_first: Duration::from_millis(250),
            views: 50,
            time: Duration::from_secs(2),
        };
        assert_eq!(
            speed.to_string(),
            "25.0 views a second, 40.00 ms a view (50 views in 2.0 s); the first final view after 0.25 s"
        );
    }

    #[test]
    fn the_processor_time_of_a_process() {
        let me = u64::from(std::process::id());
        let (before, begun) = (worked(me).unwrap(), Instant::now());
        while worked(me).unwrap() < before + 5 * TICK {
            assert!(begun.elapsed() < Duration::from_secs(30));
        }
        assert_eq!(worked(u64::MAX), None);
    }

    #[test]
    fn the_memory_of_a_process() {
        assert!(resident(u64::from(std::process::id())).unwrap() > 0);
        assert_eq!(resident(u64::MAX), None);
    }
}
