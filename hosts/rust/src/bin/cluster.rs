//! Starts a cluster on 127.0.0.1, submits transfers until all members have applied them, and prints balances and speed.

use letsvaku_hosts::cluster::{remove, Cluster, Goal, Plan};
use letsvaku_hosts::error::{number, During, Error, Result};
use std::path::PathBuf;
use std::process::ExitCode;
use std::time::{Duration, SystemTime, UNIX_EPOCH};

const USAGE: &str = "\
usage: cluster [OPTION VALUE].. [--logs] [--json]
  --members N     4 members
  --python N      so many of them are hosts in Python, by default none
  --views V       until view V is final at each member, by default 100
  --transfers T   and all of T transfers are applied, by default 20
  --seconds S     or a fault after so long, by default 60
  --enough S      or ends well after S seconds, wherever it is
  --pace MS       how long a leader waits for transfers, by default 0
  --retention R   how many views are kept behind the last final one, by default 20
  --timeout MS    how long a leader has to propose, by default 1000: more on a busy machine
  --every S       prints a sample every S seconds
  --seed N        of the transfers, by default the clock
  --in FOLDER     where a folder is made for the run, by default the one for temporary files; /dev/shm is in memory
  --keep FOLDER   takes this folder, and leaves it
  --program PATH  simplex_node_cli
  --logs          writes all lines of each member to a log in the folder
  --json          prints the figures as one line of JSON";

struct Options {
    plan: Plan,
    goal: Goal,
    is_kept: bool,
    is_json: bool,
}

fn main() -> ExitCode {
    let words: Vec<String> = std::env::args().skip(1).collect();
    match options_of(&words).and_then(|options| run(&options)) {
        Ok(()) => ExitCode::SUCCESS,
        Err(why) => {
            println!("{why}");
            ExitCode::FAILURE
        }
    }
}

fn options_of(words: &[String]) -> Result<Options> {
    let clock = SystemTime::now()
        .duration_since(UNIX_EPOCH)
        .unwrap_or_default();
    let folder = |above: PathBuf| above.join(format!("cluster-{}", std::process::id()));
    let me = std::env::current_exe().during("the path of this program")?;
    let mut options = Options {
        plan: Plan {
            members: 4,
            python: 0,
            member: me.with_file_name("member"),
            program: None,
            folder: folder(std::env::temp_dir()),
            pace: Duration::ZERO,
            retention: 20,
            timeout: Duration::from_secs(1),
            has_logs: false,
        },
        goal: Goal {
            transfers: 20,
            views: 100,
            time: Duration::from_secs(60),
            enough: None,
            every: None,
            seed: clock.as_nanos() as u64,
        },
        is_kept: false,
        is_json: false,
    };
    let bad = || Error::Setup(USAGE.to_owned());
    let (plan, goal) = (&mut options.plan, &mut options.goal);
    let mut words = words.iter();
    while let Some(name) = words.next() {
        match name.as_str() {
            "--json" => {
                options.is_json = true;
                continue;
            }
            "--logs" => {
                plan.has_logs = true;
                continue;
            }
            _ => {}
        }
        let word = words.next().ok_or_else(bad)?;
        let count = || number(word).map_err(|_| bad());
        match name.as_str() {
            "--members" => plan.members = count()? as usize,
            "--python" => plan.python = count()? as usize,
            "--pace" => plan.pace = Duration::from_millis(count()?),
            "--retention" => plan.retention = count()?,
            "--timeout" => plan.timeout = Duration::from_millis(count()?),
            "--in" => plan.folder = folder(word.into()),
            "--keep" => (plan.folder, options.is_kept) = (word.into(), true),
            "--program" => plan.program = Some(word.into()),
            "--views" => goal.views = count()?,
            "--transfers" => goal.transfers = count()?,
            "--seconds" => goal.time = Duration::from_secs(count()?),
            "--enough" => goal.enough = Some(Duration::from_secs(count()?)),
            "--every" => goal.every = Some(Duration::from_secs(count()?)),
            "--seed" => goal.seed = count()?,
            _ => return Err(bad()),
        }
    }
    if plan.members == 0 || plan.python > plan.members {
        return Err(bad());
    }
    Ok(options)
}

fn run(options: &Options) -> Result<()> {
    let Options {
        plan,
        goal,
        is_kept,
        is_json,
    } = options;
    let outcome = Cluster::start(plan).and_then(|mut cluster| cluster.drive(goal));
    if !is_kept {
        remove(&plan.folder)?;
    }
    let outcome = outcome?;
    if *is_json {
        println!("{}", outcome.to_json());
    } else {
        println!("{outcome}");
    }
    Ok(())
}
