//! A member with a ledger of accounts, over TCP on 127.0.0.1.
//!
//! ```text
//! member --init CONFIG.json           # once: makes the member's folder. Never for a member that voted before: it would forget its votes
//! member CONFIG.json [--log FILE] [--attached]
//! ```
//!
//! `--attached` ends the member when its standard input ends.
//!
//! The configuration and the client port are those of `hosts/python/member.py`.

use letsvaku_hosts::config::Config;
use letsvaku_hosts::error::{During, Error, Result};
use letsvaku_hosts::member::{program_of, Member};
use std::path::Path;
use std::process::ExitCode;

const USAGE: &str =
    "usage: member --init CONFIG.json, or member CONFIG.json [--log FILE] [--attached]";

fn main() -> ExitCode {
    let words: Vec<String> = std::env::args().skip(1).collect();
    let words: Vec<&str> = words.iter().map(String::as_str).collect();
    match run(&words) {
        Ok(()) => ExitCode::SUCCESS,
        Err(why) => {
            eprintln!("member: {why}");
            ExitCode::FAILURE
        }
    }
}

fn run(words: &[&str]) -> Result<()> {
    let (words, is_attached) = match words {
        [words @ .., "--attached"] => (words, true),
        _ => (words, false),
    };
    let (path, log) = match *words {
        ["--init", path] => return init(Path::new(path)),
        [path] => (path, None),
        [path, "--log", log] => (path, Some(Path::new(log))),
        _ => return Err(Error::Setup(USAGE.to_owned())),
    };
    let member = Member::start(&Config::read(Path::new(path))?, log)?;
    if is_attached {
        member.attach(std::io::stdin());
    }
    member.run()
}

fn init(path: &Path) -> Result<()> {
    let config = Config::read(path)?;
    std::fs::create_dir_all(&config.folder).during(config.folder.display())?;
    program_of(&config).init()
}
