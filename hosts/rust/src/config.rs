//! The configuration of a member, as `hosts/python/member.py` reads it, and setups.

use crate::effect::Seat;
use crate::error::{During, Error, Result};
use crate::json::Value;
use std::collections::BTreeMap;
use std::path::{Path, PathBuf};
use std::time::Duration;

#[derive(Clone, Debug)]
pub struct Config {
    pub me: Seat,
    /// The line that all members run with (docs/INPUT.md, "The setup").
    pub setup: Value,
    pub program: PathBuf,
    pub folder: PathBuf,
    /// The addresses of all members.
    pub peers: Vec<String>,
    /// The address that clients write to.
    pub client: String,
    pub accounts: BTreeMap<String, u64>,
    /// How long a leader waits for transfers.
    pub pace: Duration,
}

impl Config {
    pub fn read(path: &Path) -> Result<Config> {
        let text = std::fs::read_to_string(path).during(path.display())?;
        let bad = |why: &str| Error::Setup(format!("{}: {why}", path.display()));
        let value = Value::parse(&text).map_err(|why| bad(&why.to_string()))?;
        Config::of(&value).ok_or_else(|| bad("not a configuration of a member"))
    }

    fn of(value: &Value) -> Option<Config> {
        let text = |name| value.get(name).and_then(Value::as_text);
        let peers = value.get("peers")?.as_list()?;
        let accounts = value.get("accounts")?.entries()?;
        let config = Config {
            me: usize::try_from(value.get("me")?.as_number()?).ok()?,
            setup: value.get("setup")?.clone(),
            program: program_path(text("program").map(PathBuf::from)),
            folder: text("folder")?.into(),
            peers: peers
                .iter()
                .map(|it| it.as_text().map(str::to_owned))
                .collect::<Option<_>>()?,
            client: text("client")?.to_owned(),
            accounts: accounts
                .iter()
                .map(|(name, balance)| Some((name.clone(), balance.as_number()?)))
                .collect::<Option<_>>()?,
            pace: Duration::from_millis(match value.get("pace") {
                Some(pace) => pace.as_number()?,
                None => 50,
            }),
        };
        (config.me < config.peers.len() && config.setup.get("epoch").is_some()).then_some(config)
    }

    pub fn epoch(&self) -> u64 {
        self.setup
            .get("epoch")
            .and_then(Value::as_number)
            .unwrap_or(0)
    }

    /// The folder of the member's journal.
    pub fn journal(&self) -> PathBuf {
        self.folder.join("journal")
    }

    pub fn write(&self, path: &Path) -> Result<()> {
        let accounts = self.accounts.iter();
        let accounts = accounts.map(|(name, balance)| (name.clone(), (*balance).into()));
        let value = Value::object([
            ("me", (self.me as u64).into()),
            ("setup", self.setup.clone()),
            ("program", Value::text(self.program.display())),
            ("folder", Value::text(self.folder.display())),
            (
                "peers",
                Value::List(self.peers.iter().map(Value::text).collect()),
            ),
            ("client", Value::text(&self.client)),
            ("accounts", Value::Object(accounts.collect())),
            ("pace", (self.pace.as_millis() as u64).into()),
        ]);
        std::fs::write(path, value.to_string()).during(path.display())
    }
}

/// The repository.
pub fn root() -> PathBuf {
    Path::new(env!("CARGO_MANIFEST_DIR")).join("../..")
}

/// The program: the path that is given, or of the variable `SIMPLEX_NODE`, or the proved build, or the one without a proof.
pub fn program_path(given: Option<PathBuf>) -> PathBuf {
    let named = given.or_else(|| std::env::var_os("SIMPLEX_NODE").map(PathBuf::from));
    named.unwrap_or_else(|| {
        let proved = root().join("crates/simplex_node_cli/out/simplex_node_cli");
        if proved.exists() {
            proved
        } else {
            root().join("unproved/simplex_node_cli")
        }
    })
}

/// A setup of honest members. `retention` is how many views are kept behind the last final one, `timeout` how long a leader has to propose.
pub fn setup_of(members: usize, retention: u64, timeout: Duration) -> Value {
    let timeout = timeout.as_millis() as u64;
    let honest = vec![Value::text("honest"); members];
    Value::object([
        ("epoch", 0.into()),
        ("key_base", 1.into()),
        ("members", Value::List(honest)),
        ("term", 1.into()),
        ("lookahead", 0.into()),
        ("leader_timeout", timeout.into()),
        ("certification_timeout", (2 * timeout).into()),
        ("retry", 500.into()),
        ("stall", Value::Null),
        ("retention", retention.into()),
        ("skip", Value::Null),
        ("forward", Value::text("disabled")),
        ("mailbox", 256.into()),
        ("track", Value::Bool(false)),
        ("handoff", Value::Bool(false)),
        ("fetch_timeout", 500.into()),
        ("fetch_retry", 100.into()),
        ("scenario", Value::List(Vec::new())),
    ])
}

#[cfg(test)]
mod tests {
    #![allow(clippy::unwrap_used)]
    use super::*;
    use crate::testing::Room;

    #[test]
    fn a_configuration_and_back() {
        let room = Room::new("config");
        let path = room.path().join("member.json");
        let config = Config {
            me: 1,
            setup: setup_of(2, 20, Duration::from_secs(1)),
            program: "program".into(),
            folder: "folder".into(),
            peers: vec!["127.0.0.1:1".to_owned(), "127.0.0.1:2".to_owned()],
            client: "127.0.0.1:3".to_owned(),
            accounts: [("a".to_owned(), 10)].into(),
            pace: Duration::from_millis(7),
        };
        config.write(&path).unwrap();
        let again = Config::read(&path).unwrap();
        assert_eq!(format!("{again:?}"), format!("{config:?}"));
        assert_eq!(again.epoch(), 0);
    }

    #[test]
    fn a_member_that_is_none_of_the_peers() {
        let room = Room::new("no-config");
        let path = room.path().join("member.json");
        let text = format!(
            r#"{{"me":1,"setup":{},"folder":"","peers":["127.0.0.1:1"],"client":"","accounts":{{}}}}"#,
            setup_of(1, 20, Duration::from_secs(1))
        );
        std::fs::write(&path, &text).unwrap();
        assert!(Config::read(&path).is_err());
        std::fs::write(&path, text.replace("\"me\":1", "\"me\":0")).unwrap();
        assert_eq!(Config::read(&path).unwrap().pace, Duration::from_millis(50));
    }
}
