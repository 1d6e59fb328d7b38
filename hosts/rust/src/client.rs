//! The client port of a member: a line comes in, and a line goes back.

use crate::block::Transfer;
use crate::error::{During, Malformed, Result};
use crate::frame::read_line;
use std::io::{self, BufReader, Write};
use std::net::{TcpListener, TcpStream};
use std::str::FromStr;
use std::sync::mpsc::{self, SyncSender};
use std::thread;

#[derive(Clone, Debug, Eq, PartialEq)]
pub enum Query {
    Transfer(Transfer),
    Balances,
    /// The applied blocks from this place on.
    Chain(usize),
    Status,
}

impl FromStr for Query {
    type Err = Malformed;

    fn from_str(line: &str) -> std::result::Result<Query, Malformed> {
        let words: Vec<&str> = line.split_whitespace().collect();
        match words[..] {
            ["transfer", ref words @ ..] => Transfer::parse(words).map(Query::Transfer),
            ["balances"] => Ok(Query::Balances),
            ["chain", start] => {
                let start = start.parse().map_err(|_| Malformed("a number"))?;
                Ok(Query::Chain(start))
            }
            ["status"] => Ok(Query::Status),
            _ => Err(Malformed("a line of a client")),
        }
    }
}

/// Listens. `hear` is called on other threads, and sends the line that goes back.
pub fn serve<F>(address: &str, hear: F) -> Result<()>
where
    F: Fn(Query, SyncSender<String>) + Clone + Send + 'static,
{
    let listener = TcpListener::bind(address).during(address)?;
    thread::spawn(move || {
        for stream in listener.incoming().flatten() {
            let hear = hear.clone();
            // A client that is gone is no fault of the member.
            thread::spawn(move || answer(stream, &hear));
        }
    });
    Ok(())
}

fn answer(mut stream: TcpStream, hear: &impl Fn(Query, SyncSender<String>)) -> io::Result<()> {
    stream.set_nodelay(true)?;
    let mut input = BufReader::new(stream.try_clone()?);
    while let Some(line) = read_line(&mut input)? {
        let reply = match line.parse() {
            Ok(query) => {
                let (reply, replied) = mpsc::sync_channel(1);
                hear(query, reply);
                match replied.recv() {
                    Ok(reply) => reply,
                    Err(_) => return Ok(()),
                }
            }
            Err(_) => "bad".to_owned(),
        };
        stream.write_all((reply + "\n").as_bytes())?;
    }
    Ok(())
}

#[cfg(test)]
mod tests {
    #![allow(clippy::unwrap_used)]
    use super::*;

    #[test]
    fn each_form() {
        let transfer = Transfer::parse(&["a", "b", "4", "0"]).unwrap();
        for (line, query) in [
            ("transfer a b 4 0", Query::Transfer(transfer)),
            ("balances", Query::Balances),
            ("chain 7", Query::Chain(7)),
            ("status", Query::Status),
        ] {
            assert_eq!(line.parse(), Ok(query));
        }
    }

    #[test]
    fn lines_of_no_client() {
        for line in [
            "",
            "balance",
            "chain",
            "chain -1",
            "transfer a b 4",
            "status 1",
        ] {
            assert!(line.parse::<Query>().is_err(), "{line:?}");
        }
    }
}
