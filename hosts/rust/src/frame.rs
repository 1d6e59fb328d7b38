//! The lines between members: the same as in `hosts/python/peers.py`.

use crate::block::Transfer;
use crate::digest::Digest;
use crate::effect::{seat, Channel, Seat};
use crate::error::Malformed;
use crate::hex::Hex;
use std::fmt;
use std::io::{self, BufRead, Read};
use std::str::FromStr;

/// Of a line.
pub const MOST_BYTES: u64 = 1 << 20;

#[derive(Clone, Debug, Eq, PartialEq)]
pub enum Frame {
    /// The first line of a connection: who sends on it.
    Hello(Seat),
    Packet(Channel, Hex),
    /// The bytes of a block.
    Block(Hex),
    /// The sender lacks this block.
    Want(Digest),
    Transfer(Transfer),
}

impl FromStr for Frame {
    type Err = Malformed;

    fn from_str(line: &str) -> Result<Frame, Malformed> {
        let words: Vec<&str> = line.split(' ').collect();
        Ok(match words[..] {
            ["hello", member] => Frame::Hello(seat(member)?),
            ["packet", channel, bytes] => Frame::Packet(channel.parse()?, bytes.parse()?),
            ["block", bytes] => Frame::Block(bytes.parse()?),
            ["want", digest] => Frame::Want(digest.parse()?),
            ["transfer", ref words @ ..] => Frame::Transfer(Transfer::parse(words)?),
            _ => return Err(Malformed("a line of a peer")),
        })
    }
}

impl fmt::Display for Frame {
    fn fmt(&self, out: &mut fmt::Formatter) -> fmt::Result {
        match self {
            Frame::Hello(member) => write!(out, "hello {member}"),
            Frame::Packet(channel, bytes) => write!(out, "packet {channel} {bytes}"),
            Frame::Block(bytes) => write!(out, "block {bytes}"),
            Frame::Want(digest) => write!(out, "want {digest}"),
            Frame::Transfer(transfer) => write!(out, "transfer {transfer}"),
        }
    }
}

/// The next line, without its end; none where the input ended, in the middle of a line too. A line that is too long is an error.
pub fn read_line(input: &mut impl BufRead) -> io::Result<Option<String>> {
    let mut line = String::new();
    input.by_ref().take(MOST_BYTES).read_line(&mut line)?;
    if line.pop() == Some('\n') {
        Ok(Some(line))
    } else if line.len() as u64 >= MOST_BYTES - 1 {
        Err(io::Error::new(
            io::ErrorKind::InvalidData,
            "a line is too long",
        ))
    } else {
        Ok(None)
    }
}

#[cfg(test)]
mod tests {
    #![allow(clippy::unwrap_used)]
    use super::*;

    #[test]
    fn lines_and_back() {
        let digest = Digest::of(b"");
        for line in [
            "hello 3".to_owned(),
            "packet vote 00ff".to_owned(),
            "packet certificate 00".to_owned(),
            "packet resolver 00".to_owned(),
            "block 5b5d".to_owned(),
            format!("want {digest}"),
            "transfer a b 4 0".to_owned(),
        ] {
            assert_eq!(line.parse::<Frame>().unwrap().to_string(), line);
        }
    }

    #[test]
    fn lines_of_no_peer() {
        for line in [
            "",
            "hello",
            "hello x",
            "packet mail 00",
            "packet vote 0",
            "packet vote 00 ",
            "block",
            "want aa",
            "transfer a b 4",
        ] {
            assert!(line.parse::<Frame>().is_err(), "{line:?}");
        }
    }

    #[test]
    fn lines_of_a_stream() {
        let mut input: &[u8] = b"one\n\ntwo\nthr";
        let mut found = Vec::new();
        while let Some(line) = read_line(&mut input).unwrap() {
            found.push(line);
        }
        assert_eq!(found, ["one", "", "two"]);
        let long = vec![b'a'; 2 * MOST_BYTES as usize];
        assert!(read_line(&mut &long[..]).is_err());
    }
}
