//! The lines that a member writes (docs/NODE.md, "Lines out").

use crate::digest::Digest;
use crate::error::{number, Malformed};
use crate::hex::Hex;
use std::fmt;
use std::str::FromStr;

type Result<T> = std::result::Result<T, Malformed>;

pub type View = u64;
pub type Request = u64;
/// The place of a member in the setup.
pub type Seat = usize;

#[derive(Clone, Debug, Eq, PartialEq)]
pub enum Effect {
    Send {
        channel: Channel,
        to: Recipients,
        bytes: Hex,
    },
    Relay {
        payload: Digest,
        view: View,
        to: Recipients,
    },
    Ask(Request, Question),
    Drop(Request),
    Final {
        view: View,
        payload: Digest,
        certificate: Hex,
    },
    Evidence {
        kind: String,
        signer: Seat,
        view: View,
    },
    Block {
        member: Seat,
        cause: String,
    },
    Ready {
        view: View,
        deadline: Option<u64>,
    },
    Error {
        line: u64,
        reason: String,
    },
}

#[derive(Clone, Copy, Debug, Eq, PartialEq)]
pub enum Channel {
    Vote,
    Certificate,
    Resolver,
}

#[derive(Clone, Debug, Eq, PartialEq)]
pub enum Recipients {
    /// All others.
    All,
    Some(Vec<Seat>),
}

/// What the application is asked.
#[derive(Clone, Debug, Eq, PartialEq)]
pub enum Question {
    /// A payload for the view; `is_ahead` where it is for later (`prepare`).
    Propose {
        view: View,
        parent: Parent,
        is_ahead: bool,
    },
    Verify {
        view: View,
        parent: Parent,
        payload: Digest,
    },
    Certify {
        payload: Digest,
    },
}

#[derive(Clone, Copy, Debug, Eq, PartialEq)]
pub struct Parent {
    pub view: View,
    pub payload: Digest,
}

impl Recipients {
    pub fn has(&self, seat: Seat) -> bool {
        match self {
            Recipients::All => true,
            Recipients::Some(seats) => seats.contains(&seat),
        }
    }
}

impl FromStr for Recipients {
    type Err = Malformed;

    fn from_str(word: &str) -> Result<Recipients> {
        if word == "all" {
            return Ok(Recipients::All);
        }
        let seats = word.split(',').map(seat).collect::<Result<_>>()?;
        Ok(Recipients::Some(seats))
    }
}

impl FromStr for Channel {
    type Err = Malformed;

    fn from_str(word: &str) -> Result<Channel> {
        match word {
            "vote" => Ok(Channel::Vote),
            "certificate" => Ok(Channel::Certificate),
            "resolver" => Ok(Channel::Resolver),
            _ => Err(Malformed("a channel")),
        }
    }
}

impl fmt::Display for Channel {
    fn fmt(&self, out: &mut fmt::Formatter) -> fmt::Result {
        out.write_str(match self {
            Channel::Vote => "vote",
            Channel::Certificate => "certificate",
            Channel::Resolver => "resolver",
        })
    }
}

pub fn seat(word: &str) -> Result<Seat> {
    usize::try_from(number(word)?).map_err(|_| Malformed("a member"))
}

impl FromStr for Effect {
    type Err = Malformed;

    fn from_str(line: &str) -> Result<Effect> {
        let words: Vec<&str> = line.split(' ').collect();
        Ok(match words[..] {
            ["send", channel, to, bytes] => Effect::Send {
                channel: channel.parse()?,
                to: to.parse()?,
                bytes: bytes.parse()?,
            },
            ["relay", payload, view, "propose" | "prepare"] => Effect::Relay {
                payload: payload.parse()?,
                view: number(view)?,
                to: Recipients::All,
            },
            ["relay", payload, view, "forward", to] => Effect::Relay {
                payload: payload.parse()?,
                view: number(view)?,
                to: to.parse()?,
            },
            ["ask", request, ref question @ ..] => {
                Effect::Ask(number(request)?, question_of(question)?)
            }
            ["drop", request] => Effect::Drop(number(request)?),
            ["final", view, payload, certificate] => Effect::Final {
                view: number(view)?,
                payload: payload.parse()?,
                certificate: certificate.parse()?,
            },
            ["evidence", kind, signer, view] => Effect::Evidence {
                kind: kind.to_owned(),
                signer: seat(signer)?,
                view: number(view)?,
            },
            ["block", member, cause] => Effect::Block {
                member: seat(member)?,
                cause: cause.to_owned(),
            },
            ["ready", view] => Effect::Ready {
                view: number(view)?,
                deadline: None,
            },
            ["ready", view, deadline] => Effect::Ready {
                view: number(view)?,
                deadline: Some(number(deadline)?),
            },
            ["error", line, ref reason @ ..] if !reason.is_empty() => Effect::Error {
                line: number(line)?,
                reason: reason.join(" "),
            },
            _ => return Err(Malformed("a line of a member")),
        })
    }
}

fn question_of(words: &[&str]) -> Result<Question> {
    let parent = |view, payload: &str| -> Result<Parent> {
        Ok(Parent {
            view: number(view)?,
            payload: payload.parse()?,
        })
    };
    Ok(match *words {
        [kind @ ("propose" | "prepare"), view, leader, parent_view, payload] => {
            seat(leader)?;
            Question::Propose {
                view: number(view)?,
                parent: parent(parent_view, payload)?,
                is_ahead: kind == "prepare",
            }
        }
        ["verify", view, leader, parent_view, parent_payload, payload] => {
            seat(leader)?;
            Question::Verify {
                view: number(view)?,
                parent: parent(parent_view, parent_payload)?,
                payload: payload.parse()?,
            }
        }
        ["certify", view, payload] => {
            number(view)?;
            Question::Certify {
                payload: payload.parse()?,
            }
        }
        _ => return Err(Malformed("a request of a member")),
    })
}

#[cfg(test)]
mod tests {
    #![allow(clippy::unwrap_used)]
    use super::*;

    const A: &str = "aaaaaaaaaaaaaaaaaaaaaaaaaaaaaaaaaaaaaaaaaaaaaaaaaaaaaaaaaaaaaaaa";
    const B: &str = "bbbbbbbbbbbbbbbbbbbbbbbbbbbbbbbbbbbbbbbbbbbbbbbbbbbbbbbbbbbbbbbb";

    #[test]
    fn each_form() {
        let (a, b): (Digest, Digest) = (A.parse().unwrap(), B.parse().unwrap());
        let parent = Parent {
            view: 2,
            payload: a,
        };
        let relay = |to| Effect::Relay {
            payload: a,
            view: 3,
            to,
        };
        let propose = |is_ahead| Question::Propose {
            view: 3,
            parent,
            is_ahead,
        };
        let verify = Question::Verify {
            view: 3,
            parent,
            payload: b,
        };
        for (line, effect) in [
            (
                "send vote all 00ff".to_owned(),
                Effect::Send {
                    channel: Channel::Vote,
                    to: Recipients::All,
                    bytes: "00ff".parse().unwrap(),
                },
            ),
            (
                "send resolver 1 00".to_owned(),
                Effect::Send {
                    channel: Channel::Resolver,
                    to: Recipients::Some(vec![1]),
                    bytes: "00".parse().unwrap(),
                },
            ),
            (format!("relay {A} 3 propose"), relay(Recipients::All)),
            (format!("relay {A} 3 prepare"), relay(Recipients::All)),
            (
                format!("relay {A} 3 forward 1,2"),
                relay(Recipients::Some(vec![1, 2])),
            ),
            (
                format!("final 7 {A} bb"),
                Effect::Final {
                    view: 7,
                    payload: a,
                    certificate: "bb".parse().unwrap(),
                },
            ),
            (
                format!("ask 4 propose 3 1 2 {A}"),
                Effect::Ask(4, propose(false)),
            ),
            (
                format!("ask 4 prepare 3 1 2 {A}"),
                Effect::Ask(4, propose(true)),
            ),
            (
                format!("ask 4 verify 3 1 2 {A} {B}"),
                Effect::Ask(4, verify),
            ),
            (
                format!("ask 4 certify 3 {B}"),
                Effect::Ask(4, Question::Certify { payload: b }),
            ),
            ("drop 4".to_owned(), Effect::Drop(4)),
            (
                "evidence NullifyFinalize 2 9".to_owned(),
                Effect::Evidence {
                    kind: "NullifyFinalize".to_owned(),
                    signer: 2,
                    view: 9,
                },
            ),
            (
                "block 2 wrong-sender".to_owned(),
                Effect::Block {
                    member: 2,
                    cause: "wrong-sender".to_owned(),
                },
            ),
            (
                "ready 3".to_owned(),
                Effect::Ready {
                    view: 3,
                    deadline: None,
                },
            ),
            (
                "ready 3 1001".to_owned(),
                Effect::Ready {
                    view: 3,
                    deadline: Some(1001),
                },
            ),
            (
                "error 6 no such request is open".to_owned(),
                Effect::Error {
                    line: 6,
                    reason: "no such request is open".to_owned(),
                },
            ),
        ] {
            assert_eq!(line.parse(), Ok(effect), "{line}");
        }
    }

    #[test]
    fn lines_that_no_member_writes() {
        for line in [
            "",
            "ready",
            "ready x",
            "ready 3 ",
            "send vote all",
            "send mail all 00",
            "send vote 1,,2 00",
            "send vote all 0",
            "final 1 aa bb",
            "drop -1",
            "error 6",
            &format!("ask 0 verify 1 0 0 {A}"),
            &format!("relay {A} 3 forward"),
        ] {
            assert!(line.parse::<Effect>().is_err(), "{line:?}");
        }
    }

    #[test]
    fn the_stored_session() {
        let stored = concat!(
            env!("CARGO_MANIFEST_DIR"),
            "/../../crates/simplex_node_cli/stdout"
        );
        let session = std::fs::read_to_string(stored).unwrap();
        let said: Vec<Effect> = session.lines().map(|line| line.parse().unwrap()).collect();
        let finals: Vec<View> = said
            .iter()
            .filter_map(|effect| match effect {
                Effect::Final { view, .. } => Some(*view),
                _ => None,
            })
            .collect();
        assert_eq!(finals, [1, 2]);
        let first = said.iter().find_map(|effect| match effect {
            Effect::Ask(_, Question::Propose { parent, .. }) => Some(parent.payload),
            _ => None,
        });
        assert_eq!(first, Some(Digest::genesis(0)));
    }
}
