//! Blocks: what a payload is here. A digest names a block.

use crate::effect::{Parent, View};
use crate::error::{number, Malformed};
use crate::json::Value;
use std::fmt;

type Result<T> = std::result::Result<T, Malformed>;

pub const MOST_BYTES: usize = 1 << 18;

/// So much from one account to another. Each account numbers what it sends, from 0, so that nothing is done twice.
#[derive(Clone, Debug, Eq, PartialEq)]
pub struct Transfer {
    pub sender: String,
    pub receiver: String,
    pub amount: u64,
    pub number: u64,
}

impl Transfer {
    pub fn parse(words: &[&str]) -> Result<Transfer> {
        let is_name = |name: &str| !name.is_empty() && name.chars().all(char::is_alphanumeric);
        match *words {
            [sender, receiver, amount, place] if is_name(sender) && is_name(receiver) => {
                Ok(Transfer {
                    sender: sender.to_owned(),
                    receiver: receiver.to_owned(),
                    amount: number(amount)?,
                    number: number(place)?,
                })
            }
            _ => Err(Malformed("a transfer")),
        }
    }

    fn of(value: &Value) -> Result<Transfer> {
        match value.as_list() {
            Some([Value::Text(sender), Value::Text(receiver), amount, number]) => Ok(Transfer {
                sender: sender.clone(),
                receiver: receiver.clone(),
                amount: number_of(amount)?,
                number: number_of(number)?,
            }),
            _ => Err(Malformed("a transfer")),
        }
    }
}

/// The four words of it.
impl fmt::Display for Transfer {
    fn fmt(&self, out: &mut fmt::Formatter) -> fmt::Result {
        let Transfer {
            sender,
            receiver,
            amount,
            number,
        } = self;
        write!(out, "{sender} {receiver} {amount} {number}")
    }
}

impl From<&Transfer> for Value {
    fn from(it: &Transfer) -> Value {
        Value::List(vec![
            Value::text(&it.sender),
            Value::text(&it.receiver),
            it.amount.into(),
            it.number.into(),
        ])
    }
}

/// The transfers of a view, after those of its parent.
#[derive(Clone, Debug, Eq, PartialEq)]
pub struct Block {
    pub view: View,
    pub parent: Parent,
    pub transfers: Vec<Transfer>,
}

impl Block {
    pub fn encode(&self) -> Vec<u8> {
        let value = Value::List(vec![
            self.view.into(),
            self.parent.view.into(),
            Value::text(self.parent.payload),
            self.transfers.iter().collect(),
        ]);
        value.to_string().into_bytes()
    }

    /// The block of these bytes, where they are the one spelling of a block.
    pub fn decode(bytes: &[u8]) -> Result<Block> {
        const MALFORMED: Malformed = Malformed("a block");
        if bytes.len() > MOST_BYTES {
            return Err(MALFORMED);
        }
        let text = std::str::from_utf8(bytes).map_err(|_| MALFORMED)?;
        let value = Value::parse(text)?;
        let Some([view, parent_view, Value::Text(parent), Value::List(transfers)]) =
            value.as_list()
        else {
            return Err(MALFORMED);
        };
        let block = Block {
            view: number_of(view)?,
            parent: Parent {
                view: number_of(parent_view)?,
                payload: parent.parse()?,
            },
            transfers: transfers.iter().map(Transfer::of).collect::<Result<_>>()?,
        };
        if value.to_string().as_bytes() == bytes {
            Ok(block)
        } else {
            Err(MALFORMED)
        }
    }
}

fn number_of(value: &Value) -> Result<u64> {
    match value.as_number() {
        Some(number) if number < 1 << 63 => Ok(number),
        _ => Err(Malformed("a number")),
    }
}

#[cfg(test)]
mod tests {
    #![allow(clippy::unwrap_used)]
    use super::*;
    use crate::digest::Digest;

    fn block() -> Block {
        Block {
            view: 3,
            parent: Parent {
                view: 1,
                payload: Digest::genesis(0),
            },
            transfers: vec![Transfer::parse(&["a", "b", "4", "0"]).unwrap()],
        }
    }

    #[test]
    fn bytes_and_back() {
        let bytes = block().encode();
        assert_eq!(Block::decode(&bytes), Ok(block()));
        // The spelling of hosts/python/blocks.py, so that both name a block by the same digest.
        let genesis = Digest::genesis(0);
        let spelled = format!(r#"[3,1,"{genesis}",[["a","b",4,0]]]"#);
        assert_eq!(bytes, spelled.as_bytes());
    }

    #[test]
    fn bytes_that_are_no_block() {
        let genesis = Digest::genesis(0);
        for text in [
            String::new(),
            "[]".to_owned(),
            "[1,0,\"\",[]]".to_owned(),
            "[".repeat(5000),
            format!("[1, 0,\"{genesis}\",[]]"),
            format!("[-1,0,\"{genesis}\",[]]"),
            format!("[true,0,\"{genesis}\",[]]"),
            format!("[1,0,\"{genesis}\",[[]]]"),
            format!("[9223372036854775808,0,\"{genesis}\",[]]"),
            format!("[1,0,\"{genesis}\",[]] "),
        ] {
            assert!(Block::decode(text.as_bytes()).is_err(), "{text:?}");
        }
    }

    #[test]
    fn words_that_are_no_transfer() {
        for words in ["a b 1", "a b -1 0", "a b x 0", "a- b 1 0", "a b 1 0 0"] {
            let words: Vec<&str> = words.split(' ').collect();
            assert!(Transfer::parse(&words).is_err(), "{words:?}");
        }
    }
}
