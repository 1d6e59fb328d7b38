//! Certificates, their bytes and their signatures.

use sha2::{Digest as _, Sha256};

#[derive(Clone, Copy, PartialEq, Eq)]
pub struct Round {
    pub epoch: u64,
    pub view: u64,
}

#[derive(Clone, Copy, PartialEq, Eq)]
pub struct Proposal {
    pub round: Round,
    pub parent: u64,
    pub payload: [u8; 32],
}

#[derive(Clone, Copy)]
pub struct Attestation {
    pub signer: u32,
    pub signature: [u8; 32],
}

#[derive(Clone)]
pub struct Signed<T> {
    pub about: T,
    pub certificate: Vec<Attestation>,
}

#[derive(Clone)]
pub enum Certificate {
    Notarization(Signed<Proposal>),
    Nullification(Signed<Round>),
    Finalization(Signed<Proposal>),
}

#[derive(Clone, Copy, PartialEq, Eq)]
pub enum Subject {
    Notarize(Proposal),
    Nullify(Round),
    Finalize(Proposal),
}

#[derive(Debug, Clone, Copy)]
pub enum Cause {
    Short,
    Tag,
    LongNumber,
    Order,
    Rest,
}

// Read by its Debug alone.
#[allow(dead_code)]
#[derive(Debug, Clone, Copy)]
pub struct Fault {
    pub cause: Cause,
    pub place: usize,
}

// ---- writing

/// The most bytes that stand before the signatures, and that an attestation needs.
const ROOM: usize = 101;
const ATTESTATION_ROOM: usize = 37;

fn push_number(out: &mut Vec<u8>, mut number: u64) {
    while number >= 128 {
        out.push((number % 128) as u8 + 128);
        number /= 128;
    }
    out.push(number as u8);
}

fn push_round(out: &mut Vec<u8>, round: &Round) {
    push_number(out, round.epoch);
    push_number(out, round.view);
}

fn push_proposal(out: &mut Vec<u8>, proposal: &Proposal) {
    push_round(out, &proposal.round);
    push_number(out, proposal.parent);
    out.extend_from_slice(&proposal.payload);
}

fn push_signatures(out: &mut Vec<u8>, signatures: &[Attestation]) {
    out.reserve(signatures.len() * ATTESTATION_ROOM);
    push_number(out, signatures.len() as u64);
    for attestation in signatures {
        push_number(out, u64::from(attestation.signer));
        out.extend_from_slice(&attestation.signature);
    }
}

impl Certificate {
    pub fn encode(&self) -> Vec<u8> {
        let mut out = Vec::with_capacity(ROOM);
        match self {
            Certificate::Notarization(it) => {
                out.push(0);
                push_proposal(&mut out, &it.about);
                push_signatures(&mut out, &it.certificate);
            }
            Certificate::Nullification(it) => {
                out.push(1);
                push_round(&mut out, &it.about);
                push_signatures(&mut out, &it.certificate);
            }
            Certificate::Finalization(it) => {
                out.push(2);
                push_proposal(&mut out, &it.about);
                push_signatures(&mut out, &it.certificate);
            }
        }
        out
    }

    pub fn decode(bytes: &[u8]) -> Result<Certificate, Fault> {
        let mut reader = Reader {
            bytes,
            end: bytes.len(),
        };
        let unknown = reader.fault(Cause::Tag);
        let certificate = match reader.byte()? {
            0 => Certificate::Notarization(Signed {
                about: reader.proposal()?,
                certificate: reader.signatures()?,
            }),
            1 => Certificate::Nullification(Signed {
                about: reader.round()?,
                certificate: reader.signatures()?,
            }),
            2 => Certificate::Finalization(Signed {
                about: reader.proposal()?,
                certificate: reader.signatures()?,
            }),
            _ => return Err(unknown),
        };
        if !reader.bytes.is_empty() {
            return Err(reader.fault(Cause::Rest));
        }
        Ok(certificate)
    }

    pub fn view(&self) -> u64 {
        match self {
            Certificate::Notarization(it) => it.about.round.view,
            Certificate::Nullification(it) => it.about.view,
            Certificate::Finalization(it) => it.about.round.view,
        }
    }

    pub fn verify(&self, scheme: &Keyed) -> bool {
        match self {
            Certificate::Notarization(it) => {
                scheme.verify_certificate(&Subject::Notarize(it.about), &it.certificate)
            }
            Certificate::Nullification(it) => {
                scheme.verify_certificate(&Subject::Nullify(it.about), &it.certificate)
            }
            Certificate::Finalization(it) => {
                scheme.verify_certificate(&Subject::Finalize(it.about), &it.certificate)
            }
        }
    }
}

// ---- reading

struct Reader<'a> {
    bytes: &'a [u8],
    end: usize,
}

impl<'a> Reader<'a> {
    fn fault(&self, cause: Cause) -> Fault {
        Fault {
            cause,
            place: self.end - self.bytes.len(),
        }
    }

    fn byte(&mut self) -> Result<u8, Fault> {
        let [first, rest @ ..] = self.bytes else {
            return Err(self.fault(Cause::Short));
        };
        self.bytes = rest;
        Ok(*first)
    }

    fn number(&mut self, most: u64) -> Result<u64, Fault> {
        let short = self.fault(Cause::Short);
        let long = self.fault(Cause::LongNumber);
        let mut number = 0;
        let mut shift = 0;
        loop {
            let [byte, rest @ ..] = self.bytes else {
                return Err(short);
            };
            self.bytes = rest;
            let left = most >> shift;
            let low = u64::from(byte & 127);
            if *byte < 128 {
                if left < low || (low == 0 && shift > 0) {
                    return Err(long);
                }
                return Ok(number | low << shift);
            }
            if left < 128 {
                return Err(long);
            }
            number |= low << shift;
            shift += 7;
        }
    }

    fn bytes32(&mut self) -> Result<&'a [u8; 32], Fault> {
        let Some((front, rest)) = self.bytes.split_first_chunk() else {
            return Err(self.fault(Cause::Short));
        };
        self.bytes = rest;
        Ok(front)
    }

    fn round(&mut self) -> Result<Round, Fault> {
        Ok(Round {
            epoch: self.number(u64::MAX)?,
            view: self.number(u64::MAX)?,
        })
    }

    fn proposal(&mut self) -> Result<Proposal, Fault> {
        Ok(Proposal {
            round: self.round()?,
            parent: self.number(u64::MAX)?,
            payload: *self.bytes32()?,
        })
    }

    fn signatures(&mut self) -> Result<Vec<Attestation>, Fault> {
        let count = self.number(u64::from(u32::MAX))?;
        let mut signatures = Vec::new();
        let mut least = 0;
        for _ in 0..count {
            let misplaced = self.fault(Cause::Order);
            let signer = self.number(u64::from(u32::MAX))? as u32;
            if u64::from(signer) < least {
                return Err(misplaced);
            }
            least = u64::from(signer) + 1;
            signatures.push(Attestation {
                signer,
                signature: *self.bytes32()?,
            });
        }
        Ok(signatures)
    }
}

// ---- signing

pub struct Keyed {
    keys: Vec<[u8; 32]>,
}

fn absorb_number(hasher: &mut Sha256, mut number: u64) {
    while number >= 128 {
        hasher.update([(number % 128) as u8 + 128]);
        number /= 128;
    }
    hasher.update([number as u8]);
}

fn absorb_round(hasher: &mut Sha256, round: &Round) {
    absorb_number(hasher, round.epoch);
    absorb_number(hasher, round.view);
}

fn absorb_proposal(hasher: &mut Sha256, proposal: &Proposal) {
    absorb_round(hasher, &proposal.round);
    absorb_number(hasher, proposal.parent);
    hasher.update(proposal.payload);
}

impl Keyed {
    pub fn new(base: u64, members: u32) -> Keyed {
        let key = |member: u32| {
            let mut hasher = Sha256::new();
            hasher.update(b"key");
            hasher.update(base.to_be_bytes());
            hasher.update(member.to_be_bytes());
            hasher.finalize().into()
        };
        Keyed {
            keys: (0..members).map(key).collect(),
        }
    }

    pub fn signature(&self, member: u32, subject: &Subject) -> [u8; 32] {
        let mut hasher = Sha256::new();
        hasher.update(self.keys[member as usize]);
        hasher.update(b"simplex");
        match subject {
            Subject::Notarize(proposal) => {
                hasher.update([0]);
                absorb_proposal(&mut hasher, proposal);
            }
            Subject::Nullify(round) => {
                hasher.update([1]);
                absorb_round(&mut hasher, round);
            }
            Subject::Finalize(proposal) => {
                hasher.update([2]);
                absorb_proposal(&mut hasher, proposal);
            }
        }
        hasher.finalize().into()
    }

    fn verify_certificate(&self, subject: &Subject, certificate: &[Attestation]) -> bool {
        let n = self.keys.len();
        certificate.len() >= n - (n - 1) / 3
            && certificate.iter().all(|a| {
                (a.signer as usize) < n && a.signature == self.signature(a.signer, subject)
            })
    }
}
