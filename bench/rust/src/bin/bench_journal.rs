//! The same work as `bench journal`, in plain Rust: a journal in segment files, over a disk in memory.
//! `bench_journal WORK SIZE TIMES`, where WORK is `sections`, `replays` or `all`.

use std::collections::BTreeMap;

// The disk answers as one that may fail does; this one is told no calls to fail.
#[allow(dead_code)]
#[derive(Debug)]
enum DiskError {
    Failed,
}

#[derive(Default)]
struct Disk {
    files: BTreeMap<u64, Vec<u8>>,
    made: u64,
    failing: Vec<u64>,
}

impl Disk {
    fn obey(&mut self) -> Result<(), DiskError> {
        self.made += 1;
        if self.failing.contains(&self.made) {
            return Err(DiskError::Failed);
        }
        Ok(())
    }

    fn read(&mut self, file: u64) -> Result<Vec<u8>, DiskError> {
        self.obey()?;
        Ok(self.files.get(&file).cloned().unwrap_or_default())
    }

    fn files(&mut self) -> Result<Vec<u64>, DiskError> {
        self.obey()?;
        Ok(self.files.keys().copied().collect())
    }

    fn write_at(&mut self, file: u64, place: usize, bytes: &[u8]) -> Result<(), DiskError> {
        self.obey()?;
        let old = self.files.entry(file).or_default();
        let over = bytes.len().min(old.len() - place);
        old.extend_from_slice(&bytes[over..]);
        old[place..place + over].copy_from_slice(&bytes[..over]);
        Ok(())
    }

    fn cut(&mut self, file: u64, len: usize) -> Result<(), DiskError> {
        self.obey()?;
        if let Some(bytes) = self.files.get_mut(&file) {
            bytes.truncate(len);
        }
        Ok(())
    }

    fn sync(&mut self, _file: u64) -> Result<(), DiskError> {
        self.obey()
    }

    fn remove(&mut self, file: u64) -> Result<(), DiskError> {
        self.obey()?;
        self.files.remove(&file);
        Ok(())
    }
}

#[derive(Clone, Copy, PartialEq, Debug)]
struct Record {
    epoch: u64,
    view: u64,
    certified: bool,
}

const CERTIFICATION: u8 = 2;

fn push_number(out: &mut Vec<u8>, mut number: u64) {
    while number >= 128 {
        out.push((number % 128) as u8 + 128);
        number /= 128;
    }
    out.push(number as u8);
}

fn take_number(bytes: &[u8]) -> Option<(u64, &[u8])> {
    let (byte, rest) = bytes.split_first()?;
    if *byte < 128 {
        return Some((u64::from(*byte), rest));
    }
    let (high, rest) = take_number(rest)?;
    if high == 0 || high > u64::MAX / 128 {
        return None;
    }
    Some((u64::from(*byte - 128) + 128 * high, rest))
}

impl Record {
    fn encode(&self) -> Vec<u8> {
        let mut out = vec![CERTIFICATION];
        push_number(&mut out, self.epoch);
        push_number(&mut out, self.view);
        out.push(u8::from(self.certified));
        out
    }

    fn decode(bytes: &[u8]) -> Option<Record> {
        let (kind, rest) = bytes.split_first()?;
        if *kind != CERTIFICATION {
            return None;
        }
        let (epoch, rest) = take_number(rest)?;
        let (view, rest) = take_number(rest)?;
        match rest {
            [0] => Some(Record { epoch, view, certified: false }),
            [1] => Some(Record { epoch, view, certified: true }),
            _ => None,
        }
    }
}

struct Segment {
    end: usize,
    synced: u64,
    gates: Vec<usize>,
}

#[derive(Default)]
struct Journal {
    disk: Disk,
    index: BTreeMap<u64, Segment>,
}

impl Journal {
    fn append(&mut self, section: u64, record: &Record) -> Result<(), DiskError> {
        let encoded = record.encode();
        let mut bytes = Vec::new();
        push_number(&mut bytes, encoded.len() as u64);
        bytes.extend_from_slice(&encoded);
        bytes.push(0);
        if !self.index.contains_key(&section) {
            self.disk.cut(section, 0)?;
            self.disk.sync(section)?;
            self.disk.write_at(section, 0, &[0])?;
            self.disk.sync(section)?;
            self.index.insert(section, Segment { end: 1, synced: 0, gates: Vec::new() });
        }
        let segment = self.index.get_mut(&section).expect("it was made");
        self.disk.write_at(section, segment.end, &bytes)?;
        segment.gates.push(segment.end - 1);
        segment.end += bytes.len();
        Ok(())
    }

    fn sync(&mut self, section: u64) -> Result<(), DiskError> {
        let Some(segment) = self.index.get_mut(&section) else {
            return self.disk.sync(section);
        };
        self.disk.sync(section)?;
        for gate in &segment.gates {
            self.disk.write_at(section, *gate, &[1])?;
        }
        self.disk.sync(section)?;
        segment.synced += segment.gates.len() as u64;
        segment.gates.clear();
        Ok(())
    }

    fn prune(&mut self, least: u64) -> Result<(), DiskError> {
        self.disk.files()?;
        while let Some(entry) = self.index.first_entry() {
            if *entry.key() >= least {
                break;
            }
            let file = *entry.key();
            entry.remove();
            self.disk.remove(file)?;
            self.disk.sync(file)?;
        }
        Ok(())
    }

    fn replay(&mut self) -> Result<Vec<Record>, DiskError> {
        self.disk.files()?;
        let mut records = Vec::new();
        for (file, segment) in &self.index {
            let bytes = self.disk.read(*file)?;
            let mut rest = bytes.as_slice();
            for _ in 0..segment.synced + segment.gates.len() as u64 {
                let Some((len, behind)) = rest.get(1..).and_then(take_number) else {
                    break;
                };
                let Some(record) = behind.get(..len as usize).and_then(Record::decode) else {
                    break;
                };
                records.push(record);
                rest = &behind[len as usize..];
            }
        }
        Ok(records)
    }
}

fn fill(journal: &mut Journal, section: u64, size: u32) -> Result<(), DiskError> {
    for view in 0..size {
        journal.append(section, &Record { epoch: 0, view: u64::from(view), certified: true })?;
    }
    journal.sync(section)
}

fn sections(size: u32, times: u32) -> Result<u64, DiskError> {
    let mut journal = Journal::default();
    for section in 0..u64::from(times) {
        fill(&mut journal, section, size)?;
        journal.prune(section.saturating_sub(1))?;
    }
    Ok(journal.replay()?.len() as u64)
}

fn replays(size: u32, times: u32) -> Result<u64, DiskError> {
    let mut journal = Journal::default();
    fill(&mut journal, 1, size)?;
    let mut read = 0;
    for _ in 0..times {
        read += journal.replay()?.len() as u64;
    }
    Ok(read)
}

fn main() {
    let words: Vec<String> = std::env::args().collect();
    let [_, work, size, times] = words.as_slice() else {
        panic!("bench_journal WORK SIZE TIMES");
    };
    let (size, times): (u32, u32) = (size.parse().unwrap(), times.parse().unwrap());
    if work == "sections" || work == "all" {
        println!("journal sections {size} {times} {}", sections(size, times).unwrap());
    }
    if work == "replays" || work == "all" {
        println!("journal replays {size} {times} {}", replays(size, times).unwrap());
    }
}
