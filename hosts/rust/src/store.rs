//! Blocks in one file that only grows: a line `block JSON` each, and `final VIEW DIGEST` where one was applied.
//!
//! A member keeps a block before it votes for it, so what is final can be had from a quorum. A thread writes and syncs, so that the
//! member's loop never waits for the disk, and blocks that come together have one sync. A line `final` is not synced for itself: the
//! member says `final` again after a restart.

use crate::block::Block;
use crate::digest::Digest;
use crate::effect::Parent;
use crate::error::{number, During, Malformed, Result};
use std::collections::{HashMap, VecDeque};
use std::fs::{File, OpenOptions};
use std::io::{BufRead, BufReader, Write};
use std::os::unix::fs::FileExt;
use std::path::Path;
use std::sync::atomic::{AtomicU64, Ordering};
use std::sync::mpsc::{self, Receiver, Sender};
use std::sync::Arc;
use std::thread;

/// Blocks that stay in memory; older ones are read again.
const MOST_RECENT: usize = 256;
/// Blocks that wait for the disk.
const MOST_UNKEPT: usize = 1000;

pub struct BlockStore {
    file: Arc<File>,
    end: u64,
    places: HashMap<Digest, Place>,
    recent: HashMap<Digest, Arc<Stored>>,
    order: VecDeque<Digest>,
    unkept: usize,
    keeper: Sender<Record>,
    syncs: Arc<AtomicU64>,
}

/// A block and its bytes.
#[derive(Debug, Eq, PartialEq)]
pub struct Stored {
    pub block: Block,
    pub bytes: Vec<u8>,
}

#[derive(Clone, Copy)]
struct Place {
    start: u64,
    length: usize,
    is_kept: bool,
}

struct Record {
    line: Vec<u8>,
    /// The block that is kept once the line is synced.
    block: Option<Digest>,
}

/// What the thread that writes tells.
#[derive(Debug)]
pub enum Kept {
    /// These blocks outlast a power loss.
    Blocks(Vec<Digest>),
    Failed(std::io::Error),
}

/// Why the chain from a block down to another one cannot be told.
#[derive(Clone, Copy, Debug, Eq, PartialEq)]
pub enum Gap {
    Missing(Digest),
    /// It does not lead there.
    OtherChain,
}

impl BlockStore {
    /// Opens the file, and says which block was the last one that was applied. `tell` hears what was kept, on another thread.
    pub fn open(
        path: &Path,
        tell: impl Fn(Kept) + Send + 'static,
    ) -> Result<(BlockStore, Option<Parent>)> {
        let name = path.display();
        let file = OpenOptions::new()
            .read(true)
            .append(true)
            .create(true)
            .open(path)
            .during(&name)?;
        let (keeper, records) = mpsc::channel();
        let syncs = Arc::new(AtomicU64::new(0));
        let file = Arc::new(file);
        let mut store = BlockStore {
            file: Arc::clone(&file),
            end: 0,
            places: HashMap::new(),
            recent: HashMap::new(),
            order: VecDeque::new(),
            unkept: 0,
            keeper,
            syncs: Arc::clone(&syncs),
        };
        let head = store.read().during(&name)?;
        // What a crash cut short, and all after it, was never voted for.
        file.set_len(store.end).during(&name)?;
        // A life before may have ended ahead of its last sync; and the file's name has to last too.
        file.sync_all().during(&name)?;
        if let Some(folder) = path.parent() {
            File::open(folder)
                .and_then(|folder| folder.sync_all())
                .during(folder.display())?;
        }
        thread::spawn(move || keep(&file, &records, &syncs, tell));
        Ok((store, head))
    }

    fn read(&mut self) -> std::io::Result<Option<Parent>> {
        let mut input = BufReader::new(File::try_clone(&self.file)?);
        let mut head = None;
        let mut line = Vec::new();
        loop {
            line.clear();
            let length = input.read_until(b'\n', &mut line)? as u64;
            if line.pop() != Some(b'\n') {
                return Ok(head);
            }
            match Line::parse(&line) {
                Ok(Line::Block(stored)) => {
                    self.note(stored, true);
                }
                Ok(Line::Final(found)) => head = Some(found),
                Err(_) => return Ok(head),
            }
            self.end += length;
        }
    }

    fn note(&mut self, stored: Stored, is_kept: bool) -> Digest {
        let digest = Digest::of(&stored.bytes);
        let place = Place {
            start: self.end + BLOCK.len() as u64,
            length: stored.bytes.len(),
            is_kept,
        };
        self.places.insert(digest, place);
        self.remember(digest, Arc::new(stored));
        digest
    }

    fn remember(&mut self, digest: Digest, stored: Arc<Stored>) {
        if self.recent.insert(digest, stored).is_none() {
            self.order.push_back(digest);
            if self.order.len() > MOST_RECENT {
                if let Some(oldest) = self.order.pop_front() {
                    self.recent.remove(&oldest);
                }
            }
        }
    }

    pub fn has(&self, digest: Digest) -> bool {
        self.places.contains_key(&digest)
    }

    /// Whether the block outlasts a power loss.
    pub fn is_kept(&self, digest: Digest) -> bool {
        self.places.get(&digest).is_some_and(|place| place.is_kept)
    }

    pub fn mark_kept(&mut self, digest: Digest) {
        if let Some(place) = self.places.get_mut(&digest) {
            place.is_kept = true;
            self.unkept = self.unkept.saturating_sub(1);
        }
    }

    /// Whether so many blocks wait for the disk that those of peers should be left out.
    pub fn is_busy(&self) -> bool {
        self.unkept >= MOST_UNKEPT
    }

    pub fn get(&mut self, digest: Digest) -> Option<Arc<Stored>> {
        if let Some(stored) = self.recent.get(&digest) {
            return Some(Arc::clone(stored));
        }
        let place = self.places.get(&digest)?;
        let mut bytes = vec![0; place.length];
        self.file.read_exact_at(&mut bytes, place.start).ok()?;
        let block = Block::decode(&bytes).ok()?;
        let stored = Arc::new(Stored { block, bytes });
        self.remember(digest, Arc::clone(&stored));
        Some(stored)
    }

    /// Takes a block in. It is kept once the thread that writes has told so.
    pub fn add(&mut self, bytes: Vec<u8>) -> std::result::Result<Digest, Malformed> {
        let digest = Digest::of(&bytes);
        if self.has(digest) {
            return Ok(digest);
        }
        let block = Block::decode(&bytes)?;
        let line = [BLOCK, &bytes, b"\n"].concat();
        let length = line.len() as u64;
        self.note(Stored { block, bytes }, false);
        self.unkept += 1;
        self.write(line, Some(digest));
        self.end += length;
        Ok(digest)
    }

    /// Notes that this block was applied.
    pub fn note_final(&mut self, head: Parent) {
        let line = format!("final {} {}\n", head.view, head.payload).into_bytes();
        self.end += line.len() as u64;
        self.write(line, None);
    }

    fn write(&self, line: Vec<u8>, block: Option<Digest>) {
        // The thread ends only after it told that a write failed.
        let _ = self.keeper.send(Record { line, block });
    }

    /// The blocks after `base` up to `tip`, the oldest first.
    pub fn path(
        &mut self,
        tip: Parent,
        base: Parent,
    ) -> std::result::Result<Vec<(Digest, Arc<Stored>)>, Gap> {
        let mut found = Vec::new();
        let mut at = tip;
        while at != base {
            if at.view <= base.view {
                return Err(Gap::OtherChain);
            }
            let stored = self.get(at.payload).ok_or(Gap::Missing(at.payload))?;
            let Block { view, parent, .. } = stored.block;
            if view != at.view || parent.view >= view {
                return Err(Gap::OtherChain);
            }
            found.push((at.payload, stored));
            at = parent;
        }
        found.reverse();
        Ok(found)
    }

    /// How often the file was synced in this life.
    pub fn syncs(&self) -> u64 {
        self.syncs.load(Ordering::Relaxed)
    }
}

/// Writes what comes, all that waits at once, and syncs where a block is among it.
fn keep(mut file: &File, records: &Receiver<Record>, syncs: &AtomicU64, tell: impl Fn(Kept)) {
    while let Ok(first) = records.recv() {
        let mut lines = Vec::new();
        let mut blocks = Vec::new();
        for record in std::iter::once(first).chain(records.try_iter()) {
            lines.extend(record.line);
            blocks.extend(record.block);
        }
        let mut done = file.write_all(&lines);
        if !blocks.is_empty() {
            done = done.and_then(|()| file.sync_data());
            syncs.fetch_add(1, Ordering::Relaxed);
        }
        match done {
            Ok(()) if blocks.is_empty() => {}
            Ok(()) => tell(Kept::Blocks(blocks)),
            Err(why) => {
                tell(Kept::Failed(why));
                return;
            }
        }
    }
}

const BLOCK: &[u8] = b"block ";

enum Line {
    Block(Stored),
    Final(Parent),
}

impl Line {
    fn parse(line: &[u8]) -> std::result::Result<Line, Malformed> {
        if let Some(bytes) = line.strip_prefix(BLOCK) {
            let block = Block::decode(bytes)?;
            let bytes = bytes.to_vec();
            return Ok(Line::Block(Stored { block, bytes }));
        }
        let text = std::str::from_utf8(line).map_err(|_| Malformed("a line of a store"))?;
        match text.split(' ').collect::<Vec<_>>()[..] {
            ["final", view, payload] => Ok(Line::Final(Parent {
                view: number(view)?,
                payload: payload.parse()?,
            })),
            _ => Err(Malformed("a line of a store")),
        }
    }
}

#[cfg(test)]
mod tests {
    #![allow(clippy::unwrap_used)]
    use super::*;
    use crate::effect::View;
    use crate::testing::Room;
    use std::time::Duration;

    fn block(view: View, parent: Parent) -> Block {
        Block {
            view,
            parent,
            transfers: Vec::new(),
        }
    }

    fn genesis() -> Parent {
        Parent {
            view: 0,
            payload: Digest::genesis(0),
        }
    }

    fn open(path: &Path) -> (BlockStore, Option<Parent>, Receiver<Kept>) {
        let (told, hear) = mpsc::channel();
        let (store, head) = BlockStore::open(path, move |kept| {
            let _ = told.send(kept);
        })
        .unwrap();
        (store, head, hear)
    }

    fn wait_for(digest: Digest, hear: &Receiver<Kept>) {
        loop {
            match hear.recv_timeout(Duration::from_secs(10)).unwrap() {
                Kept::Blocks(digests) if digests.contains(&digest) => return,
                Kept::Blocks(_) => {}
                Kept::Failed(why) => panic!("{why}"),
            }
        }
    }

    #[test]
    fn blocks_outlast_a_restart_and_what_was_cut_short_does_not() {
        let room = Room::new("store");
        let path = room.path().join("blocks");
        let (mut store, head, hear) = open(&path);
        assert_eq!(head, None);
        let digest = store.add(block(1, genesis()).encode()).unwrap();
        assert!(store.has(digest) && !store.is_kept(digest));
        wait_for(digest, &hear);
        store.mark_kept(digest);
        assert!(store.is_kept(digest));
        let first = Parent {
            view: 1,
            payload: digest,
        };
        store.note_final(first);
        let next = store.add(block(2, first).encode()).unwrap();
        wait_for(next, &hear);
        assert_eq!(store.syncs(), 2);
        drop(store);
        let mut file = OpenOptions::new().append(true).open(&path).unwrap();
        file.write_all(b"block [3,2,\"").unwrap();
        let (mut again, head, hear) = open(&path);
        assert_eq!(head, Some(first));
        assert!(again.is_kept(digest) && again.is_kept(next));
        let last = again.add(block(3, first).encode()).unwrap();
        wait_for(last, &hear);
        let (mut third, ..) = open(&path);
        assert_eq!(third.get(last).unwrap().block, block(3, first));
    }

    #[test]
    fn older_blocks_are_read_again() {
        let room = Room::new("recent");
        let (mut store, _, hear) = open(&room.path().join("blocks"));
        let first = store.add(block(1, genesis()).encode()).unwrap();
        let mut last = first;
        for view in 2..=MOST_RECENT as u64 + 1 {
            last = store.add(block(view, genesis()).encode()).unwrap();
        }
        wait_for(last, &hear);
        assert!(!store.recent.contains_key(&first));
        assert_eq!(store.get(first).unwrap().block, block(1, genesis()));
        assert_eq!(store.recent.len(), MOST_RECENT);
    }

    #[test]
    fn paths_and_their_gaps() {
        let room = Room::new("paths");
        let (mut store, _, _hear) = open(&room.path().join("blocks"));
        let parent = |view, block: &Block| Parent {
            view,
            payload: Digest::of(&block.encode()),
        };
        let one = block(1, genesis());
        let two = block(2, parent(1, &one));
        let tip = parent(2, &two);
        store.add(two.encode()).unwrap();
        let missing = Digest::of(&one.encode());
        assert_eq!(store.path(tip, genesis()), Err(Gap::Missing(missing)));
        store.add(one.encode()).unwrap();
        let path = store.path(tip, genesis()).unwrap();
        let views: Vec<View> = path.iter().map(|(_, it)| it.block.view).collect();
        assert_eq!(views, [1, 2]);
        let other = block(1, parent(0, &two));
        assert_eq!(store.path(tip, parent(1, &other)), Err(Gap::OtherChain));
    }
}
