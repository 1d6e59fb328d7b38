//! Frames between members over TCP: each pair of members has one connection a direction, and its first line names who sends.
//!
//! Who sends is what that line says: on 127.0.0.1 nobody else is there. Over a network a host must know it, by TLS with a certificate of
//! each member or the like: members judge each other by it.

use crate::effect::{Recipients, Seat};
use crate::error::{During, Result};
use crate::frame::{read_line, Frame};
use crate::queue::Shared;
use std::collections::HashMap;
use std::io::{self, BufReader, Read, Write};
use std::net::{Shutdown, TcpListener, TcpStream};
use std::sync::atomic::{AtomicBool, AtomicU64, Ordering};
use std::sync::{Arc, Mutex, PoisonError};
use std::thread;
use std::time::Duration;

/// Lines that wait for one peer.
const MOST_WAITING: usize = 2000;
const SHORTEST_PAUSE: Duration = Duration::from_millis(20);
const LONGEST_PAUSE: Duration = Duration::from_millis(500);

pub struct Peers {
    links: Vec<(Seat, Arc<Link>)>,
    bad_lines: Arc<AtomicU64>,
}

/// Lines to one peer. Where they are too many the oldest are lost: members send again what matters.
struct Link {
    me: Seat,
    address: String,
    lines: Shared<Arc<str>>,
    connects: AtomicU64,
}

impl Peers {
    /// Listens and connects. `hear` is called on other threads, with the member that sent a frame.
    pub fn start<F>(me: Seat, addresses: &[String], hear: F) -> Result<Peers>
    where
        F: Fn(Seat, Frame) + Clone + Send + 'static,
    {
        let listener = TcpListener::bind(&addresses[me]).during(&addresses[me])?;
        let bad_lines = Arc::new(AtomicU64::new(0));
        let receiver = Receiver {
            me,
            members: addresses.len(),
            connections: Arc::default(),
            bad_lines: Arc::clone(&bad_lines),
            hear,
        };
        thread::spawn(move || {
            for stream in listener.incoming().flatten() {
                let receiver = receiver.clone();
                thread::spawn(move || {
                    if receiver.receive(stream).is_err() {
                        receiver.bad_lines.fetch_add(1, Ordering::Relaxed);
                    }
                });
            }
        });
        let others = addresses.iter().enumerate().filter(|(seat, _)| *seat != me);
        let links: Vec<(Seat, Arc<Link>)> = others
            .map(|(seat, address)| (seat, Arc::new(Link::new(me, address))))
            .collect();
        for (_, link) in &links {
            let link = Arc::clone(link);
            thread::spawn(move || link.run());
        }
        Ok(Peers { links, bad_lines })
    }

    pub fn send(&self, frame: &Frame, to: &Recipients) {
        let line: Arc<str> = format!("{frame}\n").into();
        for (seat, link) in &self.links {
            if to.has(*seat) {
                link.lines.push(Arc::clone(&line));
            }
        }
    }

    pub fn lost(&self) -> u64 {
        self.links.iter().map(|(_, link)| link.lines.lost()).sum()
    }

    pub fn connects(&self) -> u64 {
        let connects = |link: &Link| link.connects.load(Ordering::Relaxed);
        self.links.iter().map(|(_, link)| connects(link)).sum()
    }

    pub fn bad_lines(&self) -> u64 {
        self.bad_lines.load(Ordering::Relaxed)
    }
}

impl Link {
    fn new(me: Seat, address: &str) -> Link {
        Link {
            me,
            address: address.to_owned(),
            lines: Shared::new(MOST_WAITING),
            connects: AtomicU64::new(0),
        }
    }

    /// Connects, again and again, and writes what waits.
    fn run(&self) {
        let mut pause = SHORTEST_PAUSE;
        loop {
            if let Ok(stream) = TcpStream::connect(&self.address) {
                self.connects.fetch_add(1, Ordering::Relaxed);
                pause = SHORTEST_PAUSE;
                // An error ends this connection, and the next one follows.
                let _ = self.write(stream);
            }
            thread::sleep(pause);
            pause = LONGEST_PAUSE.min(2 * pause);
        }
    }

    fn write(&self, mut stream: TcpStream) -> io::Result<()> {
        stream.set_nodelay(true)?;
        writeln!(stream, "{}", Frame::Hello(self.me))?;
        let is_closed = AtomicBool::new(false);
        let mut reading = stream.try_clone()?;
        thread::scope(|scope| {
            scope.spawn(|| {
                // The peer writes nothing here: only its end comes.
                let _ = reading.read(&mut [0]);
                is_closed.store(true, Ordering::SeqCst);
                self.lines.wake();
            });
            let done = self.write_lines(&mut stream, &is_closed);
            // Ends the thread that reads.
            let _ = stream.shutdown(Shutdown::Both);
            done
        })
    }

    fn write_lines(&self, stream: &mut TcpStream, is_closed: &AtomicBool) -> io::Result<()> {
        while !is_closed.load(Ordering::SeqCst) {
            let lines = self.lines.take();
            let text: String = lines.iter().map(AsRef::as_ref).collect();
            stream.write_all(text.as_bytes())?;
        }
        Ok(())
    }
}

#[derive(Clone)]
struct Receiver<F> {
    me: Seat,
    members: usize,
    connections: Arc<Mutex<HashMap<Seat, TcpStream>>>,
    bad_lines: Arc<AtomicU64>,
    hear: F,
}

impl<F: Fn(Seat, Frame)> Receiver<F> {
    fn receive(&self, stream: TcpStream) -> io::Result<()> {
        let is_peer = |seat: Seat| seat != self.me && seat < self.members;
        let mut input = BufReader::with_capacity(1 << 16, stream.try_clone()?);
        let from = match read_line(&mut input)?.map(|line| line.parse()) {
            Some(Ok(Frame::Hello(from))) if is_peer(from) => from,
            _ => return Err(io::ErrorKind::InvalidData.into()),
        };
        // A new connection takes the place of the old one, whose peer may be gone without a word.
        let old = self
            .connections
            .lock()
            .unwrap_or_else(PoisonError::into_inner)
            .insert(from, stream);
        if let Some(old) = old {
            let _ = old.shutdown(Shutdown::Both);
        }
        while let Some(line) = read_line(&mut input)? {
            match line.parse() {
                Ok(frame) => (self.hear)(from, frame),
                Err(_) => {
                    self.bad_lines.fetch_add(1, Ordering::Relaxed);
                }
            }
        }
        Ok(())
    }
}

#[cfg(test)]
mod tests {
    #![allow(clippy::unwrap_used)]
    use super::*;
    use crate::cluster::free_addresses;
    use crate::digest::Digest;
    use std::sync::mpsc::{self, RecvTimeoutError};
    use std::time::Instant;

    const SOON: Duration = Duration::from_secs(10);

    fn start(me: Seat, addresses: &[String]) -> (Peers, mpsc::Receiver<(Seat, Frame)>) {
        let (tell, heard) = mpsc::channel();
        let peers = Peers::start(me, addresses, move |from, frame| {
            let _ = tell.send((from, frame));
        });
        (peers.unwrap(), heard)
    }

    #[test]
    fn a_frame_comes_with_the_member_of_its_connection() {
        let addresses = free_addresses(3).unwrap();
        let frame = Frame::Want(Digest::of(b""));
        let (first, _) = start(0, &addresses);
        // It waits until the others listen.
        first.send(&frame, &Recipients::Some(vec![2]));
        let (_second, second_heard) = start(1, &addresses);
        let (_third, third_heard) = start(2, &addresses);
        assert_eq!(third_heard.recv_timeout(SOON), Ok((0, frame)));
        let short = Duration::from_millis(50);
        let nothing = second_heard.recv_timeout(short);
        assert_eq!(nothing, Err(RecvTimeoutError::Timeout));
    }

    #[test]
    fn who_says_no_hello_is_not_heard() {
        let addresses = free_addresses(2).unwrap();
        let (peers, heard) = start(0, &addresses);
        for text in ["packet vote 00\n", "hello 0\npacket vote 00\n", "hello 2\n"] {
            let before = peers.bad_lines();
            let mut stream = TcpStream::connect(&addresses[0]).unwrap();
            stream.write_all(text.as_bytes()).unwrap();
            let end = Instant::now() + SOON;
            while peers.bad_lines() == before {
                assert!(Instant::now() < end, "{text:?}");
                thread::sleep(Duration::from_millis(1));
            }
        }
        assert!(heard.try_recv().is_err());
    }

    #[test]
    fn a_link_connects_again() {
        let addresses = free_addresses(2).unwrap();
        let (peers, _) = start(0, &addresses);
        let listener = TcpListener::bind(&addresses[1]).unwrap();
        for _ in 0..2 {
            let (stream, _) = listener.accept().unwrap();
            let mut input = BufReader::new(stream);
            assert_eq!(read_line(&mut input).unwrap().as_deref(), Some("hello 0"));
        }
        assert!(peers.connects() >= 2);
    }

    #[test]
    fn the_oldest_lines_are_lost() {
        // Nobody listens there.
        let link = Link::new(0, "127.0.0.1:1");
        for _ in 0..MOST_WAITING + 3 {
            link.lines.push("want\n".into());
        }
        assert_eq!(link.lines.lost(), 3);
    }
}
