//! Queues that hold so much and no more. Where they are full the oldest item is lost, and counted: members send again what matters.

use std::collections::VecDeque;
use std::sync::{Condvar, Mutex, MutexGuard, PoisonError};

#[derive(Debug)]
pub struct Bounded<T> {
    items: VecDeque<T>,
    most: usize,
    lost: u64,
}

impl<T> Bounded<T> {
    pub fn new(most: usize) -> Bounded<T> {
        Bounded {
            items: VecDeque::new(),
            most,
            lost: 0,
        }
    }

    pub fn push(&mut self, item: T) {
        if self.items.len() >= self.most {
            self.items.pop_front();
            self.lost += 1;
        }
        self.items.push_back(item);
    }

    pub fn pop(&mut self) -> Option<T> {
        self.items.pop_front()
    }

    pub fn clear(&mut self) {
        self.items.clear();
    }

    pub fn is_empty(&self) -> bool {
        self.items.is_empty()
    }

    pub fn lost(&self) -> u64 {
        self.lost
    }
}

/// A bounded queue between a thread that never waits and one that does.
#[derive(Debug)]
pub struct Shared<T> {
    state: Mutex<State<T>>,
    changed: Condvar,
}

#[derive(Debug)]
struct State<T> {
    queue: Bounded<T>,
    is_woken: bool,
}

impl<T> Shared<T> {
    pub fn new(most: usize) -> Shared<T> {
        Shared {
            state: Mutex::new(State {
                queue: Bounded::new(most),
                is_woken: false,
            }),
            changed: Condvar::new(),
        }
    }

    pub fn push(&self, item: T) {
        self.lock().queue.push(item);
        self.changed.notify_one();
    }

    /// Lets the thread that waits look up, with nothing to take.
    pub fn wake(&self) {
        self.lock().is_woken = true;
        self.changed.notify_one();
    }

    /// What waits, once there is something; nothing where the thread was woken.
    pub fn take(&self) -> VecDeque<T> {
        let mut state = self
            .changed
            .wait_while(self.lock(), |state| {
                state.queue.is_empty() && !state.is_woken
            })
            .unwrap_or_else(PoisonError::into_inner);
        state.is_woken = false;
        std::mem::take(&mut state.queue.items)
    }

    pub fn lost(&self) -> u64 {
        self.lock().queue.lost()
    }

    fn lock(&self) -> MutexGuard<'_, State<T>> {
        self.state.lock().unwrap_or_else(PoisonError::into_inner)
    }
}

#[cfg(test)]
mod tests {
    #![allow(clippy::unwrap_used)]
    use super::*;
    use std::sync::Arc;
    use std::thread;

    #[test]
    fn the_oldest_items_are_lost() {
        let mut queue = Bounded::new(2);
        for item in ["a", "b", "c"] {
            queue.push(item);
        }
        assert_eq!(queue.lost(), 1);
        assert_eq!(
            (queue.pop(), queue.pop(), queue.pop()),
            (Some("b"), Some("c"), None)
        );
    }

    #[test]
    fn a_thread_waits_for_items() {
        let queue = Arc::new(Shared::new(3));
        let taker = thread::spawn({
            let queue = Arc::clone(&queue);
            move || {
                let mut taken = Vec::new();
                while !taken.contains(&9) {
                    taken.extend(queue.take());
                }
                taken
            }
        });
        queue.push(1);
        queue.push(9);
        assert_eq!(taker.join().unwrap(), [1, 9]);
        assert_eq!(queue.lost(), 0);
    }

    #[test]
    fn a_thread_is_woken_without_items() {
        let queue: Shared<u8> = Shared::new(3);
        queue.wake();
        assert!(queue.take().is_empty());
        queue.push(1);
        assert_eq!(queue.take(), [1]);
    }
}
