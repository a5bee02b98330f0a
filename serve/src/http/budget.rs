//! A budget of bytes for all bodies, and one for all answers, so that no number of clients takes all memory.

use std::sync::{Arc, Condvar, Mutex, PoisonError};
use std::time::Duration;

pub struct Budget {
    free: Mutex<usize>,
    given: Condvar,
    whole: usize,
}

/// Bytes that are taken, given back when it is dropped.
pub struct Lease {
    budget: Arc<Budget>,
    bytes: usize,
}

impl Budget {
    pub fn new(bytes: usize) -> Budget {
        Budget {
            free: Mutex::new(bytes),
            given: Condvar::new(),
            whole: bytes,
        }
    }

    /// Takes so many bytes, waiting for others to give theirs back; nothing where none do. Never more than there are.
    pub fn take(self: &Arc<Budget>, bytes: usize, patience: Duration) -> Option<Lease> {
        let bytes = bytes.min(self.whole);
        let free = self.free.lock().unwrap_or_else(PoisonError::into_inner);
        let waited = self
            .given
            .wait_timeout_while(free, patience, |free| *free < bytes);
        let (mut free, _) = waited.unwrap_or_else(PoisonError::into_inner);
        if *free < bytes {
            return None;
        }
        *free -= bytes;
        Some(Lease {
            budget: Arc::clone(self),
            bytes,
        })
    }

    fn give(&self, bytes: usize) {
        *self.free.lock().unwrap_or_else(PoisonError::into_inner) += bytes;
        self.given.notify_all();
    }
}

impl Lease {
    /// Gives back what is not needed of it.
    pub fn shrink(&mut self, bytes: usize) {
        let more = self.bytes.saturating_sub(bytes);
        self.bytes -= more;
        self.budget.give(more);
    }
}

impl Drop for Lease {
    fn drop(&mut self) {
        self.budget.give(self.bytes);
    }
}

#[cfg(test)]
mod tests {
    use super::*;

    #[test]
    fn what_is_taken_comes_back() {
        let budget = Arc::new(Budget::new(100));
        let first = budget.take(60, Duration::ZERO).expect("there is enough");
        assert!(budget.take(60, Duration::ZERO).is_none());
        let waiting = Arc::clone(&budget);
        let other = std::thread::spawn(move || waiting.take(60, Duration::from_secs(60)).is_some());
        drop(first);
        assert!(other.join().expect("no panic"));
        let mut whole = budget.take(100, Duration::ZERO).expect("all of it");
        whole.shrink(30);
        assert!(budget.take(71, Duration::ZERO).is_none());
        assert!(budget.take(70, Duration::ZERO).is_some());
        drop(whole);
        assert!(budget.take(1_000, Duration::ZERO).is_some());
    }
}
