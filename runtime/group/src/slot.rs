//! A place for one value that another thread puts there.

use std::sync::{Arc, Condvar, Mutex, MutexGuard, PoisonError};
use std::time::{Duration, Instant};

/// When a wait is over; None never.
pub(crate) fn deadline(most: Option<Duration>) -> Option<Instant> {
    most.and_then(|most| Instant::now().checked_add(most))
}

/// Locks, also after a thread panicked with the lock: what is behind these locks is whole between any two steps.
pub(crate) fn lock<T>(mutex: &Mutex<T>) -> MutexGuard<'_, T> {
    mutex.lock().unwrap_or_else(PoisonError::into_inner)
}

/// Waits on a condition until it is told of or the time is over; whether there is time left.
pub(crate) fn wait_until<'a, T>(
    condition: &Condvar,
    guard: MutexGuard<'a, T>,
    until: Option<Instant>,
) -> (MutexGuard<'a, T>, bool) {
    let Some(until) = until else {
        let guard = condition.wait(guard);
        return (guard.unwrap_or_else(PoisonError::into_inner), true);
    };
    let left = until.saturating_duration_since(Instant::now());
    if left.is_zero() {
        return (guard, false);
    }
    let waited = condition.wait_timeout(guard, left);
    let (guard, _) = waited.unwrap_or_else(PoisonError::into_inner);
    (guard, true)
}

/// A place for one value.
pub(crate) struct Slot<T> {
    value: Mutex<Option<T>>,
    filled: Condvar,
}

impl<T: Clone> Slot<T> {
    pub(crate) fn new() -> Arc<Slot<T>> {
        Arc::new(Slot {
            value: Mutex::new(None),
            filled: Condvar::new(),
        })
    }

    /// Puts the value there; later ones change nothing.
    pub(crate) fn fill(&self, value: T) {
        let mut place = lock(&self.value);
        if place.is_none() {
            *place = Some(value);
            self.filled.notify_all();
        }
    }

    /// The value, if it is there.
    pub(crate) fn look(&self) -> Option<T> {
        lock(&self.value).clone()
    }

    /// The value, once it is there; None if the time is over before.
    pub(crate) fn wait(&self, until: Option<Instant>) -> Option<T> {
        let mut place = lock(&self.value);
        loop {
            if let Some(value) = &*place {
                return Some(value.clone());
            }
            let (again, has_time) = wait_until(&self.filled, place, until);
            if !has_time {
                return again.clone();
            }
            place = again;
        }
    }
}

#[cfg(test)]
mod tests {
    use super::*;

    #[test]
    fn the_first_value_stays() {
        let slot = Slot::new();
        assert_eq!(slot.look(), None);
        assert_eq!(slot.wait(deadline(Some(Duration::from_millis(5)))), None);
        slot.fill(1);
        slot.fill(2);
        assert_eq!(slot.wait(None), Some(1));
    }

    #[test]
    fn a_wait_ends_once_the_value_is_there() {
        let slot = Slot::new();
        let other = slot.clone();
        let waiter = std::thread::spawn(move || other.wait(None));
        std::thread::sleep(Duration::from_millis(5));
        slot.fill(7);
        assert_eq!(waiter.join().unwrap(), Some(7));
    }
}
