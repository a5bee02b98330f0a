//! Work for many items on several threads, told in the order of the items.

use std::collections::BTreeMap;
use std::sync::atomic::{AtomicUsize, Ordering};
use std::sync::mpsc;
use std::thread;

/// How many threads this machine runs at once.
pub fn cores() -> usize {
    thread::available_parallelism().map_or(1, usize::from)
}

/// Does `work` for each item on so many threads, and hands what comes of each to `then`, in the order of the items. Where
/// `then` fails no further item is begun.
pub fn in_order<T: Sync, R: Send, E>(
    items: &[T],
    jobs: usize,
    work: impl Fn(&T) -> R + Sync,
    then: impl FnMut(R) -> Result<(), E>,
) -> Result<(), E> {
    let next = AtomicUsize::new(0);
    let (send, receive) = mpsc::channel();
    thread::scope(|scope| {
        for _ in 0..jobs.clamp(1, items.len().max(1)) {
            let (send, next, work) = (send.clone(), &next, &work);
            scope.spawn(move || {
                while let Some((place, item)) = begun(items, next) {
                    let _ = send.send((place, work(item)));
                }
            });
        }
        drop(send);
        let handed = hand_on(&receive, then);
        if handed.is_err() {
            next.store(items.len(), Ordering::Relaxed);
        }
        handed
    })
}

/// The next item that nobody has begun.
fn begun<'a, T>(items: &'a [T], next: &AtomicUsize) -> Option<(usize, &'a T)> {
    let place = next.fetch_add(1, Ordering::Relaxed);
    items.get(place).map(|item| (place, item))
}

/// What has come too early waits.
fn hand_on<R, E>(
    receive: &mpsc::Receiver<(usize, R)>,
    mut then: impl FnMut(R) -> Result<(), E>,
) -> Result<(), E> {
    let (mut waiting, mut due) = (BTreeMap::new(), 0);
    for (place, result) in receive {
        waiting.insert(place, result);
        while let Some(result) = waiting.remove(&due) {
            then(result)?;
            due += 1;
        }
    }
    Ok(())
}

#[cfg(test)]
mod tests {
    use super::*;

    #[test]
    fn the_order_is_that_of_the_items() {
        let items: Vec<u64> = (0..100).collect();
        for jobs in [1, 2, 7, 200] {
            let mut told = Vec::new();
            let slow = |item: &u64| {
                thread::yield_now();
                item * item
            };
            let done: Result<(), ()> = in_order(&items, jobs, slow, |square| {
                told.push(square);
                Ok(())
            });
            assert_eq!(done, Ok(()));
            assert_eq!(
                told,
                items.iter().map(|item| item * item).collect::<Vec<_>>()
            );
        }
        let none: Result<(), ()> = in_order(&[] as &[u64], 4, |item| *item, |_| Err(()));
        assert_eq!(none, Ok(()));
    }

    #[test]
    fn the_first_failure_ends_it() {
        let items: Vec<u64> = (0..1000).collect();
        let mut told = 0;
        let failed = in_order(
            &items,
            3,
            |item| *item,
            |item| {
                told += 1;
                if item == 5 {
                    Err(item)
                } else {
                    Ok(())
                }
            },
        );
        assert_eq!((failed, told), (Err(5), 6));
    }
}
