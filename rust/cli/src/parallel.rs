//! Work spread over several threads, its results in the order of the work.

use std::collections::BTreeMap;
use std::sync::atomic::{AtomicBool, Ordering};
use std::sync::mpsc::{sync_channel, Receiver, SyncSender, TryRecvError};
use std::sync::Mutex;
use std::thread;
use stramashly::Checker;

/// Pieces of work and pieces of results, each with its number.
type Numbered<T> = (usize, Vec<T>);

/// Takes pieces of work as they come.
pub struct Giver<T> {
    pieces: SyncSender<Numbered<T>>,
    count: usize,
}

impl<T> Giver<T> {
    /// Hands a piece on; waits if many are under way.
    pub fn give(&mut self, piece: Vec<T>) {
        if !piece.is_empty() {
            // Whoever takes them stays to the end.
            let _ = self.pieces.send((self.count, piece));
            self.count += 1;
        }
    }
}

/// What becomes of results: more than one call may follow before `pause`.
pub trait Taker<R> {
    /// Takes results in order, and says whether more are wanted.
    fn take(&mut self, results: Vec<R>) -> bool;
    /// Nothing more is ready yet.
    fn pause(&mut self);
}

/// Runs `read` here, which gives pieces of work until it ends or is told to
/// stop; the work in so many threads; and a taker in another. Gives back what
/// `read` and the taker's `finish` gave. Each thread has a checker of its own.
pub fn in_order<T: Send, R: Send, A, B: Send, K: Taker<R>>(
    (jobs, checker): (usize, impl Fn() -> Checker + Sync),
    read: impl FnOnce(&mut Giver<T>, &AtomicBool) -> A,
    work: impl Fn(&mut Checker, T) -> R + Sync,
    taker: impl FnOnce() -> K + Send,
    finish: impl FnOnce(K) -> B + Send,
) -> (A, B) {
    let (pieces, waiting) = sync_channel::<Numbered<T>>(2 * jobs);
    let (done, results) = sync_channel::<Numbered<R>>(2 * jobs);
    let waiting = Mutex::new(waiting);
    let is_enough = AtomicBool::new(false);
    thread::scope(|scope| {
        for _ in 0..jobs {
            let done = done.clone();
            let (waiting, work, checker) = (&waiting, &work, &checker);
            scope.spawn(move || work_off(waiting, &done, checker(), work));
        }
        drop(done);
        let is_enough = &is_enough;
        let taken = scope.spawn(move || {
            let mut taker = taker();
            take_in_order(&results, &mut taker, is_enough);
            finish(taker)
        });
        let mut giver = Giver { pieces, count: 0 };
        let read = read(&mut giver, is_enough);
        drop(giver);
        (read, taken.join().expect("the taker doesn't panic"))
    })
}

/// Works pieces off until there are no more.
fn work_off<T, R>(
    waiting: &Mutex<Receiver<Numbered<T>>>,
    done: &SyncSender<Numbered<R>>,
    mut checker: Checker,
    work: &impl Fn(&mut Checker, T) -> R,
) {
    loop {
        let next = waiting.lock().expect("nobody panics with it").recv();
        let Ok((number, piece)) = next else {
            return;
        };
        let results = piece.into_iter().map(|item| work(&mut checker, item));
        let _ = done.send((number, results.collect()));
    }
}

/// Hands results on in order; when no more are wanted they are only drained.
fn take_in_order<R>(
    results: &Receiver<Numbered<R>>,
    taker: &mut impl Taker<R>,
    is_enough: &AtomicBool,
) {
    let mut early = BTreeMap::new();
    let mut next = 0;
    loop {
        let result = match results.try_recv() {
            Err(TryRecvError::Empty) => {
                taker.pause();
                results.recv().ok()
            }
            result => result.ok(),
        };
        let Some((number, piece)) = result else {
            return;
        };
        early.insert(number, piece);
        while let Some(piece) = early.remove(&next) {
            next += 1;
            if !is_enough.load(Ordering::Relaxed) && !taker.take(piece) {
                is_enough.store(true, Ordering::Relaxed);
            }
        }
    }
}

#[cfg(test)]
mod tests {
    use super::*;
    use std::time::Duration;

    struct List(Vec<u64>, usize);

    impl Taker<u64> for List {
        fn take(&mut self, results: Vec<u64>) -> bool {
            self.0.extend(results);
            self.0.len() < self.1
        }

        fn pause(&mut self) {}
    }

    fn doubled(jobs: usize, enough: usize) -> (u64, Vec<u64>) {
        in_order(
            (jobs, Checker::new),
            |giver, is_enough| {
                let mut given = 0;
                while given < 1000 && !is_enough.load(Ordering::Relaxed) {
                    giver.give((given..given + 7).collect());
                    given += 7;
                }
                given
            },
            |_, number: u64| {
                // Later ones may well be ready before.
                thread::sleep(Duration::from_micros(number % 5 * 20));
                2 * number
            },
            || List(Vec::new(), enough),
            |list| list.0,
        )
    }

    #[test]
    fn results_come_in_order() {
        for jobs in [1, 2, 5] {
            let (given, results) = doubled(jobs, usize::MAX);
            let expected: Vec<u64> = (0..given).map(|number| 2 * number).collect();
            assert_eq!(results, expected);
        }
    }

    #[test]
    fn enough_is_enough() {
        let (given, results) = doubled(3, 20);
        assert_eq!(results.len(), 21);
        assert!(given >= 21);
    }
}
