//! Work on all cores, its answers taken in order. There may be billions of pieces: no more of them are begun than may wait.
use std::collections::BTreeMap;
use std::num::NonZero;
use std::sync::mpsc::{channel, Receiver, TryRecvError};
use std::sync::{Condvar, Mutex, MutexGuard, PoisonError};
use std::thread::{available_parallelism, scope, Builder};

/// So many pieces may be at work or wait to be taken, so that neither a slow reader of the output nor one slow piece fills the memory.
const MOST_WAITING: u64 = 1024;
/// Many times what an operation of the library needs.
const STACK: usize = 2 << 20;

/// What is done with the answers, in order, and while there is none yet.
pub trait Taker<A> {
    fn take(&mut self, answer: A);
    fn wait(&mut self);
}

#[derive(Default)]
struct Line {
    next: u64,
    taken: u64,
}

/// The pieces from 0 to count - 1, handed out one after the other.
struct Pieces {
    count: u64,
    line: Mutex<Line>,
    room: Condvar,
}

impl Pieces {
    fn line(&self) -> MutexGuard<'_, Line> {
        self.line.lock().unwrap_or_else(PoisonError::into_inner)
    }

    /// The next piece, once there is room for its answer; none behind the last.
    fn next(&self) -> Option<u64> {
        let is_full = |line: &mut Line| line.next < self.count && line.next - line.taken >= MOST_WAITING;
        let mut line = self.room.wait_while(self.line(), is_full).unwrap_or_else(PoisonError::into_inner);
        (line.next < self.count).then(|| {
            line.next += 1;
            line.next - 1
        })
    }

    fn is_taken(&self) {
        self.line().taken += 1;
        self.room.notify_all();
    }
}

/// The answers to 0 to count - 1. Where no thread can be had, they are worked out here, one after the other.
pub fn in_order<A: Send>(count: u64, work: impl Fn(u64) -> A + Sync, taker: &mut impl Taker<A>) {
    let cores = available_parallelism().map_or(1, NonZero::get).min(usize::try_from(count).unwrap_or(usize::MAX));
    let pieces = Pieces { count, line: Mutex::new(Line::default()), room: Condvar::new() };
    let (sender, receiver) = channel();
    let begun = scope(|threads| {
        let mut begun = 0;
        for _ in 0..cores {
            let (sender, pieces, work) = (sender.clone(), &pieces, &work);
            let worker = move || {
                while let Some(index) = pieces.next() {
                    if sender.send((index, work(index))).is_err() {
                        return;
                    }
                }
            };
            begun += usize::from(Builder::new().stack_size(STACK).spawn_scoped(threads, worker).is_ok());
        }
        drop(sender);
        if begun > 0 {
            take_all(&pieces, &receiver, taker);
        }
        begun
    });
    if begun == 0 {
        (0..count).for_each(|index| taker.take(work(index)));
    }
}

fn take_all<A>(pieces: &Pieces, receiver: &Receiver<(u64, A)>, taker: &mut impl Taker<A>) {
    let mut early = BTreeMap::new();
    for due in 0..pieces.count {
        while !early.contains_key(&due) {
            let (index, answer) = received(receiver, taker);
            early.insert(index, answer);
        }
        if let Some(answer) = early.remove(&due) {
            taker.take(answer);
            pieces.is_taken();
        }
    }
}

/// A worker ends before its time by a panic alone, which ends the program.
fn received<A>(receiver: &Receiver<(u64, A)>, taker: &mut impl Taker<A>) -> (u64, A) {
    match receiver.try_recv() {
        Ok(answer) => answer,
        Err(TryRecvError::Empty | TryRecvError::Disconnected) => {
            taker.wait();
            receiver.recv().expect("every answer is worked out")
        }
    }
}

#[cfg(test)]
mod tests {
    use super::{in_order, Taker, MOST_WAITING};
    use std::sync::atomic::{AtomicU64, Ordering};

    struct InOrder<'a> {
        taken: u64,
        begun: &'a AtomicU64,
    }

    impl Taker<u64> for InOrder<'_> {
        fn take(&mut self, answer: u64) {
            assert_eq!(answer, self.taken);
            self.taken += 1;
            assert!(self.begun.load(Ordering::SeqCst) < self.taken + MOST_WAITING);
        }

        fn wait(&mut self) {}
    }

    /// The first piece is the slowest, so that all others would be done before it is taken.
    #[test]
    fn no_more_are_begun_than_may_wait() {
        let begun = AtomicU64::new(0);
        let mut taker = InOrder { taken: 0, begun: &begun };
        let work = |index| {
            begun.fetch_add(1, Ordering::SeqCst);
            if index == 0 {
                std::thread::sleep(std::time::Duration::from_millis(200));
            }
            index
        };
        in_order(20 * MOST_WAITING, work, &mut taker);
        assert_eq!(taker.taken, 20 * MOST_WAITING);
    }
}
