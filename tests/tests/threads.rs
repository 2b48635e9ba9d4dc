//! The C interface on threads: on one with the stack that docs/HOSTS.md promises, and on several at once.
mod common;
use common::{largest_log, tell};
use satskhubo_tests::generate::pairs::pair_of;
use satskhubo_tests::generate::sheets::largest;
use satskhubo_tests::generate::Pair;
use satskhubo_tests::host::Host;
use satskhubo_tests::outcome::{Side, Table};
use std::fmt::Debug;

/// docs/HOSTS.md: 128 KiB of stack are enough.
const STACK: usize = 128 * 1024;

/// On a thread with that stack and no more. One that needs more ends the whole program.
fn on_little_stack<T: Send + Debug + PartialEq>(operation: impl Fn() -> T + Sync) {
    let here = operation();
    let there = std::thread::scope(|scope| {
        let thread = std::thread::Builder::new().stack_size(STACK).spawn_scoped(scope, &operation).expect("a thread starts");
        thread.join().expect("the thread ends")
    });
    assert_eq!(there, here);
}

#[test]
fn every_operation_on_the_stack_promised() {
    let (sheet, log) = (largest(), largest_log());
    let matching = Host.search(&sheet, &log, 1, 58).places;
    let table = Table::of(&matching[satskhubo_tests::outcome::GUARD..][..58], 0);
    assert_eq!((Host.judge(&sheet, &log, 1, &table).met, Host.write(&sheet, 1, 3437).length), (1, 3437));
    on_little_stack(|| Host.read_log(&log));
    on_little_stack(|| Host.read_sheet(&sheet));
    on_little_stack(|| Host.judge(&sheet, &log, 1, &table));
    on_little_stack(|| Host.write(&sheet, 1, 3437));
    on_little_stack(|| Host.impossible(&sheet, 1));
    on_little_stack(|| Host.impossible(&sheet, 64));
    on_little_stack(|| Host.search(&sheet, &log, 1, 58));
    on_little_stack(|| Host.search(&sheet, &log, 64, 58));
    on_little_stack(|| Host.check_number(&sheet, &log));
    on_little_stack(|| Host.check(&sheet, &log));
    on_little_stack(|| Host.check_limited(&sheet, &log, 0));
    on_little_stack(|| Host.check_limited(&sheet, &log, u64::MAX));
    on_little_stack(|| Host.show(&sheet, &log));
    on_little_stack(|| Host.show(&sheet, &log[..log.len() - 1]));
    on_little_stack(|| Host.read_field(&log, 5));
    on_little_stack(|| Host.write_field(11, 0, 11, u32::MAX));
    tell("threads: little stack", 16);
}

/// What every operation says of a pair.
fn answers(pair: &Pair) -> String {
    let (sheet, log) = (&pair.sheet, &pair.log);
    let read = (
        Host.read_sheet(sheet),
        Host.read_log(log),
        Host.show(sheet, log),
        Host.check_number(sheet, log),
        Host.check(sheet, log),
        [0, 1, 2].map(|limit| Host.check_limited(sheet, log, limit)),
    );
    let numbered: Vec<_> = (0..4)
        .map(|number| {
            let table = Table::of(&[number as u32; 3], 7);
            let of_sheet = (Host.write(sheet, number, 3437), Host.impossible(sheet, number));
            (of_sheet, Host.search(sheet, log, number, 58), Host.judge(sheet, log, number, &table))
        })
        .collect();
    format!("{read:?} {numbered:?}")
}

#[test]
fn several_at_once_answer_as_one() {
    const THREADS: u64 = 8;
    const PAIRS: u64 = 60;
    let pairs: Vec<Pair> = (0..THREADS * PAIRS).map(|seed| pair_of(9_000_000 + seed)).collect();
    let alone: Vec<String> = pairs.iter().map(answers).collect();
    // Each thread has its own pairs, and all begin together.
    let barrier = &std::sync::Barrier::new(THREADS as usize);
    std::thread::scope(|scope| {
        for (pairs, alone) in pairs.chunks(PAIRS as usize).zip(alone.chunks(PAIRS as usize)) {
            scope.spawn(move || {
                barrier.wait();
                for _ in 0..5 {
                    let together: Vec<String> = pairs.iter().map(answers).collect();
                    assert!(together == alone);
                }
            });
        }
    });
    tell("threads: several at once", 5 * THREADS * PAIRS);
}
