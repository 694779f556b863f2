//! Speed, size and depth of both, on the same lists.

use crate::lists::{List, long_list, put_record};
use crate::random::Random;
use crate::rules::verification::Verification;
use crate::wire::{Item, LEVEL, Reply, Run};
use crate::{ours, plain, stack};
use std::hint::black_box;
use std::time::Instant;

const ROUNDS: usize = 40;

/// The best seconds of each, taken by turns.
fn best_of(mut ours: impl FnMut(), mut plain: impl FnMut()) -> (f64, f64) {
    let mut best = (f64::MAX, f64::MAX);
    for _ in 0..ROUNDS {
        let start = Instant::now();
        ours();
        best.0 = best.0.min(start.elapsed().as_secs_f64());
        let start = Instant::now();
        plain();
        best.1 = best.1.min(start.elapsed().as_secs_f64());
    }
    best
}

fn print(what: &str, unit: &str, count: usize, (ours, plain): (f64, f64)) {
    let rate = |seconds: f64| count as f64 / seconds / 1e6;
    println!(
        "{what}: {count} {unit}; ours {:.1} million a second, plain {:.1}, ratio {:.2}",
        rate(ours),
        rate(plain),
        plain / ours
    );
}

fn time_list(what: &str, list: &List) {
    time_run(&format!("{what}, plans chosen at run time"), list, ours::run);
    time_run(&format!("{what}, plans by their types"), list, ours::run_standard);
}

fn time_run(what: &str, list: &List, ours: Run) {
    let mut journal = vec![0xaa; list.length];
    let mut other = journal.clone();
    let mut answers = vec![Reply::default(); list.calls.len()];
    let mut replies = answers.clone();
    let times = |run: Run, journal: &mut [u8], answers: &mut [Reply]| {
        let made = run(black_box(&list.setup), black_box(&list.calls), journal, answers);
        assert_eq!(black_box(made), list.calls.len());
    };
    let best =
        best_of(|| times(ours, &mut journal, &mut answers), || times(plain::run, &mut other, &mut replies));
    print(what, "calls", list.calls.len(), best);
}

pub fn measure(random: &mut Random) {
    let names = [(1, 3, "full, normal"), (1, 2, "full, strengthened"), (2, 3, "reduced, normal")];
    for (control, main, name) in names {
        let mut list = long_list(random, control, main);
        time_list(&format!("999 points, {name}"), &list);
        list.calls.retain(|call| call.kind != LEVEL);
        time_list(&format!("999 points, {name}, levels not asked"), &list);
    }

    let records = 1_000_000;
    let mut bytes = Vec::new();
    for _ in 0..records {
        put_record(random, &mut bytes, false);
    }
    let counted = |count: fn(&[u8]) -> usize| assert_eq!(black_box(count(black_box(&bytes))), records);
    let best = best_of(|| counted(ours::count), || counted(plain::count));
    print("a journal read through", "records", records, best);
    let mut items = vec![Item::default(); records];
    let mut others = items.clone();
    let best = best_of(
        || assert_eq!(ours::read(black_box(&bytes), &mut items), records),
        || assert_eq!(plain::read(black_box(&bytes), &mut others), records),
    );
    print("a journal read into items", "records", records, best);

    let list = long_list(random, 1, 3);
    let mut journal = vec![0; list.length];
    let mut answers = vec![Reply::default(); list.calls.len()];
    let none = stack::depth(|| {
        black_box(&list);
    });
    let run_ours = stack::depth(|| {
        black_box(ours::run(&list.setup, &list.calls, &mut journal, &mut answers));
    });
    let run_standard = stack::depth(|| {
        black_box(ours::run_standard(&list.setup, &list.calls, &mut journal, &mut answers));
    });
    let run_plain = stack::depth(|| {
        black_box(plain::run(&list.setup, &list.calls, &mut journal, &mut answers));
    });
    let read_ours = stack::depth(|| {
        black_box(ours::count(&bytes));
    });
    let read_plain = stack::depth(|| {
        black_box(plain::count(&bytes));
    });
    let (any, standard) = ours::sizes();
    let plain = size_of::<Verification>();
    println!("bytes of a verification: ours {any} over plans chosen at run time, {standard} over the standard ones; plain {plain}");
    println!("bytes of stack: a verification: ours {run_ours}, by types {run_standard}, plain {run_plain}");
    println!("bytes of stack: reading: ours {read_ours}, plain {read_plain}; an empty call {none}");
}
