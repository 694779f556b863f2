//! Holds the proved library and the plain rules to one another on random lists of calls and journals, and measures both.
//!
//!     compare [SEED [CALLS]]

mod lists;
mod ours;
mod plain;
mod random;
mod rules;
mod speed;
mod stack;
mod tally;
mod wire;

use lists::List;
use random::Random;
use std::process::ExitCode;
use tally::Tally;
use wire::{Item, Reply, Run};

const SEED: u64 = 860_85;
const CALLS: u64 = 5_000_000;
const UNTOUCHED: Reply = Reply { kind: 99, value: 0, number: 0, soonest: 0, length: 0 };

/// Runs a list by the library and by the plain rules, and answers the journal that both wrote.
fn compare_run(list: &List, run: Run) -> Result<Vec<u8>, String> {
    let mut journals = [vec![0xaa; list.length], vec![0xaa; list.length]];
    let mut answers = [vec![UNTOUCHED; list.calls.len()], vec![UNTOUCHED; list.calls.len()]];
    let ours = run(&list.setup, &list.calls, &mut journals[0], &mut answers[0]);
    let plain = plain::run(&list.setup, &list.calls, &mut journals[1], &mut answers[1]);
    if let Some(i) = (0..list.calls.len()).find(|&i| answers[0][i] != answers[1][i]) {
        let calls = list.calls[..=i].iter().map(|call| format!("  {call:?}\n")).collect::<String>();
        return Err(format!(
            "answer {i} of {:?}\n{calls}ours:  {:?}\nplain: {:?}",
            list.setup, answers[0][i], answers[1][i]
        ));
    }
    if ours != plain {
        return Err(format!("calls made of {:?}: ours {ours}, plain {plain}", list.setup));
    }
    let [journal, other] = journals;
    if let Some(i) = (0..journal.len()).find(|&i| journal[i] != other[i]) {
        return Err(format!(
            "byte {i} of the journal of {:?}\n{:?}\nours:  {:02x?}\nplain: {:02x?}",
            list.setup, list.calls, journal, other
        ));
    }
    Ok(journal)
}

fn compare_list(list: &List, tally: &mut Tally) -> Result<Vec<u8>, String> {
    tally.lists += 1;
    tally.calls += list.calls.len() as u64;
    if list.setup.is_standard() {
        tally.count("list run over the standard plans by their types too");
        compare_run(list, ours::run_standard)?;
    }
    compare_run(list, ours::run)
}

fn compare_plan(random: &mut Random, tally: &mut Tally) -> Result<(), String> {
    let words = lists::plan_words(random);
    let far = random.next() as u32;
    for i in (0..=50).chain([far, u32::MAX, 1 << 31]) {
        let (ours, plain) = (ours::ask(&words, i), plain::ask(&words, i));
        tally.plan_questions += 1;
        if ours != plain {
            return Err(format!("the plan {words:?} at {i}\nours:  {ours:?}\nplain: {plain:?}"));
        }
        if ours.refused > 0 {
            tally.refusal(ours.refused);
            break;
        }
    }
    Ok(())
}

fn compare_journal(bytes: &[u8], tally: &mut Tally) -> Result<(), String> {
    let mut items = [vec![Item::default(); bytes.len() + 1], vec![Item::default(); bytes.len() + 1]];
    let ours = ours::read(bytes, &mut items[0]);
    let plain = plain::read(bytes, &mut items[1]);
    if ours != plain || items[0] != items[1] {
        let i = (0..items[0].len()).find(|&i| items[0][i] != items[1][i]).unwrap_or(0);
        return Err(format!(
            "item {i} of the journal {bytes:02x?}\nours:  {ours} items, {:?}\nplain: {plain} items, {:?}",
            items[0][i], items[1][i]
        ));
    }
    let counts = [ours::count(bytes), plain::count(bytes)];
    if counts[0] != counts[1] {
        return Err(format!("records of the journal {bytes:02x?}: ours {}, plain {}", counts[0], counts[1]));
    }
    tally.journals += 1;
    let faulty = ours > 0 && items[0][ours - 1].kind == 0;
    tally.records += (ours - usize::from(faulty)) as u64;
    if faulty {
        let [number, layer, ..] = items[0][ours - 1].fields;
        tally.refusal(number as u32);
        tally.count(&format!("fault: question {number}, layer {layer}"));
    } else {
        tally.count("journal read to its end");
    }
    Ok(())
}

fn compare_all(random: &mut Random, calls: u64, tally: &mut Tally) -> Result<(), String> {
    while tally.calls < calls {
        let list = lists::list(random, tally);
        let journal = compare_list(&list, tally)?;
        for _ in 0..4 {
            compare_journal(&lists::journal(random, &journal[..list.used.min(journal.len())]), tally)?;
        }
        compare_plan(random, tally)?;
    }
    for (control, main) in [(1, 2), (1, 3), (2, 2), (2, 3)] {
        let list = lists::long_list(random, control, main);
        let journal = compare_list(&list, tally)?;
        compare_journal(&journal[..list.used], tally)?;
    }
    Ok(())
}

fn main() -> ExitCode {
    let mut arguments = std::env::args().skip(1).map(|word| word.parse::<u64>());
    let (Ok(seed), Ok(calls)) =
        (arguments.next().unwrap_or(Ok(SEED)), arguments.next().unwrap_or(Ok(CALLS)))
    else {
        eprintln!("usage: compare [SEED [CALLS]]");
        return ExitCode::from(2);
    };
    println!("seed {seed}");
    let mut random = Random::new(seed);
    let mut tally = Tally::default();
    let compared = compare_all(&mut random, calls, &mut tally);
    tally.print();
    if let Err(difference) = compared {
        println!("difference: {difference}");
        return ExitCode::FAILURE;
    }
    println!("no difference");
    speed::measure(&mut random);
    ExitCode::SUCCESS
}
