//! The plain rules behind the same functions as the proved library has.

use crate::rules::plan::{Plan, Row, TableNumbers};
use crate::rules::record::{Fault, Reader, Record, read_through};
use crate::rules::verification::{Decision, Orders, Verification, Written};
use crate::rules::{Question, Verdict};
use crate::wire::*;

pub fn plan_of(words: &PlanWords) -> Result<Plan, Question> {
    let beneath = match words[0] {
        0 => Plan::LINE_STRENGTHENED,
        1 => Plan::LINE_NORMAL,
        2 => Plan::STRENGTHENED,
        3 => Plan::NORMAL,
        4 => Plan::THREE_STEP,
        _ => table(words)?,
    };
    words[TRUNCATIONS_AT..NUMBERS_AT]
        .chunks_exact(2)
        .take(words[1].clamp(0, 3) as usize)
        .try_fold(beneath, |plan, pair| plan.truncated(pair[0], pair[1]))
}

fn table(words: &PlanWords) -> Result<Plan, Question> {
    let [cut, cut_number, margin, trapezoid, uniform, peak] = words[NUMBERS_AT..ROWS_AT - 1] else {
        unreachable!("six numbers stand before the count of rows")
    };
    let count = words[ROWS_AT - 1].clamp(0, 9) as usize;
    let mut rows = [Row::default(); 9];
    for (row, w) in rows.iter_mut().zip(words[ROWS_AT..].chunks_exact(3)) {
        *row = Row { from: w[0], accept: w[1], reject: w[2] };
    }
    Plan::table(&TableNumbers { cut, cut_number, margin, trapezoid, uniform, peak }, &rows[..count])
}

pub fn ask(words: &PlanWords, i: u32) -> Asked {
    match plan_of(words) {
        Ok(plan) => Asked {
            refused: 0,
            cut: plan.cut(),
            cut_number: plan.cut_number(),
            margin: plan.margin() as u32,
            trapezoid: plan.trapezoid() as u32,
            uniform: plan.uniform() as u32,
            accept: plan.accept(i),
            reject: plan.reject(i) as u32,
            offset: plan.offset(i),
        },
        Err(question) => Asked { refused: question as u32, ..Asked::default() },
    }
}

fn plain(kind: u32) -> Reply {
    Reply { kind, ..Reply::default() }
}

fn refused(question: Question) -> Reply {
    Reply { kind: REFUSED, number: question as u32, ..Reply::default() }
}

fn written(written: Written) -> Reply {
    let kind = if written.verdict.is_fit() { WRITTEN_FIT } else { WRITTEN_UNFIT };
    Reply { kind, length: written.length, ..Reply::default() }
}

fn decision(decision: Decision) -> Reply {
    plain(match decision {
        None => UNDECIDED,
        Some(Verdict::Fit) => FIT,
        Some(Verdict::Unfit) => UNFIT,
    })
}

fn lend(journal: &mut [u8], lent: usize) -> &mut [u8] {
    let lent = lent.min(journal.len());
    &mut journal[..lent]
}

#[inline]
pub fn answer(running: &mut Verification, call: &Call, journal: &mut [u8]) -> Reply {
    let answered = match call.kind {
        OPEN => running.open(call.value, call.meter, call.reference, call.agreement).map(|()| plain(DONE)),
        LEVEL => running.level().map(|level| Reply {
            kind: AT_LEVEL,
            value: level.level,
            number: level.number,
            soonest: level.soonest,
            length: 0,
        }),
        CODE => running.code(call.value).map(decision),
        LATE => running.late().map(decision),
        _ => running.close(lend(journal, call.lent), call.place).map(written),
    };
    answered.unwrap_or_else(refused)
}

pub fn start(setup: &Setup) -> Result<Verification, Question> {
    let main = plan_of(&setup.main)?;
    let short = plan_of(&setup.short)?;
    let orders = Orders::new(setup.points, setup.control, setup.rule)?;
    Ok(Verification::new(orders, main, short))
}

#[inline(never)]
pub fn run(setup: &Setup, calls: &[Call], journal: &mut [u8], answers: &mut [Reply]) -> usize {
    let mut running = match start(setup) {
        Ok(running) => running,
        Err(question) => {
            if let Some(first) = answers.first_mut() {
                *first = refused(question);
            }
            return 0;
        }
    };
    let made = calls.len().min(answers.len());
    for (i, (call, reply)) in calls.iter().zip(answers).enumerate() {
        if call.kind == CERTIFY {
            match running.certify(lend(journal, call.lent), call.place) {
                Ok(certified) => {
                    *reply = written(certified);
                    return i + 1;
                }
                Err((back, question)) => {
                    running = back;
                    *reply = refused(question);
                }
            }
        } else {
            *reply = answer(&mut running, call, journal);
        }
    }
    made
}

fn item(ordinal: u64, first_byte: usize, kind: u32, values: &[i32]) -> Item {
    let mut fields = [0; 13];
    fields[..values.len()].copy_from_slice(values);
    Item { ordinal: ordinal as usize, first_byte, kind, fields }
}

fn record_item(ordinal: u64, first: usize, record: &Record) -> Item {
    match record {
        Record::Sequence(f) => item(ordinal, first, 1, &[
            f.point,
            f.first,
            f.observations,
            f.outs,
            i32::from(f.sequence.is_fit()),
            f.quantity,
            i32::from(f.wild),
            i32::from(f.dominance),
            i32::from(f.verdict.is_fit()),
            f.settling,
            f.tolerance,
            f.sum,
            f.squares,
        ]),
        Record::ThreeStep(f) => item(ordinal, first, 2, &[f.point, f.settling, f.tolerance, f.sum]),
        Record::Certificate(f) => {
            item(ordinal, first, 3, &[f.declared, f.closed, f.unfit, i32::from(f.verdict.is_fit()), f.codes])
        }
        Record::Notice(f) => item(ordinal, first, 4, &[f.signal]),
    }
}

fn fault_item(fault: &Fault) -> Item {
    item(fault.place.ordinal, fault.place.first, 0, &[fault.question as i32, fault.layer as i32])
}

#[inline(never)]
pub fn read(journal: &[u8], items: &mut [Item]) -> usize {
    let mut reader = Reader::new(journal);
    let room = items.len();
    for (i, item) in items.iter_mut().enumerate() {
        match reader.next_record() {
            Ok(Some((place, record))) => *item = record_item(place.ordinal, place.first, &record),
            Ok(None) => return i,
            Err(fault) => {
                *item = fault_item(&fault);
                return i + 1;
            }
        }
    }
    room
}

#[inline(never)]
pub fn count(journal: &[u8]) -> usize {
    read_through(journal).map_or(usize::MAX, |records| records as usize)
}
