//! What a run has reached, so that one sees that every way was taken.

use crate::rules::record::{Reader, Record};
use crate::wire::{REFUSED, Reply};
use std::collections::BTreeMap;

#[derive(Default)]
pub struct Tally {
    ways: BTreeMap<String, u64>,
    questions: [u64; 25],
    pub lists: u64,
    pub calls: u64,
    pub certificates: u64,
    pub journals: u64,
    pub records: u64,
    pub plan_questions: u64,
}

impl Tally {
    pub fn count(&mut self, way: &str) {
        match self.ways.get_mut(way) {
            Some(n) => *n += 1,
            None => {
                self.ways.insert(way.to_string(), 1);
            }
        }
    }

    pub fn refusal(&mut self, number: u32) {
        self.questions[number as usize] += 1;
    }

    pub fn reply(&mut self, reply: &Reply) {
        if reply.kind == REFUSED {
            self.refusal(reply.number);
        }
    }

    /// How the point was decided whose record was just written.
    pub fn record(&mut self, bytes: &[u8]) {
        match Reader::new(bytes).next_record() {
            Ok(Some((_, Record::Sequence(f)))) => {
                let attempt = match (f.quantity, f.first) {
                    (0, 0) => "reduced, main attempt",
                    (0, _) => "reduced, main after an unfit short one",
                    (_, 0) => "full, first attempt",
                    (_, 1) => "full, second after sequence alone fit",
                    _ => "full, second after quantity alone fit",
                };
                let verdict = if f.verdict.is_fit() { "fit" } else { "unfit" };
                self.count(&format!("point: {attempt}: {verdict}"));
                if f.wild {
                    self.count("point with a wild error");
                }
                if f.dominance {
                    self.count("point with dominance");
                }
                let (n, s, q) = (i128::from(f.observations), i128::from(f.sum), i128::from(f.squares));
                let v = n * q - s * s;
                let w = n * i128::from(f.tolerance) - 10_000 * s.abs();
                let u = if n < 10 { 150 } else { 120 - n };
                if !f.wild && v > 0 && s * s * (n - 1) == 64 * n * v {
                    self.count("dominance at equality");
                }
                if f.quantity > 0 && !f.wild && s != 0 && w > 0 && v > 0 && 160_000 * u * u * v == w * w * (n - 1) {
                    self.count("quantity control at equality");
                }
                if f.quantity > 0 && s == 0 && !f.wild {
                    self.count("quantity control with S = 0");
                }
                if f.observations == 48 {
                    self.count("point with 48 observations in its attempt");
                }
            }
            Ok(Some((_, Record::ThreeStep(_)))) => self.count("point: reduced, short attempt: fit"),
            _ => {}
        }
    }

    pub fn print(&self) {
        println!(
            "{} lists, {} calls, {} certificates; {} questions to plans; {} journals, {} records read",
            self.lists, self.calls, self.certificates, self.plan_questions, self.journals, self.records
        );
        for (way, n) in &self.ways {
            println!("  {n:>9}  {way}");
        }
        print!("  refusals by question:");
        for (number, n) in self.questions.iter().enumerate().skip(1) {
            print!(" {number}:{n}");
        }
        println!();
    }
}
