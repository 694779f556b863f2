//! Plans: how an attempt ends.

use super::{Question, ask};

pub const LARGEST_CUT: u32 = 48;
const UNIT: i32 = 10_000;

/// A row of a laboratory's table: in force from its first observation on.
#[derive(Clone, Copy, Default, Debug)]
pub struct Row {
    pub from: i32,
    pub accept: i32,
    pub reject: i32,
}

/// The numbers that are given with a table's rows.
#[derive(Clone, Copy, Default, Debug)]
pub struct TableNumbers {
    pub cut: i32,
    pub cut_number: i32,
    pub margin: i32,
    pub trapezoid: i32,
    pub uniform: i32,
    pub peak: i32,
}

#[derive(Clone, Copy, Debug)]
enum Shape {
    Line { accept: i32, reject: i32, slope: i32 },
    ThreeStep,
    Table { rows: [Row; 8], len: u8 },
}

/// Any plan. A truncation alters only the cut and the cut number.
#[derive(Clone, Copy, Debug)]
pub struct Plan {
    shape: Shape,
    peak: i32,
    cut: u32,
    cut_number: u32,
    margin: i32,
    trapezoid: i32,
    uniform: i32,
}

impl Plan {
    pub const LINE_STRENGTHENED: Plan = Plan {
        shape: Shape::Line { accept: 14_925, reject: 14_925, slope: 612 },
        peak: 11,
        cut: 48,
        cut_number: 48,
        margin: 0,
        trapezoid: 8_775,
        uniform: 9_800,
    };
    pub const LINE_NORMAL: Plan = Plan {
        shape: Shape::Line { accept: 16_223, reject: 18_981, slope: 1_103 },
        peak: 10,
        cut: 48,
        cut_number: 48,
        margin: 0,
        trapezoid: 6_127,
        uniform: 8_000,
    };
    pub const STRENGTHENED: Plan = Plan { cut: 44, cut_number: 2, ..Plan::LINE_STRENGTHENED };
    pub const NORMAL: Plan = Plan { cut: 40, cut_number: 4, ..Plan::LINE_NORMAL };
    pub const THREE_STEP: Plan = Plan {
        shape: Shape::ThreeStep,
        peak: 0,
        cut: 3,
        cut_number: 0,
        margin: 50_001,
        trapezoid: 8_000,
        uniform: 8_000,
    };

    pub fn table(numbers: &TableNumbers, given: &[Row]) -> Result<Plan, Question> {
        let &TableNumbers { cut, cut_number, margin, trapezoid, uniform, peak } = numbers;
        ask((2..=LARGEST_CUT as i32).contains(&cut), Question::TableRanges)?;
        let rising = given.windows(2).all(|pair| pair[0].from < pair[1].from);
        let rows_right = (1..=8).contains(&given.len())
            && given[0].from == 1
            && rising
            && given.iter().all(|row| row.from <= cut);
        ask(rows_right, Question::Rows)?;
        let in_range = (0..=cut).contains(&cut_number)
            && (0..=100_000).contains(&margin)
            && (0..=9_999).contains(&trapezoid)
            && (0..=9_999).contains(&uniform)
            && (0..=24).contains(&peak)
            && given.iter().all(|row| (-1..=48).contains(&row.accept) && (0..=49).contains(&row.reject));
        ask(in_range, Question::TableRanges)?;
        let mut rows = [Row::default(); 8];
        rows[..given.len()].copy_from_slice(given);
        Ok(Plan {
            shape: Shape::Table { rows, len: given.len() as u8 },
            peak,
            cut: cut as u32,
            cut_number: cut_number as u32,
            margin,
            trapezoid,
            uniform,
        })
    }

    pub fn truncated(self, cut: i32, cut_number: i32) -> Result<Plan, Question> {
        ask((2..=self.cut as i32).contains(&cut), Question::NewCut)?;
        ask((0..=cut).contains(&cut_number), Question::NewCutNumber)?;
        Ok(Plan { cut: cut as u32, cut_number: cut_number as u32, ..self })
    }

    pub fn cut(&self) -> u32 {
        self.cut
    }

    pub fn cut_number(&self) -> u32 {
        self.cut_number
    }

    pub fn margin(&self) -> i32 {
        self.margin
    }

    pub fn trapezoid(&self) -> i32 {
        self.trapezoid
    }

    pub fn uniform(&self) -> i32 {
        self.uniform
    }

    #[inline]
    fn covers(&self, i: u32) -> bool {
        (1..=self.cut).contains(&i)
    }

    #[inline]
    pub fn accept(&self, i: u32) -> i32 {
        if !self.covers(i) {
            return -1;
        }
        match &self.shape {
            Shape::Line { accept, slope, .. } => (slope * i as i32 - accept).div_euclid(UNIT).max(-1),
            Shape::ThreeStep => if i == 3 { 0 } else { -1 },
            Shape::Table { rows, len } => in_force(&rows[..usize::from(*len)], i).accept,
        }
    }

    #[inline]
    pub fn reject(&self, i: u32) -> i32 {
        if !self.covers(i) {
            return 49;
        }
        match &self.shape {
            Shape::Line { reject, slope, .. } => (slope * i as i32 + reject + UNIT - 1) / UNIT,
            Shape::ThreeStep => 1,
            Shape::Table { rows, len } => in_force(&rows[..usize::from(*len)], i).reject,
        }
    }

    #[inline]
    pub fn offset(&self, i: u32) -> i32 {
        if !self.covers(i) {
            return 0;
        }
        match self.shape {
            Shape::ThreeStep => 5 * (i as i32 - 2),
            _ => self.peak - (2 * self.peak - i as i32).abs(),
        }
    }

    /// The least observation after `made` at which an attempt with `outs` ends fit if all errors to come are in
    /// tolerance; 0 if there is none.
    #[inline]
    pub fn soonest_fit(&self, made: u32, outs: u32) -> u32 {
        if made >= self.cut {
            return 0;
        }
        let accepting = match self.shape {
            // A line accepts from the least i on at which slope · i is 10,000 outs + accept or more.
            Shape::Line { accept, slope, .. } => {
                let least = (UNIT as u32 * outs + accept as u32).div_ceil(slope as u32);
                Some(least.max(made + 1)).filter(|i| *i <= self.cut)
            }
            _ => (made + 1..=self.cut).find(|&i| outs as i32 <= self.accept(i)),
        };
        accepting.or((outs <= self.cut_number).then_some(self.cut)).unwrap_or(0)
    }
}

#[inline]
fn in_force(rows: &[Row], i: u32) -> &Row {
    rows.iter().rev().find(|row| row.from <= i as i32).unwrap_or(&rows[0])
}
