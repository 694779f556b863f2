//! One attempt: its observations, how its sequence ends, quantity control and dominance.

use super::Verdict;
use super::plan::Plan;

const LARGEST_ERROR: i32 = 2_000;

/// The tolerance D, in ten-thousandths of a tenth.
#[inline]
pub fn tolerance(plan: &Plan, p: i32, e: i32, dominance: bool) -> i32 {
    let k = if dominance { plan.uniform() } else { plan.trapezoid() };
    10_000 * p - k * e
}

#[derive(Clone, Copy, Debug)]
pub struct Attempt {
    pub tolerance: i32,
    pub observations: u32,
    pub outs: u32,
    pub sum: i32,
    pub squares: i32,
    pub wild: bool,
}

impl Attempt {
    pub fn new(tolerance: i32) -> Attempt {
        Attempt { tolerance, observations: 0, outs: 0, sum: 0, squares: 0, wild: false }
    }

    /// Takes the next error, and answers how the sequence ends if it does.
    #[inline]
    pub fn observe(&mut self, plan: &Plan, error: i32) -> Option<Verdict> {
        let counted = error.clamp(-LARGEST_ERROR, LARGEST_ERROR);
        self.wild |= counted != error;
        self.observations += 1;
        self.sum += counted;
        self.squares += counted * counted;
        let i = self.observations;
        if 10_000 * counted.abs() + plan.margin() <= self.tolerance {
            if self.outs as i32 <= plan.accept(i) {
                return Some(Verdict::Fit);
            }
        } else {
            self.outs += 1;
            if self.outs as i32 >= plan.reject(i) {
                return Some(Verdict::Unfit);
            }
        }
        (i == plan.cut()).then(|| Verdict::fit_if(self.outs <= plan.cut_number()))
    }

    /// V = N Q − S S.
    fn spread(&self) -> i64 {
        let sum = i64::from(self.sum);
        i64::from(self.observations) * i64::from(self.squares) - sum * sum
    }

    pub fn quantity(&self) -> Verdict {
        let n = i64::from(self.observations);
        if self.wild || n < 2 {
            return Verdict::Unfit;
        }
        if self.sum == 0 {
            return Verdict::Fit;
        }
        let u = if n < 10 { 150 } else { 120 - n };
        let w = n * i64::from(self.tolerance) - 10_000 * i64::from(self.sum.abs());
        let left = i128::from(160_000 * u * u) * i128::from(self.spread());
        let right = i128::from(w) * i128::from(w) * i128::from(n - 1);
        Verdict::fit_if(w > 0 && left < right)
    }

    pub fn dominance(&self) -> bool {
        let (n, sum) = (i64::from(self.observations), i64::from(self.sum));
        // At most 9.3e9 · 47 and 64 · 48 · 9.3e9: both fit into 64 bits.
        !self.wild && sum * sum * (n - 1) > 64 * n * self.spread()
    }
}
