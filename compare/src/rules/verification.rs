//! Orders, and a verification over a main and a short plan.

use super::attempt::{Attempt, tolerance};
use super::plan::Plan;
use super::record::{Certificate, Record, Sequence, ThreeStep};
use super::{Question, Verdict, ask};

const MOST_SETTLING: u32 = 200;

#[derive(Clone, Copy, PartialEq, Eq, Debug)]
pub enum Control {
    Full,
    Reduced,
}

#[derive(Clone, Copy, PartialEq, Eq, Debug)]
pub enum StopRule {
    AtUnfit,
    ThroughAll,
}

#[derive(Clone, Copy, Debug)]
pub struct Orders {
    points: u32,
    control: Control,
    rule: StopRule,
}

impl Orders {
    pub fn new(points: i32, control: i32, rule: i32) -> Result<Orders, Question> {
        ask((1..=999).contains(&points), Question::Points)?;
        let control = match control {
            1 => Control::Full,
            2 => Control::Reduced,
            _ => return Err(Question::Control),
        };
        let rule = match rule {
            1 => StopRule::AtUnfit,
            2 => StopRule::ThroughAll,
            _ => return Err(Question::StopRule),
        };
        Ok(Orders { points: points as u32, control, rule })
    }
}

#[derive(Clone, Copy, PartialEq, Eq, Debug)]
pub struct Level {
    pub level: i32,
    pub number: u32,
    pub soonest: u32,
}

/// `None` while the point is undecided.
pub type Decision = Option<Verdict>;

#[derive(Clone, Copy, PartialEq, Eq, Debug)]
pub struct Written {
    pub verdict: Verdict,
    pub length: usize,
}

#[derive(Clone, Copy, PartialEq, Eq, Debug)]
enum On {
    Main,
    Short,
}

/// What a point's first attempt was, by the number that its record has for it.
#[derive(Clone, Copy, PartialEq, Eq, Debug)]
enum First {
    None = 0,
    SequenceAloneFit = 1,
    QuantityAloneFit = 2,
    ShortUnfit = 3,
}

#[derive(Clone, Copy, Debug)]
enum Phase {
    /// The latest two codes, the latest last.
    Settling([i32; 2]),
    Observing { on: On, first: First, attempt: Attempt },
    Decided { verdict: Verdict, next: On, record: Record },
}

#[derive(Clone, Copy, Debug)]
struct Point {
    main_signal: i32,
    p: i32,
    e: i32,
    agreement: i32,
    settling: u32,
    phase: Phase,
}

#[derive(Clone, Debug)]
pub struct Verification {
    main: Plan,
    short: Plan,
    orders: Orders,
    closed: u32,
    unfit: u32,
    codes: u32,
    dominance: bool,
    next: On,
    point: Option<Point>,
}

impl Verification {
    pub fn new(orders: Orders, main: Plan, short: Plan) -> Verification {
        Verification {
            main,
            short,
            orders,
            closed: 0,
            unfit: 0,
            codes: 0,
            dominance: false,
            next: On::Main,
            point: None,
        }
    }

    #[inline]
    fn ended(&self) -> bool {
        self.closed == self.orders.points || self.orders.rule == StopRule::AtUnfit && self.unfit > 0
    }

    #[inline]
    fn plan(&self, on: On) -> &Plan {
        match on {
            On::Main => &self.main,
            On::Short => &self.short,
        }
    }

    pub fn open(&mut self, main_signal: i32, p: i32, e: i32, agreement: i32) -> Result<(), Question> {
        ask(!self.ended(), Question::GoingOn)?;
        ask(self.point.is_none(), Question::NoPointOpen)?;
        ask((-20_000_000..=20_000_000).contains(&main_signal), Question::MainSignal)?;
        ask((1..=1_000).contains(&p), Question::MeterError)?;
        ask((0..=p).contains(&e), Question::ReferenceError)?;
        ask((0..=9).contains(&agreement), Question::Agreement)?;
        self.point =
            Some(Point { main_signal, p, e, agreement, settling: 0, phase: Phase::Settling([0; 2]) });
        Ok(())
    }

    pub fn level(&self) -> Result<Level, Question> {
        ask(!self.ended(), Question::GoingOn)?;
        let point = self.point.as_ref().ok_or(Question::PointOpen)?;
        match &point.phase {
            Phase::Settling(_) => {
                let soonest = self.plan(self.next).soonest_fit(0, 0);
                Ok(Level { level: point.main_signal, number: 0, soonest })
            }
            Phase::Observing { on, attempt, .. } => {
                let plan = self.plan(*on);
                let number = attempt.observations + 1;
                let soonest = plan.soonest_fit(attempt.observations, attempt.outs);
                Ok(Level { level: point.main_signal + plan.offset(number), number, soonest })
            }
            Phase::Decided { .. } => Err(Question::Undecided),
        }
    }

    pub fn code(&mut self, code: i32) -> Result<Decision, Question> {
        ask(!self.ended(), Question::GoingOn)?;
        let point = self.point.as_mut().ok_or(Question::PointOpen)?;
        ask(!matches!(point.phase, Phase::Decided { .. }), Question::Undecided)?;
        ask((-1_999_999..=1_999_999).contains(&code), Question::LegalCode)?;
        self.codes += 1;
        match &mut point.phase {
            Phase::Settling(latest) => {
                let [before, last] = *latest;
                point.settling += 1;
                let spread = before.max(last).max(code) - before.min(last).min(code);
                if point.settling >= 3 && spread <= point.agreement || point.settling == MOST_SETTLING {
                    self.begin_first();
                } else {
                    *latest = [last, code];
                }
                Ok(None)
            }
            Phase::Observing { on, first, attempt } => {
                let plan = match on {
                    On::Main => &self.main,
                    On::Short => &self.short,
                };
                let level = point.main_signal + plan.offset(attempt.observations + 1);
                let Some(sequence) = attempt.observe(plan, 10 * code - level) else {
                    return Ok(None);
                };
                let (on, first, attempt) = (*on, *first, *attempt);
                Ok(self.attempt_ended(on, first, attempt, sequence))
            }
            Phase::Decided { .. } => Err(Question::Undecided),
        }
    }

    pub fn late(&mut self) -> Result<Decision, Question> {
        ask(!self.ended(), Question::GoingOn)?;
        let point = self.point.as_ref().ok_or(Question::PointOpen)?;
        ask(matches!(point.phase, Phase::Settling(_)), Question::Settling)?;
        self.begin_first();
        Ok(None)
    }

    fn begin_first(&mut self) {
        self.begin(self.next, First::None);
    }

    fn begin(&mut self, on: On, first: First) {
        let dominance = self.dominance;
        let plan = match on {
            On::Main => &self.main,
            On::Short => &self.short,
        };
        if let Some(point) = &mut self.point {
            let attempt = Attempt::new(tolerance(plan, point.p, point.e, dominance));
            point.phase = Phase::Observing { on, first, attempt };
        }
    }

    fn attempt_ended(&mut self, on: On, first: First, attempt: Attempt, sequence: Verdict) -> Decision {
        if on == On::Short {
            return match sequence {
                Verdict::Fit => self.decide_short(&attempt),
                Verdict::Unfit => {
                    self.begin(On::Main, First::ShortUnfit);
                    None
                }
            };
        }
        self.dominance = attempt.dominance();
        match self.orders.control {
            Control::Reduced => self.decide(first, &attempt, sequence, None, sequence),
            Control::Full => {
                let quantity = attempt.quantity();
                if first == First::None && sequence != quantity {
                    let was = match sequence {
                        Verdict::Fit => First::SequenceAloneFit,
                        Verdict::Unfit => First::QuantityAloneFit,
                    };
                    self.begin(On::Main, was);
                    return None;
                }
                let verdict = Verdict::fit_if(sequence.is_fit() && quantity.is_fit());
                self.decide(first, &attempt, sequence, Some(quantity), verdict)
            }
        }
    }

    fn decide_short(&mut self, attempt: &Attempt) -> Decision {
        let number = self.closed as i32 + 1;
        if let Some(point) = &mut self.point {
            let record = Record::ThreeStep(ThreeStep {
                point: number,
                settling: point.settling as i32,
                tolerance: attempt.tolerance,
                sum: attempt.sum,
            });
            point.phase = Phase::Decided { verdict: Verdict::Fit, next: On::Short, record };
        }
        Some(Verdict::Fit)
    }

    fn decide(
        &mut self,
        first: First,
        attempt: &Attempt,
        sequence: Verdict,
        quantity: Option<Verdict>,
        verdict: Verdict,
    ) -> Decision {
        let number = self.closed as i32 + 1;
        let (control, dominance) = (self.orders.control, self.dominance);
        if let Some(point) = &mut self.point {
            let record = Record::Sequence(Sequence {
                point: number,
                first: first as i32,
                observations: attempt.observations as i32,
                outs: attempt.outs as i32,
                sequence,
                quantity: match quantity {
                    None => 0,
                    Some(Verdict::Fit) => 1,
                    Some(Verdict::Unfit) => 2,
                },
                wild: attempt.wild,
                dominance,
                verdict,
                settling: point.settling as i32,
                tolerance: attempt.tolerance,
                sum: attempt.sum,
                squares: attempt.squares,
            });
            let short_next = control == Control::Reduced && first == First::None && dominance;
            let next = if short_next { On::Short } else { On::Main };
            point.phase = Phase::Decided { verdict, next, record };
        }
        Some(verdict)
    }

    pub fn close(&mut self, journal: &mut [u8], place: usize) -> Result<Written, Question> {
        ask(!self.ended(), Question::GoingOn)?;
        let point = self.point.as_ref().ok_or(Question::PointOpen)?;
        let Phase::Decided { verdict, next, record } = &point.phase else {
            return Err(Question::Decided);
        };
        let length = record.write(journal, place)?;
        let verdict = *verdict;
        self.next = *next;
        self.closed += 1;
        self.unfit += u32::from(!verdict.is_fit());
        self.point = None;
        Ok(Written { verdict, length })
    }

    /// Spends the verification, or gives it back with the question that was answered no.
    pub fn certify(self, journal: &mut [u8], place: usize) -> Result<Written, (Verification, Question)> {
        if !self.ended() {
            return Err((self, Question::Ended));
        }
        let verdict = Verdict::fit_if(self.unfit == 0 && self.closed == self.orders.points);
        let record = Record::Certificate(Certificate {
            declared: self.orders.points as i32,
            closed: self.closed as i32,
            unfit: self.unfit as i32,
            verdict,
            codes: self.codes as i32,
        });
        match record.write(journal, place) {
            Ok(length) => Ok(Written { verdict, length }),
            Err(question) => Err((self, question)),
        }
    }
}
