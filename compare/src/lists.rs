//! Random plans, orders, lists of calls and journals.

use crate::plain;
use crate::random::Random;
use crate::rules::verification::Verification;
use crate::tally::Tally;
use crate::wire::*;

const MOST_CALLS: usize = 100_000;

pub struct List {
    pub setup: Setup,
    pub calls: Vec<Call>,
    /// The bytes of the journal that both are lent, and how many of them the records take that lie one behind another.
    pub length: usize,
    pub used: usize,
}

pub fn plan_words(random: &mut Random) -> PlanWords {
    let mut words = [0; PLAN_WORDS];
    words[0] = random.within(0, 6).min(5);
    let mut cut = match words[0] {
        0 | 1 => 48,
        2 => 44,
        3 => 40,
        4 => 3,
        _ => table_words(random, &mut words),
    };
    words[1] = random.pick(&[0, 0, 0, 1, 1, 2, 3]);
    for pair in words[TRUNCATIONS_AT..NUMBERS_AT].chunks_exact_mut(2) {
        let bad = random.percent(6);
        pair[0] = if bad { random.about(2, cut) } else { random.legal(2, cut.max(2)) };
        pair[1] = if bad { random.about(0, pair[0].max(0)) } else { random.legal(0, pair[0].clamp(0, 6)) };
        cut = pair[0].clamp(2, 48);
    }
    words
}

fn table_words(random: &mut Random, words: &mut PlanWords) -> i32 {
    let bad = random.percent(25);
    let number = |random: &mut Random, low: i32, high: i32| {
        if bad && random.percent(30) { random.about(low, high) } else { random.legal(low, high) }
    };
    let cut = number(random, 2, 48);
    let spare = cut.clamp(2, 48);
    words[NUMBERS_AT] = cut;
    words[NUMBERS_AT + 1] = number(random, 0, spare);
    words[NUMBERS_AT + 2] = if random.percent(50) { 0 } else { number(random, 0, 100_000) };
    words[NUMBERS_AT + 3] = number(random, 0, 9_999);
    words[NUMBERS_AT + 4] = number(random, 0, 9_999);
    words[NUMBERS_AT + 5] = number(random, 0, 24);
    let rows = random.within(1, 8).min(spare);
    words[NUMBERS_AT + 6] = if bad && random.percent(20) { random.pick(&[0, 9]) } else { rows };
    let mut from = 1;
    for row in words[ROWS_AT..].chunks_exact_mut(3) {
        row[0] = if bad && random.percent(10) { random.about(1, spare) } else { from };
        row[1] = number(random, -1, 48).min(if random.percent(80) { 3 } else { i32::MAX });
        row[2] = number(random, 0, 49);
        from += if random.percent(60) { 1 } else { random.within(1, 5) };
    }
    if !bad {
        // Only as many rows as begin before the cut.
        let fitting = words[ROWS_AT..].chunks_exact(3).take(8).filter(|row| row[0] <= cut).count() as i32;
        words[NUMBERS_AT + 6] = words[NUMBERS_AT + 6].min(fitting);
    }
    spare
}

fn plan_of_kind(kind: i32) -> PlanWords {
    let mut words = [0; PLAN_WORDS];
    words[0] = kind;
    words
}

pub fn standard(points: i32, control: i32, rule: i32, main: i32) -> Setup {
    Setup { points, control, rule, main: plan_of_kind(main), short: plan_of_kind(4) }
}

fn setup(random: &mut Random) -> Setup {
    let bad = random.percent(5);
    let points = if random.percent(50) { random.within(1, 4) } else { random.legal(1, 30) };
    Setup {
        points: if bad { random.about(1, 999) } else { points },
        control: if bad { random.about(1, 2) } else { random.within(1, 2) },
        rule: if bad { random.about(1, 2) } else { random.pick(&[1, 2, 2, 2]) },
        main: if random.percent(50) { plan_of_kind(random.within(0, 3)) } else { plan_words(random) },
        short: if random.percent(60) { plan_of_kind(4) } else { plan_words(random) },
    }
}

/// A meter: a bias and a noise in tenths, and how often of 100 its code is off by about a given size.
#[derive(Clone, Copy)]
struct Meter {
    bias: i32,
    noise: i32,
    spikes: u64,
    spike: i32,
}

impl Meter {
    fn any(random: &mut Random, width: i32) -> Meter {
        let bias = random.pick(&[0, 0, width / 8, width / 2, width * 3 / 4, width, width * 5 / 4, 2 * width]);
        let noise = random.pick(&[0, 0, 4, width / 8, width / 2, width, width * 9 / 8, 2 * width]);
        Meter {
            bias: if random.percent(50) { bias } else { -bias },
            noise,
            spikes: random.pick(&[0, 0, 0, 3, 8, 15, 30]),
            spike: if random.percent(10) { random.within(1_980, 2_020) } else { width + random.within(-10, 30) },
        }
    }

    fn code(&self, random: &mut Random, level: i32) -> i32 {
        let mut shown = level + self.bias + random.within(-self.noise, self.noise);
        if random.percent(self.spikes) {
            shown += if random.percent(50) { self.spike } else { -self.spike };
        }
        (shown + 5).div_euclid(10).clamp(-1_999_999, 1_999_999)
    }
}

/// Writes a list beside a verification by the plain rules, so that codes can follow levels.
struct Writer<'a> {
    random: &'a mut Random,
    tally: &'a mut Tally,
    guide: Option<Verification>,
    calls: Vec<Call>,
    journal: Vec<u8>,
    place: usize,
}

impl Writer<'_> {
    fn make(&mut self, call: Call) -> Reply {
        self.calls.push(call);
        let Some(mut guide) = self.guide.take() else {
            return Reply::default();
        };
        let reply = if call.kind == CERTIFY {
            let lent = call.lent.min(self.journal.len());
            match guide.certify(&mut self.journal[..lent], call.place) {
                Ok(written) => {
                    self.tally.certificates += 1;
                    self.tally.count(if written.verdict.is_fit() { "certificate: fit" } else { "certificate: unfit" });
                    return Reply { kind: WRITTEN_FIT, length: written.length, ..Reply::default() };
                }
                Err((back, question)) => {
                    guide = back;
                    Reply { kind: REFUSED, number: question as u32, ..Reply::default() }
                }
            }
        } else {
            plain::answer(&mut guide, &call, &mut self.journal)
        };
        self.guide = Some(guide);
        self.tally.reply(&reply);
        if call.kind == CLOSE && reply.kind != REFUSED {
            self.tally.record(&self.journal[call.place..]);
        }
        reply
    }

    fn code(&mut self, value: i32) -> Reply {
        self.make(Call { kind: CODE, value, ..Call::default() })
    }

    fn plain(&mut self, kind: u32) -> Reply {
        self.make(Call { kind, ..Call::default() })
    }

    fn open(&mut self, value: i32, meter: i32, reference: i32, agreement: i32) -> Reply {
        self.make(Call { kind: OPEN, value, meter, reference, agreement, ..Call::default() })
    }

    /// The level, the coming observation and whether a code is awaited, as the guide has them.
    fn awaited(&self) -> Option<(i32, u32)> {
        let level = self.guide.as_ref()?.level().ok()?;
        Some((level.level, level.number))
    }

    fn settling(&self) -> bool {
        matches!(self.awaited(), Some((_, 0)))
    }

    fn written(&mut self, kind: u32) -> bool {
        let length = self.journal.len();
        if self.random.percent(8) {
            let near = length.saturating_sub(self.random.below(20));
            let place = self.random.pick(&[length, length + 1, usize::MAX, usize::MAX - 7, near]);
            let small = self.random.below(40);
            let lent = self.random.pick(&[usize::MAX, usize::MAX, length, small]);
            let reply = self.make(Call { kind, lent, place, ..Call::default() });
            if reply.kind != REFUSED {
                return true;
            }
        }
        let reply = self.make(Call { kind, lent: usize::MAX, place: self.place, ..Call::default() });
        if reply.kind != REFUSED {
            self.place += reply.length;
        }
        reply.kind != REFUSED
    }

    fn settle(&mut self, near: i32, agreement: i32) {
        let near = near.clamp(-1_990_000, 1_990_000);
        let apart = agreement + 1;
        match self.random.below(12) {
            0 => {
                for _ in 0..self.random.below(6) {
                    let code = near + self.random.within(-20, 20);
                    self.code(code);
                }
                if self.settling() {
                    self.tally.count("settled: late");
                    self.plain(LATE);
                }
            }
            1 => {
                // Never agreeing: the 200th code ends it.
                let mut taken = 0;
                while self.settling() && taken < 200 {
                    self.code(near + apart * (taken % 3));
                    taken += 1;
                }
                self.tally.count(if taken == 200 { "settled: 200th code" } else { "settled: agreement" });
            }
            2 => {
                // Agreeing at a chosen code, the 200th and the one before it among them.
                let last = self.random.pick(&[198, 199, 200, 201, 50]);
                let mut taken = 0;
                while self.settling() {
                    let code = if taken + 3 >= last { near } else { near + 40 + apart * (taken % 3) };
                    self.code(code);
                    taken += 1;
                }
                self.tally.count(&match taken == last {
                    true => format!("settled: agreement at {last}"),
                    false => "settled: 200th code".to_string(),
                });
            }
            3 => {
                for i in 0..self.random.within(150, 199) {
                    self.code(near + apart * (i % 3));
                }
                if self.settling() {
                    self.tally.count("settled: late");
                    self.plain(LATE);
                }
            }
            4 | 5 => {
                // A slow drift of one step, within which neighbours agree and the outer two may not.
                let mut taken = 0;
                while self.settling() {
                    let code = near + self.random.within(0, agreement + 2);
                    self.code(code);
                    taken += 1;
                }
                self.tally.count(if taken == 200 { "settled: 200th code" } else { "settled: agreement" });
            }
            _ => {
                while self.settling() {
                    let code = near + self.random.within(0, agreement);
                    self.code(code);
                }
                self.tally.count("settled: agreement");
            }
        }
    }

    fn stray(&mut self) {
        let kind = self.random.below(6) as u32;
        let call = self.hostile(kind);
        if call.kind != CODE || !(-1_999_999..=1_999_999).contains(&call.value) {
            self.make(call);
        }
    }

    fn hostile(&mut self, kind: u32) -> Call {
        let length = self.journal.len();
        let random = &mut *self.random;
        match kind {
            OPEN => {
                let (value, meter) = (random.about(-20_000_000, 20_000_000), random.about(1, 1_000));
                let reference = random.about(0, meter.clamp(1, 1_000));
                Call { kind, value, meter, reference, agreement: random.about(0, 9), ..Call::default() }
            }
            CODE => {
                let value = if random.percent(70) { random.within(-30, 30) } else { random.about(-1_999_999, 1_999_999) };
                Call { kind, value, ..Call::default() }
            }
            CLOSE | CERTIFY => {
                let inside = random.below(length + 2);
                let place = random.pick(&[0, inside, inside, inside, length, usize::MAX]);
                let small = random.below(length + 2);
                let lent = random.pick(&[usize::MAX, usize::MAX, usize::MAX, small]);
                Call { kind, lent, place, ..Call::default() }
            }
            _ => Call { kind, ..Call::default() },
        }
    }

    /// A point from opening to closing, by a meter. False if it could not be closed.
    fn point(&mut self, meter: &Meter, p: i32, e: i32, signal: i32) -> bool {
        let agreement = self.random.legal(0, 9);
        if self.random.percent(4) {
            self.stray();
        }
        if self.open(signal, p, e, agreement).kind == REFUSED {
            return false;
        }
        self.settle(signal / 10, agreement);
        let questions = self.random.pick(&[0, 50, 100]);
        while let Some((level, number)) = self.awaited() {
            if number == 0 {
                // Strays may have left it unsettled.
                self.plain(LATE);
                continue;
            }
            if self.random.percent(questions) {
                self.plain(LEVEL);
            }
            if self.random.percent(1) {
                self.stray();
                continue;
            }
            let code = meter.code(self.random, level);
            self.code(code);
        }
        if self.random.percent(4) {
            self.stray();
        }
        self.written(CLOSE)
    }

    fn realistic(&mut self) {
        let (mut p, mut e) = (0, 0);
        let mut meter = Meter { bias: 0, noise: 0, spikes: 0, spike: 0 };
        while self.calls.len() < MOST_CALLS {
            if p == 0 || self.random.percent(15) {
                p = if self.random.percent(70) { self.random.within(20, 300) } else { self.random.legal(1, 1_000) };
                e = if self.random.percent(70) { p / 5 } else { self.random.legal(0, p) };
                meter = Meter::any(self.random, (p - e * 7 / 10).max(1));
            }
            let signal = if self.random.percent(90) {
                self.random.within(-200_000, 200_000)
            } else {
                self.random.legal(-20_000_000, 20_000_000)
            };
            if self.random.percent(3) {
                self.written(CERTIFY);
            }
            if self.guide.is_none() || !self.point(&meter, p, e, signal) {
                break;
            }
        }
        if self.random.percent(10) {
            self.stray();
        }
        self.written(CERTIFY);
    }

    fn careless(&mut self) {
        let calls = self.random.below(300);
        for _ in 0..calls {
            // Mostly codes, so that points are decided now and then.
            let kind = self.random.pick(&[OPEN, OPEN, LEVEL, CODE, CODE, CODE, CODE, CODE, LATE, CLOSE, CLOSE, CERTIFY]);
            let call = self.hostile(kind);
            self.make(call);
        }
    }

    /// Errors that bring dominance, or quantity control, to equality and to both sides of it: the same code all along,
    /// under offsets that rise by one.
    fn edges(&mut self, quantity: bool) {
        while self.guide.is_some() && self.calls.len() < 4_000 {
            let error = if quantity { self.random.within(5, 40) } else { self.random.within(7, 11) };
            let p = if quantity { error + self.random.within(2, 4) } else { self.random.within(20, 60) };
            let e = if quantity { 1 } else { 0 };
            let code = self.random.within(-1_000, 1_000);
            let signal = 10 * code - error + 23;
            if self.open(signal, p, e, 9).kind == REFUSED {
                break;
            }
            self.plain(LATE);
            while self.awaited().is_some() {
                self.plain(LEVEL);
                self.code(code);
            }
            if !self.written(CLOSE) {
                break;
            }
        }
        self.written(CERTIFY);
    }
}

/// A table whose offsets are −23, −22, −21 and which ends at its cut.
fn edge_plan(cut: i32) -> PlanWords {
    let mut words = plan_of_kind(5);
    words[NUMBERS_AT..NUMBERS_AT + 7].copy_from_slice(&[cut, 0, 0, 5_000, 5_000, 24, 1]);
    words[ROWS_AT..ROWS_AT + 3].copy_from_slice(&[1, -1, 49]);
    words
}

pub fn list(random: &mut Random, tally: &mut Tally) -> List {
    let way = random.below(100);
    let edge = way < 3;
    let quantity = way == 0;
    let setup = if edge {
        let main = edge_plan(if quantity { 2 } else { 3 });
        Setup { main, ..standard(random.within(1, 40), if quantity { 1 } else { random.within(1, 2) }, 2, 3) }
    } else {
        setup(random)
    };
    let needed = 15 * setup.points.clamp(1, 999) as usize + 8;
    let length = match random.below(10) {
        0 => random.below(40),
        1 => random.below(needed),
        _ => needed,
    };
    let guide = match plain::start(&setup) {
        Ok(guide) => Some(guide),
        Err(question) => {
            tally.refusal(question as u32);
            None
        }
    };
    let mut writer = Writer { random, tally, guide, calls: Vec::new(), journal: vec![0xaa; length], place: 0 };
    if writer.guide.is_none() {
        writer.plain(LEVEL);
    } else if edge {
        writer.edges(quantity);
    } else if way < 25 {
        writer.careless();
    } else {
        writer.realistic();
    }
    let (calls, used) = (writer.calls, writer.place);
    List { setup, calls, length, used }
}

/// A verification of 999 points that nothing disturbs, each observation with its level asked: what speed is measured on.
pub fn long_list(random: &mut Random, control: i32, main: i32) -> List {
    let setup = standard(999, control, 2, main);
    let length = 15 * 999 + 8;
    let guide = plain::start(&setup).ok();
    let mut tally = Tally::default();
    let mut writer =
        Writer { random, tally: &mut tally, guide, calls: Vec::new(), journal: vec![0xaa; length], place: 0 };
    for _ in 0..999 {
        let signal = writer.random.within(-200_000, 200_000);
        let width = 80;
        let meter = Meter {
            bias: writer.random.pick(&[0, 20, -20, 60]),
            noise: writer.random.pick(&[5, 20, width, width + 10]),
            spikes: writer.random.pick(&[0, 0, 5]),
            spike: width + 10,
        };
        writer.open(signal, 100, 20, 1);
        while let Some((level, number)) = writer.awaited() {
            writer.plain(LEVEL);
            let code = if number == 0 { level.div_euclid(10) } else { meter.code(writer.random, level) };
            writer.code(code);
        }
        let place = writer.place;
        let reply = writer.make(Call { kind: CLOSE, lent: usize::MAX, place, ..Call::default() });
        writer.place += reply.length;
    }
    let place = writer.place;
    let reply = writer.make(Call { kind: CERTIFY, lent: usize::MAX, place, ..Call::default() });
    let used = place + reply.length;
    List { setup, calls: writer.calls, length, used }
}

/// Bits of a record, the most significant first.
#[derive(Default)]
struct Bits {
    value: u128,
    count: u32,
}

impl Bits {
    fn put(&mut self, width: u32, value: i32) {
        self.value = self.value << width | u128::from(value as u32) & ((1 << width) - 1);
        self.count += width;
    }

    fn bytes(mut self, out: &mut Vec<u8>, fill: i32) {
        let rest = self.count.next_multiple_of(8) - self.count;
        self.put(rest, fill);
        out.extend_from_slice(&self.value.to_be_bytes()[16 - self.count as usize / 8..]);
    }
}

/// One record of a random kind; a careless one has fields about their ranges, as far as their bits allow, and sometimes fill.
pub fn put_record(random: &mut Random, out: &mut Vec<u8>, careless: bool) {
    let kind = random.pick(&[1, 1, 1, 2, 2, 3, 4]);
    let slip = |random: &mut Random, low: i32, high: i32| {
        if careless && random.percent(12) { random.about(low, high) } else { random.legal(low, high) }
    };
    let mut bits = Bits::default();
    bits.put(4, kind);
    match kind {
        1 => {
            bits.put(10, slip(random, 1, 999));
            bits.put(3, slip(random, 0, 3));
            let n = slip(random, 1, 48);
            bits.put(6, n);
            bits.put(6, slip(random, 0, n.clamp(0, 48)));
            bits.put(1, random.within(0, 1));
            bits.put(2, slip(random, 0, 2));
            bits.put(3, random.within(0, 7));
            bits.put(8, slip(random, 0, 200));
            bits.put(24, slip(random, 1, 10_000_000));
            bits.put(18, slip(random, -96_000, 96_000));
            bits.put(28, slip(random, 0, 192_000_000));
        }
        2 => {
            bits.put(10, slip(random, 1, 999));
            bits.put(8, slip(random, 0, 200));
            bits.put(24, slip(random, 1, 10_000_000));
            bits.put(18, slip(random, -96_000, 96_000));
        }
        3 => {
            let declared = slip(random, 1, 999);
            let whole = random.percent(50);
            let closed = if whole { declared } else { slip(random, 1, declared.clamp(1, 999)) };
            let unfit = if random.percent(40) { 0 } else { slip(random, 0, closed.clamp(0, 999)) };
            let mut verdict = i32::from(unfit == 0 && closed == declared);
            if careless && random.percent(10) {
                verdict = 1 - verdict;
            }
            bits.put(10, declared);
            bits.put(10, closed);
            bits.put(10, unfit);
            bits.put(1, verdict);
            bits.put(24, slip(random, 0, 295_704));
        }
        _ => bits.put(2, slip(random, 1, 3)),
    }
    let fill = if careless && random.percent(3) { random.next() as i32 } else { 0 };
    bits.bytes(out, fill);
}

/// Bytes for the readers: records about their ranges, damaged or truncated ones, or anything at all.
pub fn journal(random: &mut Random, good: &[u8]) -> Vec<u8> {
    let mut bytes = Vec::new();
    match random.below(5) {
        0 => bytes.extend_from_slice(good),
        1 => {
            bytes.extend_from_slice(good);
            for _ in 0..random.below(3) + 1 {
                if !bytes.is_empty() {
                    let at = random.below(bytes.len());
                    bytes[at] ^= 1 << random.below(8);
                }
            }
        }
        2 => bytes.extend_from_slice(&good[..random.below(good.len() + 1)]),
        3 => bytes.extend((0..random.below(40)).map(|_| random.next() as u8)),
        _ => {
            let careless = random.percent(70);
            for _ in 0..random.below(12) {
                put_record(random, &mut bytes, careless);
            }
            if random.percent(20) {
                bytes.truncate(random.below(bytes.len() + 1));
            }
        }
    }
    bytes
}
