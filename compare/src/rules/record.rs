//! Records of a journal: their bits, writing and reading.

use super::{Question, Verdict, ask};

#[derive(Clone, Copy, PartialEq, Eq, Debug)]
pub struct Sequence {
    pub point: i32,
    pub first: i32,
    pub observations: i32,
    pub outs: i32,
    pub sequence: Verdict,
    pub quantity: i32,
    pub wild: bool,
    pub dominance: bool,
    pub verdict: Verdict,
    pub settling: i32,
    pub tolerance: i32,
    pub sum: i32,
    pub squares: i32,
}

#[derive(Clone, Copy, PartialEq, Eq, Debug)]
pub struct ThreeStep {
    pub point: i32,
    pub settling: i32,
    pub tolerance: i32,
    pub sum: i32,
}

#[derive(Clone, Copy, PartialEq, Eq, Debug)]
pub struct Certificate {
    pub declared: i32,
    pub closed: i32,
    pub unfit: i32,
    pub verdict: Verdict,
    pub codes: i32,
}

#[derive(Clone, Copy, PartialEq, Eq, Debug)]
pub struct Notice {
    pub signal: i32,
}

#[derive(Clone, Copy, PartialEq, Eq, Debug)]
pub enum Record {
    Sequence(Sequence),
    ThreeStep(ThreeStep),
    Certificate(Certificate),
    Notice(Notice),
}

const SEQUENCE: usize = 15;
const THREE_STEP: usize = 8;
const CERTIFICATE: usize = 8;
const NOTICE: usize = 1;

fn point_ok(point: i32) -> bool {
    (1..=999).contains(&point)
}

fn settling_ok(settling: i32) -> bool {
    (0..=200).contains(&settling)
}

fn tolerance_ok(tolerance: i32) -> bool {
    (1..=10_000_000).contains(&tolerance)
}

fn sum_ok(sum: i32) -> bool {
    (-96_000..=96_000).contains(&sum)
}

/// Fields packed one behind another, the most significant bit first.
struct Packing(u128);

impl Packing {
    #[inline]
    fn then(self, width: u32, value: i32) -> Packing {
        Packing(self.0 << width | (value as u32 & ((1u64 << width) - 1) as u32) as u128)
    }
}

/// Bits taken off one behind another from the most significant one on.
struct Unpacking(u128);

impl Unpacking {
    #[inline]
    fn take(&mut self, width: u32) -> i32 {
        let value = (self.0 >> (128 - width)) as i32;
        self.0 <<= width;
        value
    }

    #[inline]
    fn take_signed(&mut self, width: u32) -> i32 {
        let value = (self.0 as i128 >> (128 - width)) as i32;
        self.0 <<= width;
        value
    }

    #[inline]
    fn flag(&mut self) -> bool {
        self.take(1) == 1
    }

    #[inline]
    fn verdict(&mut self) -> Verdict {
        Verdict::fit_if(self.flag())
    }
}

impl Sequence {
    fn legal(&self) -> bool {
        point_ok(self.point)
            && (0..=3).contains(&self.first)
            && (1..=48).contains(&self.observations)
            && (0..=self.observations).contains(&self.outs)
            && (0..=2).contains(&self.quantity)
            && settling_ok(self.settling)
            && tolerance_ok(self.tolerance)
            && sum_ok(self.sum)
            && (0..=192_000_000).contains(&self.squares)
    }

    #[inline]
    fn packed(&self) -> [u8; 16] {
        Packing(1)
            .then(10, self.point)
            .then(3, self.first)
            .then(6, self.observations)
            .then(6, self.outs)
            .then(1, i32::from(self.sequence.is_fit()))
            .then(2, self.quantity)
            .then(1, i32::from(self.wild))
            .then(1, i32::from(self.dominance))
            .then(1, i32::from(self.verdict.is_fit()))
            .then(8, self.settling)
            .then(24, self.tolerance)
            .then(18, self.sum)
            .then(28, self.squares)
            .then(15, 0)
            .0
            .to_be_bytes()
    }
}

impl ThreeStep {
    fn legal(&self) -> bool {
        point_ok(self.point) && settling_ok(self.settling) && tolerance_ok(self.tolerance) && sum_ok(self.sum)
    }

    #[inline]
    fn packed(&self) -> [u8; 8] {
        let bits = Packing(2).then(10, self.point).then(8, self.settling).then(24, self.tolerance).then(18, self.sum);
        (bits.0 as u64).to_be_bytes()
    }
}

impl Certificate {
    fn legal(&self) -> bool {
        (1..=999).contains(&self.declared)
            && (1..=self.declared).contains(&self.closed)
            && (0..=self.closed).contains(&self.unfit)
            && self.verdict.is_fit() == (self.unfit == 0 && self.closed == self.declared)
            && (0..=295_704).contains(&self.codes)
    }

    #[inline]
    fn packed(&self) -> [u8; 8] {
        let bits = Packing(3)
            .then(10, self.declared)
            .then(10, self.closed)
            .then(10, self.unfit)
            .then(1, i32::from(self.verdict.is_fit()))
            .then(24, self.codes)
            .then(5, 0);
        (bits.0 as u64).to_be_bytes()
    }
}

impl Record {
    pub fn legal(&self) -> bool {
        match self {
            Record::Sequence(fields) => fields.legal(),
            Record::ThreeStep(fields) => fields.legal(),
            Record::Certificate(fields) => fields.legal(),
            Record::Notice(fields) => (1..=3).contains(&fields.signal),
        }
    }

    /// Writes the record at `place`, and answers its length.
    pub fn write(&self, journal: &mut [u8], place: usize) -> Result<usize, Question> {
        ask(self.legal(), Question::FieldsInRange)?;
        match self {
            Record::Sequence(fields) => put(journal, place, &fields.packed()[..SEQUENCE]),
            Record::ThreeStep(fields) => put(journal, place, &fields.packed()),
            Record::Certificate(fields) => put(journal, place, &fields.packed()),
            Record::Notice(fields) => put(journal, place, &[0x40 | (fields.signal << 2) as u8]),
        }
    }
}

fn put(journal: &mut [u8], place: usize, bytes: &[u8]) -> Result<usize, Question> {
    journal
        .get_mut(place..)
        .and_then(|rest| rest.get_mut(..bytes.len()))
        .ok_or(Question::FitsBuffer)?
        .copy_from_slice(bytes);
    Ok(bytes.len())
}

#[derive(Clone, Copy, PartialEq, Eq, Debug)]
pub enum Layer {
    Kind = 1,
    Bits = 2,
    Field = 3,
}

#[derive(Clone, Copy, PartialEq, Eq, Debug)]
pub struct Place {
    pub ordinal: u64,
    pub first: usize,
}

#[derive(Clone, Copy, PartialEq, Eq, Debug)]
pub struct Fault {
    pub question: Question,
    pub layer: Layer,
    pub place: Place,
}

pub struct Reader<'a> {
    bytes: &'a [u8],
    read: u64,
    first: usize,
}

impl<'a> Reader<'a> {
    pub fn new(bytes: &'a [u8]) -> Reader<'a> {
        Reader { bytes, read: 0, first: 0 }
    }

    pub fn records_read(&self) -> u64 {
        self.read
    }

    /// The next record with its place, `None` at the end, or the fault of the record there.
    #[inline]
    pub fn next_record(&mut self) -> Result<Option<(Place, Record)>, Fault> {
        let rest = &self.bytes[self.first..];
        if rest.is_empty() {
            return Ok(None);
        }
        let place = Place { ordinal: self.read + 1, first: self.first };
        match parse(rest) {
            Ok((record, length)) => {
                self.read += 1;
                self.first += length;
                Ok(Some((place, record)))
            }
            Err((question, layer)) => Err(Fault { question, layer, place }),
        }
    }
}

/// Reads to the end, and answers how many records there are.
pub fn read_through(bytes: &[u8]) -> Result<u64, Fault> {
    let mut reader = Reader::new(bytes);
    while reader.next_record()?.is_some() {}
    Ok(reader.records_read())
}

type Misread = (Question, Layer);

/// The record at the start of the bytes, and its length.
#[inline]
fn parse(bytes: &[u8]) -> Result<(Record, usize), Misread> {
    let missing = (Question::BytesThere, Layer::Kind);
    let (record, length, fill) = match bytes[0] >> 4 {
        1 => {
            let mut whole = [0; 16];
            whole[..SEQUENCE].copy_from_slice(bytes.get(..SEQUENCE).ok_or(missing)?);
            let bits = u128::from_be_bytes(whole);
            (Record::Sequence(sequence(Unpacking(bits << 4))), SEQUENCE, bits >> 8 & 0x7f)
        }
        2 => {
            let bits = first_eight(bytes).ok_or(missing)?;
            (Record::ThreeStep(three_step(Unpacking(u128::from(bits) << 68))), THREE_STEP, 0)
        }
        3 => {
            let bits = first_eight(bytes).ok_or(missing)?;
            let fill = u128::from(bits & 0x1f);
            (Record::Certificate(certificate(Unpacking(u128::from(bits) << 68))), CERTIFICATE, fill)
        }
        4 => {
            let signal = i32::from(bytes[0] >> 2 & 3);
            (Record::Notice(Notice { signal }), NOTICE, u128::from(bytes[0] & 3))
        }
        _ => return Err((Question::KindKnown, Layer::Kind)),
    };
    if fill != 0 {
        return Err((Question::FillZero, Layer::Bits));
    }
    if !record.legal() {
        return Err((Question::FieldsInRange, Layer::Field));
    }
    Ok((record, length))
}

#[inline]
fn first_eight(bytes: &[u8]) -> Option<u64> {
    bytes.first_chunk().map(|chunk| u64::from_be_bytes(*chunk))
}

#[inline]
fn sequence(mut bits: Unpacking) -> Sequence {
    Sequence {
        point: bits.take(10),
        first: bits.take(3),
        observations: bits.take(6),
        outs: bits.take(6),
        sequence: bits.verdict(),
        quantity: bits.take(2),
        wild: bits.flag(),
        dominance: bits.flag(),
        verdict: bits.verdict(),
        settling: bits.take(8),
        tolerance: bits.take(24),
        sum: bits.take_signed(18),
        squares: bits.take(28),
    }
}

#[inline]
fn three_step(mut bits: Unpacking) -> ThreeStep {
    ThreeStep {
        point: bits.take(10),
        settling: bits.take(8),
        tolerance: bits.take(24),
        sum: bits.take_signed(18),
    }
}

#[inline]
fn certificate(mut bits: Unpacking) -> Certificate {
    Certificate {
        declared: bits.take(10),
        closed: bits.take(10),
        unfit: bits.take(10),
        verdict: bits.verdict(),
        codes: bits.take(24),
    }
}
