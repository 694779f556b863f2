//! What crosses the boundary: the same words for the proved library and for the plain rules.

#[repr(C)]
#[derive(Clone, Copy, Default, Debug, PartialEq, Eq)]
pub struct Call {
    pub kind: u32,
    pub value: i32,
    pub meter: i32,
    pub reference: i32,
    pub agreement: i32,
    pub lent: usize,
    pub place: usize,
}

pub const OPEN: u32 = 0;
pub const LEVEL: u32 = 1;
pub const CODE: u32 = 2;
pub const LATE: u32 = 3;
pub const CLOSE: u32 = 4;
pub const CERTIFY: u32 = 5;

#[repr(C)]
#[derive(Clone, Copy, Default, Debug, PartialEq, Eq)]
pub struct Reply {
    pub kind: u32,
    pub value: i32,
    pub number: u32,
    pub soonest: u32,
    pub length: usize,
}

pub const REFUSED: u32 = 0;
pub const DONE: u32 = 1;
pub const AT_LEVEL: u32 = 2;
pub const UNDECIDED: u32 = 3;
pub const FIT: u32 = 4;
pub const UNFIT: u32 = 5;
pub const WRITTEN_FIT: u32 = 6;
pub const WRITTEN_UNFIT: u32 = 7;

#[repr(C)]
#[derive(Clone, Copy, Default, Debug, PartialEq, Eq)]
pub struct Asked {
    pub refused: u32,
    pub cut: u32,
    pub cut_number: u32,
    pub margin: u32,
    pub trapezoid: u32,
    pub uniform: u32,
    pub accept: i32,
    pub reject: u32,
    pub offset: i32,
}

#[repr(C)]
#[derive(Clone, Copy, Default, Debug, PartialEq, Eq)]
pub struct Item {
    pub ordinal: usize,
    pub first_byte: usize,
    pub kind: u32,
    pub fields: [i32; 13],
}

/// A plan as numbers: its kind (0 and 1 the lines, 2 and 3 the standard controls, 4 three-step, 5 a table), the truncations
/// over it, and a table's numbers and rows.
pub const PLAN_WORDS: usize = 42;
pub type PlanWords = [i32; PLAN_WORDS];
pub const TRUNCATIONS_AT: usize = 2;
pub const NUMBERS_AT: usize = 8;
pub const ROWS_AT: usize = 15;

#[derive(Clone, Copy, Debug)]
pub struct Setup {
    pub points: i32,
    pub control: i32,
    pub rule: i32,
    pub main: PlanWords,
    pub short: PlanWords,
}

impl Setup {
    /// A standard control as the main plan and three-step as the short one, nothing truncated further.
    pub fn is_standard(&self) -> bool {
        matches!(self.main[..2], [2 | 3, 0]) && self.short[..2] == [4, 0]
    }
}

/// How a list is run: by the proved library or by the plain rules.
pub type Run = fn(&Setup, &[Call], &mut [u8], &mut [Reply]) -> usize;
