//! The planner's calls in plain Rust, written from documents 01 and 02 alone.

pub mod bound;
pub mod figures;
pub mod ledger;
pub mod meter;
pub mod page;
pub mod run;
pub mod sheet;
pub mod words;

/// The largest amount that is given or stored.
pub const LARGEST: u64 = 1_073_741_823;

/// The refusals of section 7 and of document 02, with their places.
#[derive(Clone, Copy, Debug, PartialEq, Eq)]
pub enum Refusal {
    Unusable,
    HeaderCutOff(usize),
    FieldUnexpected(usize),
    BodyCutOff(usize),
    OutOfRange(usize),
    FramedAfterFilter(usize),
    FigureTooLarge(usize),
    RateTooLow(usize),
    DelayAboveWanted,
    PathNumberWrong,
    LedgerFull,
    LinkShort,
    InputBreaksDeclaration,
    ChoiceAboveGreatest(usize),
    RowsOutOfOrder(usize),
    ConfirmedAlready,
}

impl Refusal {
    pub fn number(self) -> u32 {
        match self {
            Refusal::Unusable => 1,
            Refusal::HeaderCutOff(_) => 2,
            Refusal::FieldUnexpected(_) => 3,
            Refusal::BodyCutOff(_) => 4,
            Refusal::OutOfRange(_) => 5,
            Refusal::FramedAfterFilter(_) => 6,
            Refusal::FigureTooLarge(_) => 7,
            Refusal::RateTooLow(_) => 8,
            Refusal::DelayAboveWanted => 9,
            Refusal::PathNumberWrong => 10,
            Refusal::LedgerFull => 11,
            Refusal::LinkShort => 12,
            Refusal::InputBreaksDeclaration => 13,
            Refusal::ChoiceAboveGreatest(_) => 14,
            Refusal::RowsOutOfOrder(_) => 15,
            Refusal::ConfirmedAlready => 16,
        }
    }

    pub fn place(self) -> usize {
        match self {
            Refusal::HeaderCutOff(at)
            | Refusal::FieldUnexpected(at)
            | Refusal::BodyCutOff(at)
            | Refusal::OutOfRange(at)
            | Refusal::FramedAfterFilter(at)
            | Refusal::FigureTooLarge(at)
            | Refusal::RateTooLow(at)
            | Refusal::ChoiceAboveGreatest(at)
            | Refusal::RowsOutOfOrder(at) => at,
            _ => 0,
        }
    }
}
