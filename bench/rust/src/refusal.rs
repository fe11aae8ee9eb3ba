//! Why a line, or a whole file, is refused.

#[derive(Clone, Copy, Debug, PartialEq, Eq)]
pub enum Refusal {
    FileTooLong,
    Form,
    Range,
    Sections,
    ProgramTooLong,
    NotNow,
    OtherKind,
    Owing,
    NotThere,
    TooNew,
    Value,
    Span,
    ClosingLine,
    Full,
    EndOwing,
    Unfinished,
}

impl Refusal {
    pub fn number(self) -> u16 {
        match self {
            Refusal::FileTooLong => 2,
            Refusal::Form => 3,
            Refusal::Range => 4,
            Refusal::Sections => 5,
            Refusal::ProgramTooLong => 6,
            Refusal::NotNow => 7,
            Refusal::OtherKind => 8,
            Refusal::Owing => 9,
            Refusal::NotThere => 10,
            Refusal::TooNew => 11,
            Refusal::Value => 12,
            Refusal::Span => 13,
            Refusal::ClosingLine => 14,
            Refusal::Full => 15,
            Refusal::EndOwing => 16,
            Refusal::Unfinished => 17,
        }
    }

    pub fn layer(self) -> u16 {
        match self {
            Refusal::FileTooLong
            | Refusal::Sections
            | Refusal::ProgramTooLong
            | Refusal::Unfinished => 0,
            Refusal::Form | Refusal::Range => 1,
            Refusal::Full => 3,
            _ => 2,
        }
    }
}

/// A refusal and the place of the line that it names.
#[derive(Clone, Copy, Debug, PartialEq, Eq)]
pub struct Refused {
    pub refusal: Refusal,
    pub section: u16,
    pub line: u16,
}
