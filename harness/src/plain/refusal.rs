//! "Who causes which refusal".

/// The refusals in the order of their numbers; 1 to 11 are "also the order of
/// checks for a line", "after Loop come" 13 to 15, of which 14 is "checked before
/// 13"; 16 to 18 are answers of the import, checked "in that order"; 19 to 21 are those
/// of the reading of a saved text, 20 "checked just before" 19.
#[derive(Clone, Copy, Debug, PartialEq, Eq)]
pub enum Refusal {
    /// With the offset in the line that its reply tells.
    BadHex(u16),
    BadFrame,
    AlreadyOpen,
    NotOpen,
    BadSize,
    BadLink,
    NoSuchField,
    LinkTaken,
    NoSuchLink,
    Conflict,
    Loop,
    TextTooLong,
    OutOfRange,
    FieldDriven,
    BadFormula,
    BadHeader,
    UnclearUnit,
    FlowCount,
    BadImage,
    UnknownVersion,
    Unfit,
}

impl Refusal {
    /// The number of the refusal.
    pub fn number(self) -> u8 {
        match self {
            Refusal::BadHex(_) => 1,
            Refusal::BadFrame => 2,
            Refusal::AlreadyOpen => 3,
            Refusal::NotOpen => 4,
            Refusal::BadSize => 5,
            Refusal::BadLink => 6,
            Refusal::NoSuchField => 7,
            Refusal::LinkTaken => 8,
            Refusal::NoSuchLink => 9,
            Refusal::Conflict => 10,
            Refusal::Loop => 11,
            Refusal::TextTooLong => 12,
            Refusal::OutOfRange => 13,
            Refusal::FieldDriven => 14,
            Refusal::BadFormula => 15,
            Refusal::BadHeader => 16,
            Refusal::UnclearUnit => 17,
            Refusal::FlowCount => 18,
            Refusal::BadImage => 19,
            Refusal::UnknownVersion => 20,
            Refusal::Unfit => 21,
        }
    }
}
