//! Why a call is refused.
use std::error::Error;
use std::fmt;

/// The refusals by their numbers, but for 13, a broken record, and 28, a list too short for the
/// result: there are no records here, and every list for a result is made long enough.
#[derive(Clone, Copy, Debug, PartialEq, Eq, Hash)]
#[non_exhaustive]
pub enum Refusal {
    NotWellFormed = 1,
    NoOutline = 2,
    OutlineThere = 3,
    NoRing = 4,
    BeyondGrid = 5,
    BadNumber = 6,
    SameDistrict = 7,
    BadIndex = 8,
    TooFew = 9,
    NoMatch = 10,
    NumbersInUse = 11,
    NoRoom = 12,
    CountFull = 14,
    NotFinite = 18,
    Missing = 19,
}

impl Refusal {
    pub const ALL: [Refusal; 15] = [
        Refusal::NotWellFormed,
        Refusal::NoOutline,
        Refusal::OutlineThere,
        Refusal::NoRing,
        Refusal::BeyondGrid,
        Refusal::BadNumber,
        Refusal::SameDistrict,
        Refusal::BadIndex,
        Refusal::TooFew,
        Refusal::NoMatch,
        Refusal::NumbersInUse,
        Refusal::NoRoom,
        Refusal::CountFull,
        Refusal::NotFinite,
        Refusal::Missing,
    ];

    /// The number that the documents give it.
    pub fn number(self) -> u8 {
        self as u8
    }
}

impl fmt::Display for Refusal {
    fn fmt(&self, f: &mut fmt::Formatter<'_>) -> fmt::Result {
        f.write_str(match self {
            Refusal::NotWellFormed => "the register is damaged",
            Refusal::NoOutline => "the register has no outline yet",
            Refusal::OutlineThere => "the register has its outline already",
            Refusal::NoRing => "the list has an odd length, or its ring not 3 to 2,048 vertices",
            Refusal::BeyondGrid => "a coordinate is beyond 1,000,000,000 mm",
            Refusal::BadNumber => "no district has this number",
            Refusal::SameDistrict => "a district can't be merged with itself",
            Refusal::BadIndex => "the ring has no such vertex, or a split ends where it starts",
            Refusal::TooFew => "a ring of fewer than 3 vertices would be left",
            Refusal::NoMatch => "the two districts don't share this stretch of border",
            Refusal::NumbersInUse => "all 64 district numbers are in use",
            Refusal::NoRoom => "the districts would have more than 2,048 vertices together",
            Refusal::CountFull => "the count to be raised is as large as it can be",
            Refusal::NotFinite => "a value of the fix is not a number, or infinite",
            Refusal::Missing => "the report has no position",
        })
    }
}

impl Error for Refusal {}
