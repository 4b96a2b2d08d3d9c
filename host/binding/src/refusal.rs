//! The refusals, by their numbers, in the order in which they are looked for.

use std::fmt;

#[derive(Clone, Copy, Debug, PartialEq, Eq, Hash)]
#[repr(u32)]
pub enum Refusal {
    CaseLength = 1,
    Kind = 2,
    Row = 3,
    Route = 4,
    User = 5,
    NoUsage = 31,
    Count = 6,
    Dossier = 7,
    Pattern = 8,
    Unlisted = 9,
    OverLimit = 10,
    SumOverOne = 11,
    Compartment = 12,
    NotAnArchive = 21,
    Held = 22,
    Full = 23,
    NoRecord = 24,
}

impl Refusal {
    pub const ALL: [Refusal; 17] = [
        Refusal::CaseLength,
        Refusal::Kind,
        Refusal::Row,
        Refusal::Route,
        Refusal::User,
        Refusal::NoUsage,
        Refusal::Count,
        Refusal::Dossier,
        Refusal::Pattern,
        Refusal::Unlisted,
        Refusal::OverLimit,
        Refusal::SumOverOne,
        Refusal::Compartment,
        Refusal::NotAnArchive,
        Refusal::Held,
        Refusal::Full,
        Refusal::NoRecord,
    ];

    pub fn number(self) -> u32 {
        self as u32
    }

    pub fn from_number(number: u32) -> Option<Refusal> {
        Refusal::ALL.into_iter().find(|refusal| refusal.number() == number)
    }

    /// What the refusal means, in plain words.
    pub fn words(self) -> &'static str {
        match self {
            Refusal::CaseLength => "the case is not 64 bytes long",
            Refusal::Kind => "the kind is not one of 1 to 8",
            Refusal::Row => "the row is not among the kind's",
            Refusal::Route => "the route is not allowed for this kind and row",
            Refusal::User => "the user is not allowed for this kind",
            Refusal::NoUsage => "the polymer has no usage for this process",
            Refusal::Count => "the count T is not allowed for this kind and row",
            Refusal::Dossier => "the dossier number is 0",
            Refusal::Pattern => "a quantity has its sign bit set or is no finite number",
            Refusal::Unlisted => "a quantity that this kind and row do not carry is not zero",
            Refusal::OverLimit => "a quantity is over its limit",
            Refusal::SumOverOne => "the fractions to the compartments add up to more than 1",
            Refusal::Compartment => "the compartment is not one of 1 to 4",
            Refusal::NotAnArchive => "this is not a whole archive: its length or its trailer is wrong",
            Refusal::Held => "the same filing is already held",
            Refusal::Full => "there is no room for it",
            Refusal::NoRecord => "there is no such record",
        }
    }

    /// None for 0, otherwise the refusal of that number.
    pub(crate) fn check(number: u32) -> Result<(), Refusal> {
        match number {
            0 => Ok(()),
            _ => Err(Refusal::from_number(number).expect("the library's refusals are those listed")),
        }
    }
}

impl fmt::Display for Refusal {
    fn fmt(&self, f: &mut fmt::Formatter) -> fmt::Result {
        write!(f, "refused {}: {}", self.number(), self.words())
    }
}

impl std::error::Error for Refusal {}
