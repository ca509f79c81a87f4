//! What a call refuses, and why.
use std::fmt;

/// Why a call refused what it was given.
#[derive(Clone, Copy, Debug, PartialEq, Eq)]
#[non_exhaustive]
pub enum Refusal {
    /// Fewer octets than a header, a value or an entry has.
    Short,
    /// Another version.
    Version,
    /// GTP' in the place of GTP.
    NotGtp,
    /// A length passes the end, or ends within the header.
    Length,
    /// An extension header is empty or passes the end.
    Extension,
    /// A type of message that isn't spoken here.
    Kind,
    /// Another message is piggybacked.
    Piggyback,
    /// An IPv4 header's length is below five words, or passes the end.
    Header,
    /// An IPv4 total length ends within the header, or passes the end.
    Total,
    /// A required element of this type and instance is absent.
    Missing { kind: u8, instance: u8 },
    /// A required element of this type and instance is outside its grammar.
    Incorrect { kind: u8, instance: u8 },
    /// A template has a parameter list.
    Parameters,
    /// A template's operation is none, or has another number of entries.
    Operation,
    /// A filter's contents are no components.
    Component,
    /// An identifier stands twice.
    RepeatedId,
    /// Octets stand behind the last entry.
    Trailing,
    /// No filter has an identifier that is replaced or removed.
    NoSuchId,
    /// A filter has an identifier that is added.
    IdTaken,
    /// There is no filter to delete, or none would be left.
    Empty,
    /// Memory ran out.
    NoMemory,
    /// The room is too short: it must have so many octets or filters.
    NoRoom { needed: usize },
    /// A payload is longer than 65,535 octets.
    TooLong,
    /// A number, a moment or a struct is out of its range.
    Range,
    /// A value is outside its element's grammar.
    Value,
    /// More filters or entries than are looked at.
    TooMany,
    /// The packet takes no bearer.
    NoBearer,
    /// The message is no request, and gets no reply.
    NoReply,
    /// A number that no call of this version answers.
    Unknown { code: u32 },
}

impl fmt::Display for Refusal {
    fn fmt(&self, f: &mut fmt::Formatter<'_>) -> fmt::Result {
        match self {
            Refusal::Short => f.write_str("fewer octets than a header, a value or an entry has"),
            Refusal::Version => f.write_str("another version"),
            Refusal::NotGtp => f.write_str("GTP' in the place of GTP"),
            Refusal::Length => f.write_str("a length passes the end, or ends within the header"),
            Refusal::Extension => f.write_str("an extension header is empty or passes the end"),
            Refusal::Kind => f.write_str("a type of message that isn't spoken here"),
            Refusal::Piggyback => f.write_str("another message is piggybacked"),
            Refusal::Header => f.write_str("an IPv4 header's length is below five words, or passes the end"),
            Refusal::Total => f.write_str("an IPv4 total length ends within the header, or passes the end"),
            Refusal::Missing { kind, instance } => {
                write!(f, "the required element of type {kind} and instance {instance} is missing")
            }
            Refusal::Incorrect { kind, instance } => {
                write!(f, "the required element of type {kind} and instance {instance} is incorrect")
            }
            Refusal::Parameters => f.write_str("a template has a parameter list"),
            Refusal::Operation => f.write_str("a template's operation is none, or has another number of entries"),
            Refusal::Component => f.write_str("a filter's contents are no components"),
            Refusal::RepeatedId => f.write_str("an identifier stands twice"),
            Refusal::Trailing => f.write_str("octets stand behind the last entry"),
            Refusal::NoSuchId => f.write_str("no filter has an identifier that is replaced or removed"),
            Refusal::IdTaken => f.write_str("a filter has an identifier that is added"),
            Refusal::Empty => f.write_str("there is no filter to delete, or none would be left"),
            Refusal::NoMemory => f.write_str("memory ran out"),
            Refusal::NoRoom { needed } => write!(f, "the room is too short: {needed} are needed"),
            Refusal::TooLong => f.write_str("a payload is longer than 65,535 octets"),
            Refusal::Range => f.write_str("a number, a moment or a struct is out of its range"),
            Refusal::Value => f.write_str("a value is outside its element's grammar"),
            Refusal::TooMany => f.write_str("more filters or entries than are looked at"),
            Refusal::NoBearer => f.write_str("the packet takes no bearer"),
            Refusal::NoReply => f.write_str("the message is no request, and gets no reply"),
            Refusal::Unknown { code } => write!(f, "the number {code}, which no call answers"),
        }
    }
}

impl std::error::Error for Refusal {}

/// The refusal of a number above 0; `needed` is what the call said of the room.
pub(crate) fn refusal(code: u32, needed: usize) -> Refusal {
    match code {
        1 => Refusal::Short,
        2 => Refusal::Version,
        3 => Refusal::NotGtp,
        4 => Refusal::Length,
        5 => Refusal::Extension,
        6 => Refusal::Kind,
        7 => Refusal::Piggyback,
        8 => Refusal::Header,
        9 => Refusal::Total,
        12 => Refusal::Parameters,
        13 => Refusal::Operation,
        14 => Refusal::Component,
        15 => Refusal::RepeatedId,
        16 => Refusal::Trailing,
        17 => Refusal::NoSuchId,
        18 => Refusal::IdTaken,
        19 => Refusal::Empty,
        20 => Refusal::NoMemory,
        21 => Refusal::NoRoom { needed },
        22 => Refusal::TooLong,
        23 => Refusal::Range,
        24 => Refusal::Value,
        26 => Refusal::NoBearer,
        27 => Refusal::TooMany,
        29 => Refusal::NoReply,
        _ => Refusal::Unknown { code },
    }
}

/// Nothing where the number is 0, and else its refusal.
pub(crate) fn done(code: u32) -> Result<(), Refusal> {
    if code == 0 { Ok(()) } else { Err(refusal(code, 0)) }
}

/// How much was written, where the number is 0.
pub(crate) fn written(code: u32, needed: usize) -> Result<usize, Refusal> {
    if code == 0 { Ok(needed) } else { Err(refusal(code, needed)) }
}
