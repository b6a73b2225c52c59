//! Why a call is refused.

use crate::raw::{Answer, BAD_BUFFER, NO};
use core::fmt;

/// The heap's refusals with what they carry, and two of the boundary's own. Numbers below 0x4000_0000 are the heap's
/// refusals, and those from there on the boundary's.
///
/// A later version of the heap may have more refusals, so a `match` needs an arm for them. One that has no name in this
/// package is [`Refusal::Unknown`], and keeps its number.
#[non_exhaustive]
#[derive(Clone, Copy, Debug, PartialEq, Eq, Hash)]
pub enum Refusal {
    /// 1, set-up: pages 0 or above 4,096, or another number of words.
    BadCount,
    /// 2, set-up: start no multiple of 4,096, or the end above 2^64 - 1.
    BadStart,
    /// 3, set-up: more boot pages than pages that are not metadata.
    TooManyBoot,
    /// 4: record and words are not sound together. Damage that leaves them sound is not seen: see
    /// [the crate's page](crate#what-4-says).
    Damaged,
    /// 5, with the order: 6 or above.
    InvalidPageOrder(u64),
    /// 6: no free block of that order or a higher one.
    OutOfMemory,
    /// 7, with the address: outside the region or, but for lookup, inside a page.
    InvalidHeapAddress(u64),
    /// 8, with the address: free of a boot page.
    BootPage(u64),
    /// 9, with the address: nothing was granted at its page; lookup: or a file page was.
    InvalidPageType(u64),
    /// 10, with the address: no file page.
    InvalidFilePage(u64),
    /// 11, with the address: get at count 2^60 - 1.
    RefFull(u64),
    /// 12, with the item size: 0 or above 65,535.
    InvalidItem(u64),
    /// [`BAD_BUFFER`]: a record or report of another length; of the calls in [`raw`](crate::raw) only.
    BadBuffer,
    /// [`NO`]: no word has these fields, or no fields this word.
    No,
    /// Any other number, with what the answer has beside it.
    Unknown {
        /// The refusal's number.
        number: u64,
        /// The answer's value; 0 may be none.
        value: u64,
        /// The answer's second value; 0 may be none.
        second: u64,
    },
}

impl Refusal {
    /// The refusal's number.
    pub fn number(self) -> u64 {
        self.parts().0
    }

    /// The refusal's name without what it carries, as docs/RULES.md and `tm_refusal_name` of the C header have it.
    pub fn name(self) -> &'static str {
        self.parts().1
    }

    /// The order, address or item size that it carries; of an unknown refusal the answer's value, whatever it is.
    pub fn value(self) -> Option<u64> {
        self.parts().2
    }

    /// Number, name and value.
    fn parts(self) -> (u64, &'static str, Option<u64>) {
        match self {
            Refusal::BadCount => (1, "BadCount", None),
            Refusal::BadStart => (2, "BadStart", None),
            Refusal::TooManyBoot => (3, "TooManyBoot", None),
            Refusal::Damaged => (4, "Damaged", None),
            Refusal::InvalidPageOrder(order) => (5, "InvalidPageOrder", Some(order)),
            Refusal::OutOfMemory => (6, "OutOfMemory", None),
            Refusal::InvalidHeapAddress(address) => (7, "InvalidHeapAddress", Some(address)),
            Refusal::BootPage(address) => (8, "BootPage", Some(address)),
            Refusal::InvalidPageType(address) => (9, "InvalidPageType", Some(address)),
            Refusal::InvalidFilePage(address) => (10, "InvalidFilePage", Some(address)),
            Refusal::RefFull(address) => (11, "RefFull", Some(address)),
            Refusal::InvalidItem(item) => (12, "InvalidItem", Some(item)),
            Refusal::BadBuffer => (BAD_BUFFER, "BadBuffer", None),
            Refusal::No => (NO, "No", None),
            Refusal::Unknown { number, value, .. } => (number, "Unknown", Some(value)),
        }
    }
}

impl fmt::Display for Refusal {
    fn fmt(&self, f: &mut fmt::Formatter<'_>) -> fmt::Result {
        write!(f, "refusal {}, {self:?}", self.number())
    }
}

impl core::error::Error for Refusal {}

impl Answer {
    /// The answer's two values, or its refusal.
    pub fn result(self) -> Result<(u64, u64), Refusal> {
        Err(match self.number {
            0 => return Ok((self.value, self.second)),
            1 => Refusal::BadCount,
            2 => Refusal::BadStart,
            3 => Refusal::TooManyBoot,
            4 => Refusal::Damaged,
            5 => Refusal::InvalidPageOrder(self.value),
            6 => Refusal::OutOfMemory,
            7 => Refusal::InvalidHeapAddress(self.value),
            8 => Refusal::BootPage(self.value),
            9 => Refusal::InvalidPageType(self.value),
            10 => Refusal::InvalidFilePage(self.value),
            11 => Refusal::RefFull(self.value),
            12 => Refusal::InvalidItem(self.value),
            BAD_BUFFER => Refusal::BadBuffer,
            NO => Refusal::No,
            number => Refusal::Unknown { number, value: self.value, second: self.second },
        })
    }
}
