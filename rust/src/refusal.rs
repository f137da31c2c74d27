// SPDX-License-Identifier: Apache-2.0 OR MIT
//! Why octets, fields or a text are refused.
use crate::ffi::{self, Outcome};
use std::error::Error;
use std::fmt;

numbered! {
    /// Why octets, fields or a text are refused. Section 10 of docs/FORMATS.md says which octet is refused for which
    /// reason, section 8.5 says it of fields, and section 8.6 of a text.
    ///
    /// It prints as its name, and an unknown one as its number.
    ///
    /// ```
    /// use bactool::Why;
    ///
    /// assert_eq!(Why::from(9), Why::Content);
    /// assert_eq!(u32::from(Why::Content), 9);
    /// assert_eq!(Why::Content.to_string(), "Content");
    /// assert_eq!(Why::from(9999), Why::Unknown(9999));
    /// assert_eq!(Why::from(9999).to_string(), "reason 9999");
    /// ```
    Why {
        /// The octets, the fields or the text end where more must come.
        Short = 1,
        /// Octets or fields follow a whole frame.
        Trailing = 2,
        /// The version octet is not 1.
        Version = 3,
        /// A source address of length 0.
        Address = 4,
        /// A PDU type that is not used.
        PduType = 5,
        /// A window size that is not 1 to 127.
        Window = 6,
        /// A tag that cannot be here.
        Tag = 7,
        /// A length that cannot be here.
        Length = 8,
        /// Contents that no value has.
        Content = 9,
        /// A group inside too many others: at most 32 nest.
        Depth = 10,
        /// A tolerated encoding, and canonical octets were asked for.
        NotCanonical = 11,
        /// Memory was refused.
        OutOfMemory = 12,
        /// Of fields only: a name that cannot be here.
        Name = 13,
        /// Of fields only: a number that the field cannot have here.
        Number = 14,
        /// Of fields only: contents that the field cannot have here.
        Contents = 15,
        /// Of a text only: an octet that no text of a frame has there.
        Text = 16,
    }
}

impl fmt::Display for Why {
    fn fmt(&self, formatter: &mut fmt::Formatter<'_>) -> fmt::Result {
        let number = u32::from(*self);
        match ffi::reason(number) {
            Some(name) => formatter.pad(&name),
            None => write!(formatter, "reason {number}"),
        }
    }
}

/// Why octets, fields or a text are refused, and where. It prints as `Content at 21`.
///
/// ```
/// use bactool::{normalise, Why};
///
/// let refusal = normalise(&[0x01, 0x00, 0x10, 0x08, 0x09, 0x64]).unwrap_err();
/// assert_eq!((refusal.why, refusal.place), (Why::Short, 6));
/// assert_eq!(refusal.to_string(), "Short at 6");
/// ```
#[derive(Clone, Copy, Debug, PartialEq, Eq, Hash)]
#[non_exhaustive]
pub struct Refusal {
    /// The reason. It is [`Why::OutOfMemory`] if the library was refused memory, and then the place is 0.
    pub why: Why,
    /// The offset, counted from 0, of the first octet that no frame can have there, or the length if the octets are
    /// only too short. Of [`check_strict`](crate::check_strict) it may be that of the first octet that differs from the
    /// canonical ones. Of [`read`](crate::read()) it is an offset in the text, and of
    /// [`Builder::encode`](crate::Builder::encode) the index of a field.
    pub place: usize,
}

impl fmt::Display for Refusal {
    fn fmt(&self, formatter: &mut fmt::Formatter<'_>) -> fmt::Result {
        write!(formatter, "{} at {}", self.why, self.place)
    }
}

impl Error for Refusal {}

impl From<Outcome> for Refusal {
    fn from(outcome: Outcome) -> Refusal {
        Refusal { why: outcome.why.into(), place: outcome.place }
    }
}

/// One of the two inputs of [`same_meaning`](crate::same_meaning).
#[derive(Clone, Copy, Debug, PartialEq, Eq, Hash)]
pub enum Side {
    /// The first input.
    Left,
    /// The second input.
    Right,
}

impl fmt::Display for Side {
    fn fmt(&self, formatter: &mut fmt::Formatter<'_>) -> fmt::Result {
        formatter.pad(match self {
            Side::Left => "left",
            Side::Right => "right",
        })
    }
}

/// Which of the two inputs of [`same_meaning`](crate::same_meaning) is refused, and why. It prints as
/// `right: Version at 0`.
#[derive(Clone, Copy, Debug, PartialEq, Eq, Hash)]
#[non_exhaustive]
pub struct SideRefusal {
    /// The input that is refused. It is the left one if both would be.
    pub side: Side,
    /// Why it is refused, and where.
    pub refusal: Refusal,
}

impl fmt::Display for SideRefusal {
    fn fmt(&self, formatter: &mut fmt::Formatter<'_>) -> fmt::Result {
        write!(formatter, "{}: {}", self.side, self.refusal)
    }
}

impl Error for SideRefusal {}
