// SPDX-License-Identifier: Apache-2.0 OR MIT
//! What each octet of a frame is, also if it is refused.
use crate::ffi::{self, Outcome};
use crate::{Refusal, Verdict, Why};
use std::fmt;

numbered! {
    /// What a piece of a frame is. The numbers are those of the header, and never change.
    PieceKind {
        /// The version octet.
        Version = 1,
        /// The control octet (clause 6.2.2).
        Control = 2,
        /// The network of the destination.
        DestinationNetwork = 3,
        /// How many octets the address of the destination has.
        DestinationLength = 4,
        /// The address of the destination.
        DestinationAddress = 5,
        /// The network of the source.
        SourceNetwork = 6,
        /// How many octets the address of the source has.
        SourceLength = 7,
        /// The address of the source.
        SourceAddress = 8,
        /// The hop count of the destination.
        HopCount = 9,
        /// The first octets of addresses that are not whole.
        Addresses = 10,
        /// The type of a network message.
        MessageType = 11,
        /// The vendor of a network message.
        Vendor = 12,
        /// The data of a network message.
        Data = 13,

        // The first octet of an APDU, by its type (clause 20.1).
        /// The first octet of a Confirmed-Request in one piece.
        ConfirmedRequest = 14,
        /// The first octet of a segment of a Confirmed-Request.
        RequestSegment = 15,
        /// The first octet of an Unconfirmed-Request.
        UnconfirmedRequest = 16,
        /// The first octet of a SimpleACK.
        SimpleAck = 17,
        /// The first octet of a ComplexACK in one piece.
        ComplexAck = 18,
        /// The first octet of a segment of a ComplexACK.
        AckSegment = 19,
        /// The first octet of a SegmentACK.
        SegmentAck = 20,
        /// The first octet of an Error.
        Error = 21,
        /// The first octet of a Reject.
        Reject = 22,
        /// The first octet of an Abort.
        Abort = 23,
        /// How long an answer is accepted, in segments and in octets.
        Accepted = 24,
        /// The invoke id.
        InvokeId = 25,
        /// The sequence number of a segment.
        Sequence = 26,
        /// The window of segments.
        Window = 27,
        /// The service choice.
        Choice = 28,
        /// The reason of a Reject or an Abort.
        Reason = 29,
        /// The first octets of a head of an APDU or of a network message that is not whole.
        PduHead = 30,

        // What is after the heads.
        /// A tag head and its contents.
        Element = 31,
        /// The same in a service that is not decoded field by field.
        Unjudged = 32,
        /// The octets of a segment.
        Segment = 33,
        /// Other octets: of a service that is not decoded, or the first ones of a tag head.
        Octets = 34,
        /// The octet at the place of a refusal, or no octet if the octets only end too early.
        Refused = 35,
        /// The octets after the place of a refusal, which are not read.
        Rest = 36,
    }
}

/// The tag of a piece (clause 20.2.1), with its number.
#[derive(Clone, Copy, Debug, PartialEq, Eq, Hash)]
pub enum Tag {
    /// An application tag: the number is the type of the value.
    Application(u32),
    /// A context tag.
    Context(u32),
    /// A group begins.
    Opening(u32),
    /// A group ends.
    Closing(u32),
}

/// A piece of the octets of a frame. It prints as `bactool explain` says what it is, without the name of a field.
#[derive(Clone, Copy)]
pub struct Piece<'a> {
    /// All octets of the frame.
    octets: &'a [u8],
    /// The piece as the library has it.
    told: ffi::Piece,
}

impl<'a> Piece<'a> {
    /// Returns the offset of its first octet, counted from 0.
    pub fn place(&self) -> usize {
        self.told.place
    }

    /// Returns its octets. There are none at the place of a refusal if the octets only end too early.
    pub fn octets(&self) -> &'a [u8] {
        let end = self.told.place.saturating_add(self.told.length);
        self.octets.get(self.told.place..end).unwrap_or_default()
    }

    /// Returns those of its octets that are a tag head, and those that are not.
    pub fn parts(&self) -> (&'a [u8], &'a [u8]) {
        let own = self.octets();
        own.split_at(self.told.head.min(own.len()))
    }

    /// Returns how many groups are open around it.
    pub fn depth(&self) -> usize {
        self.told.depth
    }

    /// Returns what it is.
    pub fn kind(&self) -> PieceKind {
        self.told.kind.into()
    }

    /// Returns its tag, if it is an element.
    pub fn tag(&self) -> Option<Tag> {
        Some(match self.told.tag {
            1 => Tag::Application(self.told.number),
            2 => Tag::Context(self.told.number),
            3 => Tag::Opening(self.told.number),
            4 => Tag::Closing(self.told.number),
            _ => return None,
        })
    }

    /// Returns why the octets are refused, if it is at the place of the refusal.
    pub fn why(&self) -> Option<Why> {
        match self.kind() {
            PieceKind::Refused => Some(self.told.number.into()),
            _ => None,
        }
    }
}

impl fmt::Debug for Piece<'_> {
    fn fmt(&self, formatter: &mut fmt::Formatter<'_>) -> fmt::Result {
        fmt::Debug::fmt(&self.told, formatter)
    }
}

impl fmt::Display for Piece<'_> {
    fn fmt(&self, formatter: &mut fmt::Formatter<'_>) -> fmt::Result {
        // Enough for most words.
        let text = crate::frame::written(64, |out| ffi::piece_text(&self.told, self.octets, out));
        formatter.pad(&String::from_utf8_lossy(&text.map_err(|_| fmt::Error)?))
    }
}

/// What [`explain`] tells of octets.
#[derive(Clone, Debug)]
#[non_exhaustive]
pub struct Explained<'a> {
    /// Whether they encode a frame: what [`check`](crate::check) returns of them.
    pub verdict: Result<Verdict, Refusal>,
    /// Their pieces, in order: each begins where the one before it ends, and all together they are the octets.
    pub pieces: Vec<Piece<'a>>,
}

/// Returns what each octet is, also if the octets are refused: then the pieces before the place are those of a frame that
/// begins so, the octet there is a piece of its own, and those after it are one. There are no pieces if the library was
/// refused memory.
///
/// # Examples
///
/// ```
/// use bactool::{explain, PieceKind, Tag, Why};
///
/// // A WriteProperty with priority 17.
/// let request = [
///     0x01, 0x04, 0x00, 0x05, 0x03, 0x0F, 0x0C, 0x00, 0x40, 0x00, 0x01, 0x19, 0x55, 0x3E, 0x44, 0x42, 0xC8, 0x00,
///     0x00, 0x3F, 0x49, 0x11,
/// ];
/// let told = explain(&request);
/// assert_eq!(told.verdict.unwrap_err().to_string(), "Content at 21");
/// let real = &told.pieces[9];
/// assert_eq!((real.place(), real.kind(), real.tag()), (14, PieceKind::Element, Some(Tag::Application(4))));
/// assert_eq!(real.parts(), (&[0x44][..], &[0x42, 0xC8, 0x00, 0x00][..]));
/// let last = told.pieces.last().expect("there are some");
/// assert_eq!((last.place(), last.why()), (21, Some(Why::Content)));
/// assert!(last.to_string().starts_with("<- Content"));
/// ```
pub fn explain(octets: &[u8]) -> Explained<'_> {
    // The header promises that this is enough.
    let mut told = vec![ffi::Piece::default(); octets.len() + 1];
    let (code, outcome) = ffi::explain(octets, &mut told);
    let verdict = verdict_of(code, outcome);
    told.truncate(if code == ffi::NO_MEMORY { 0 } else { outcome.fields });
    Explained { verdict, pieces: told.into_iter().map(|told| Piece { octets, told }).collect() }
}

/// What [`explain_text`] tells of octets.
#[derive(Clone, Debug)]
#[non_exhaustive]
pub struct ExplainedText {
    /// Whether they encode a frame: what [`check`](crate::check) returns of them.
    pub verdict: Result<Verdict, Refusal>,
    /// The lines of `bactool explain` after its first one. Each ends in a line feed.
    pub lines: String,
}

/// Returns the lines of `bactool explain` that say what each octet is, with the names of fields, also if the octets are
/// refused. There are no lines if the library was refused memory.
///
/// # Examples
///
/// ```
/// use bactool::explain_text;
///
/// // A Who-Is that has a low limit, and no high one.
/// let told = explain_text(&[0x01, 0x00, 0x10, 0x08, 0x09, 0x05]);
/// assert_eq!(told.verdict.unwrap_err().to_string(), "Short at 6");
/// let lines = "   0  01           version 1
///    1  00           control: no reply expected, priority 0
///    2  10           Unconfirmed-Request
///    3  08           service choice 8 Who-Is
///    4  09 05        [0] low 5
///    6               <- Short: the octets end, and more must come; possible here: [1] high
/// ";
/// assert_eq!(told.lines, lines);
/// ```
pub fn explain_text(octets: &[u8]) -> ExplainedText {
    // Enough for the lines of most frames.
    let mut out = vec![0; 2048];
    let (mut code, mut outcome) = ffi::explain_text(octets, &mut out);
    if outcome.count > out.len() {
        out = vec![0; outcome.count];
        (code, outcome) = ffi::explain_text(octets, &mut out);
    }
    out.truncate(outcome.count);
    let lines = String::from_utf8(out).unwrap_or_else(|fault| String::from_utf8_lossy(fault.as_bytes()).into_owned());
    ExplainedText { verdict: verdict_of(code, outcome), lines }
}

/// Returns what the code and the outcome of an explanation say of the octets.
fn verdict_of(code: u32, outcome: Outcome) -> Result<Verdict, Refusal> {
    match code {
        ffi::OK => Ok(Verdict::Canonical),
        ffi::TOLERATED => Ok(Verdict::Tolerated { place: outcome.place }),
        _ => Err(outcome.into()),
    }
}
