// SPDX-License-Identifier: Apache-2.0 OR MIT
//! Messages that are sent in segments (clause 5.2).
use crate::ffi::{self, Outcome};
use crate::frame::written_or;
use crate::Refusal;
use std::error::Error;
use std::fmt;

/// Why a frame is not cut by [`cut`]. Of several reasons it is the first in this order, but that the frame of a segment is
/// too long comes last.
#[derive(Clone, Copy, Debug, PartialEq, Eq, Hash)]
#[non_exhaustive]
pub enum CutFault {
    /// The octets encode no frame, or memory was refused.
    Refused(Refusal),
    /// The frame has a network message, a segment, or another APDU than a Confirmed-Request or a ComplexACK.
    NoService,
    /// The size is 0.
    Size,
    /// The window is not 1 to 127.
    Window,
    /// The service, or the frame of a segment, has more than 65,535 octets.
    TooLong,
    /// There would be more than 256 segments.
    TooMany,
}

impl fmt::Display for CutFault {
    fn fmt(&self, formatter: &mut fmt::Formatter<'_>) -> fmt::Result {
        formatter.pad(match self {
            CutFault::Refused(refusal) => return refusal.fmt(formatter),
            CutFault::NoService => "the frame has no service that is cut",
            CutFault::Size => "a segment has no octets",
            CutFault::Window => "a window is 1 to 127",
            CutFault::TooLong => "the service or a frame has more than 65535 octets",
            CutFault::TooMany => "there are more than 256 segments",
        })
    }
}

impl Error for CutFault {}

/// Why frames are not joined by [`join`]. The index of a frame is its place among them, counted from 0.
#[derive(Clone, Copy, Debug, PartialEq, Eq, Hash)]
#[non_exhaustive]
pub enum JoinFault {
    /// Octets encode no frame.
    Refused {
        /// The index of the octets.
        index: usize,
        /// Why they are refused, and where.
        refusal: Refusal,
    },
    /// A frame holds no segment.
    NoSegment {
        /// The index of the frame.
        index: usize,
    },
    /// A frame is not of the message of those before it: its heads are others, it has another piece for the same number,
    /// or it is after the last segment.
    Conflict {
        /// The index of the frame.
        index: usize,
    },
    /// With the piece of a frame the service has more than 65,535 octets, or the frame has more itself.
    TooLong {
        /// The index of the frame.
        index: usize,
    },
    /// The frames are of one message, and segments are missing.
    Incomplete {
        /// The first sequence number that no frame has.
        number: usize,
    },
    /// The segments are all there, and their joined octets are no service of their kind and choice. The place is an
    /// offset in the joined octets.
    Service(Refusal),
    /// Memory was refused to the library.
    OutOfMemory,
}

impl fmt::Display for JoinFault {
    fn fmt(&self, formatter: &mut fmt::Formatter<'_>) -> fmt::Result {
        match self {
            JoinFault::Refused { index, refusal } => write!(formatter, "frame {index}: {refusal}"),
            JoinFault::NoSegment { index } => write!(formatter, "frame {index} is no segment"),
            JoinFault::Conflict { index } => write!(formatter, "frame {index} is of another message"),
            JoinFault::TooLong { index } => write!(formatter, "with frame {index} there are more than 65535 octets"),
            JoinFault::Incomplete { number } => write!(formatter, "segment {number} is missing"),
            JoinFault::Service(refusal) => write!(formatter, "the joined octets: {refusal}"),
            JoinFault::OutOfMemory => formatter.pad("out of memory"),
        }
    }
}

impl Error for JoinFault {}

/// Cuts the frame that octets encode, a Confirmed-Request or a ComplexACK in one piece, into the frames of its segments.
/// Returns their canonical octets, in their order. Each segment has the heads of the frame, and `size` octets of its
/// service; the last one has 1 to `size`, and that of a service without octets has none. Each says that `window` segments
/// are sent before a SegmentACK is awaited.
///
/// # Errors
///
/// A [`CutFault`] says why the frame is not cut.
///
/// # Examples
///
/// ```
/// use bactool::{cut, join};
///
/// // The answer to a ReadProperty: the present value of analog input 5 is 72.3.
/// let answer = [
///     0x01, 0x00, 0x30, 0x01, 0x0C, 0x0C, 0x00, 0x00, 0x00, 0x05, 0x19, 0x55, 0x3E, 0x44, 0x42, 0x90, 0x99, 0x9A, 0x3F,
/// ];
/// let frames = cut(&answer, 10, 4)?;
/// assert_eq!(frames.len(), 2);
/// assert_eq!(frames[1], [0x01, 0x00, 0x38, 0x01, 0x01, 0x04, 0x0C, 0x90, 0x99, 0x9A, 0x3F]);
/// assert_eq!(join(frames), Ok(answer.to_vec()));
/// # Ok::<(), bactool::CutFault>(())
/// ```
pub fn cut(octets: &[u8], size: usize, window: u8) -> Result<Vec<Vec<u8>>, CutFault> {
    // Most messages are cut into few segments, with few octets of heads each.
    let records = written_or(2 * octets.len(), |out| ffi::cut(octets, size, window, out), cut_fault)?;
    Ok(frames_of(&records))
}

/// Joins frames of segments, in any order and any of them several times, to the frame in one piece: the way back from
/// [`cut`]. Returns its canonical octets. The windows of the segments do not matter.
///
/// # Errors
///
/// A [`JoinFault`] says why they are not joined. The first frame that is refused comes before all others, and then the
/// first one that does not belong to those before it.
///
/// # Examples
///
/// ```
/// use bactool::{join, JoinFault};
///
/// let last = [0x01, 0x00, 0x38, 0x01, 0x01, 0x04, 0x0C, 0x90, 0x99, 0x9A, 0x3F];
/// assert_eq!(join([last]), Err(JoinFault::Incomplete { number: 0 }));
/// ```
pub fn join<I>(frames: I) -> Result<Vec<u8>, JoinFault>
where
    I: IntoIterator,
    I::Item: AsRef<[u8]>,
{
    let mut records = Vec::new();
    for (index, frame) in frames.into_iter().enumerate() {
        let octets = frame.as_ref();
        let length = u16::try_from(octets.len()).map_err(|_| JoinFault::TooLong { index })?;
        records.extend_from_slice(&length.to_be_bytes());
        records.extend_from_slice(octets);
    }
    written_or(records.len(), |out| ffi::join(&records, out), join_fault)
}

/// Returns the frames of records: two octets of length, and so many octets.
fn frames_of(mut records: &[u8]) -> Vec<Vec<u8>> {
    let mut frames = Vec::new();
    while let [high, low, rest @ ..] = records {
        let length = usize::from(u16::from_be_bytes([*high, *low])).min(rest.len());
        let (frame, others) = rest.split_at(length);
        frames.push(frame.to_vec());
        records = others;
    }
    frames
}

/// Returns what a code of `bactool_cut` says.
fn cut_fault(code: u32, outcome: Outcome) -> CutFault {
    match code {
        ffi::NO_SERVICE => CutFault::NoService,
        ffi::BAD_SIZE => CutFault::Size,
        ffi::BAD_WINDOW => CutFault::Window,
        ffi::TOO_LONG => CutFault::TooLong,
        ffi::TOO_MANY => CutFault::TooMany,
        _ => CutFault::Refused(outcome.into()),
    }
}

/// Returns what a code of `bactool_join` says.
fn join_fault(code: u32, outcome: Outcome) -> JoinFault {
    let index = outcome.place;
    match code {
        ffi::NO_SEGMENT => JoinFault::NoSegment { index },
        ffi::CONFLICT => JoinFault::Conflict { index },
        ffi::TOO_LONG => JoinFault::TooLong { index },
        ffi::INCOMPLETE => JoinFault::Incomplete { number: outcome.place },
        ffi::SERVICE_REFUSED => JoinFault::Service(outcome.into()),
        ffi::NO_MEMORY => JoinFault::OutOfMemory,
        _ => JoinFault::Refused { index: outcome.count, refusal: outcome.into() },
    }
}
