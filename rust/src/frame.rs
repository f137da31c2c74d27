// SPDX-License-Identifier: Apache-2.0 OR MIT
//! The calls on whole frames.
use crate::ffi::{self, Answer, Outcome};
use crate::{Refusal, Side, SideRefusal};
use std::fmt;

/// What [`check`] finds of octets that encode a frame. It prints as the program `bactool check` has it: `ok`, or
/// `tolerated at 1`.
#[derive(Clone, Copy, Debug, PartialEq, Eq, Hash)]
pub enum Verdict {
    /// They are the canonical octets of the frame.
    Canonical,
    /// They encode the frame in another way.
    Tolerated {
        /// The offset, counted from 0, of the first octet that differs from the canonical ones.
        place: usize,
    },
}

impl fmt::Display for Verdict {
    fn fmt(&self, formatter: &mut fmt::Formatter<'_>) -> fmt::Result {
        match self {
            Verdict::Canonical => formatter.pad("ok"),
            Verdict::Tolerated { place } => write!(formatter, "tolerated at {place}"),
        }
    }
}

/// Checks whether octets encode a frame, and whether they are its canonical ones.
///
/// # Errors
///
/// Octets that encode no frame are refused, at the first octet that no frame can have there.
///
/// # Examples
///
/// ```
/// use bactool::{check, Verdict, Why};
///
/// assert_eq!(check(&[0x01, 0x00, 0x10, 0x08]), Ok(Verdict::Canonical));
/// // Bit 6 of the control octet is of no use.
/// assert_eq!(check(&[0x01, 0x40, 0x10, 0x08]), Ok(Verdict::Tolerated { place: 1 }));
/// let refusal = check(&[0x02]).unwrap_err();
/// assert_eq!((refusal.why, refusal.place), (Why::Version, 0));
/// ```
pub fn check(octets: &[u8]) -> Result<Verdict, Refusal> {
    match ffi::check(octets, false) {
        (ffi::OK, _) => Ok(Verdict::Canonical),
        (ffi::TOLERATED, outcome) => Ok(Verdict::Tolerated { place: outcome.place }),
        (_, outcome) => Err(outcome.into()),
    }
}

/// Checks whether octets are the canonical ones of a frame.
///
/// # Errors
///
/// Octets that encode no frame are refused as by [`check`]. Octets that encode a frame in another way are refused as
/// [`NotCanonical`](crate::Why::NotCanonical), at the first octet that differs from the canonical ones.
///
/// # Examples
///
/// ```
/// use bactool::{check_strict, Why};
///
/// assert_eq!(check_strict(&[0x01, 0x00, 0x10, 0x08]), Ok(()));
/// let refusal = check_strict(&[0x01, 0x40, 0x10, 0x08]).unwrap_err();
/// assert_eq!((refusal.why, refusal.place), (Why::NotCanonical, 1));
/// ```
pub fn check_strict(octets: &[u8]) -> Result<(), Refusal> {
    match ffi::check(octets, true) {
        (ffi::OK, _) => Ok(()),
        (_, outcome) => Err(outcome.into()),
    }
}

/// Returns the canonical octets of the frame that octets encode. There are at most as many as were passed.
///
/// # Errors
///
/// Octets that encode no frame are refused as by [`check`].
///
/// # Examples
///
/// ```
/// use bactool::normalise;
///
/// assert_eq!(normalise(&[0x01, 0x40, 0x10, 0x08])?, [0x01, 0x00, 0x10, 0x08]);
/// # Ok::<(), bactool::Refusal>(())
/// ```
pub fn normalise(octets: &[u8]) -> Result<Vec<u8>, Refusal> {
    written(octets.len(), |out| ffi::normalise(octets, out))
}

/// Returns the text of the frame that octets encode, as the program `bactool show` prints it: one line, without a line
/// feed. Section 8 of docs/FORMATS.md has each word of it.
///
/// # Errors
///
/// Octets that encode no frame are refused as by [`check`].
///
/// # Examples
///
/// ```
/// use bactool::show;
///
/// let request = [0x01, 0x04, 0x00, 0x05, 0x01, 0x0C, 0x0C, 0x00, 0x00, 0x00, 0x05, 0x19, 0x55];
/// assert_eq!(
///     show(&request)?,
///     "prio=0 reply=1 conf id=1 sa=0 segs=0 resp=5 ReadProperty object=0:5 property=85"
/// );
/// # Ok::<(), bactool::Refusal>(())
/// ```
pub fn show(octets: &[u8]) -> Result<String, Refusal> {
    // Enough for the text of most frames.
    let text = written(256, |out| ffi::show(octets, out))?;
    Ok(String::from_utf8(text).unwrap_or_else(|fault| String::from_utf8_lossy(fault.as_bytes()).into_owned()))
}

/// Returns the canonical octets of the frame whose text is passed: the way back from [`show`]. The text must be exactly
/// as `show` returns it, with the same blanks, digits and letters, without a line feed and without the number of a
/// record.
///
/// # Errors
///
/// Any other text is refused, as [`Short`](crate::Why::Short) at its length if it only ends too early, and else as
/// [`Text`](crate::Why::Text). The place counts its octets from 0.
///
/// # Examples
///
/// ```
/// use bactool::{read, Why};
///
/// assert_eq!(read("prio=0 reply=0 unconf Who-Is")?, [0x01, 0x00, 0x10, 0x08]);
/// let refusal = read("prio=4 reply=0 unconf Who-Is").unwrap_err();
/// assert_eq!((refusal.why, refusal.place), (Why::Text, 5));
/// # Ok::<(), bactool::Refusal>(())
/// ```
pub fn read(text: impl AsRef<[u8]>) -> Result<Vec<u8>, Refusal> {
    let text = text.as_ref();
    written(text.len(), |out| ffi::read(text, out))
}

/// Returns whether two inputs encode the same frame, canonical or not.
///
/// # Errors
///
/// An input that encodes no frame is refused as by [`check`]: the left one, or the right one if the left one encodes a
/// frame.
///
/// # Examples
///
/// ```
/// use bactool::{same_meaning, Side};
///
/// let (canonical, tolerated) = ([0x01, 0x00, 0x10, 0x08], [0x01, 0x40, 0x10, 0x08]);
/// assert_eq!(same_meaning(&canonical, &tolerated), Ok(true));
/// let refusal = same_meaning(&canonical, &[0x02]).unwrap_err();
/// assert_eq!(refusal.side, Side::Right);
/// assert_eq!(refusal.to_string(), "right: Version at 0");
/// ```
pub fn same_meaning(left: &[u8], right: &[u8]) -> Result<bool, SideRefusal> {
    match ffi::same_meaning(left, right) {
        (ffi::OK, _) => Ok(true),
        (ffi::DIFFERENT, _) => Ok(false),
        (ffi::RIGHT_REFUSED, outcome) => Err(SideRefusal { side: Side::Right, refusal: outcome.into() }),
        (_, outcome) => Err(SideRefusal { side: Side::Left, refusal: outcome.into() }),
    }
}

/// Returns the version of the library that is linked: 10,000 times the major number, plus 100 times the minor number,
/// plus the patch number.
///
/// ```
/// assert!(bactool::version() >= 300, "this crate wants bactool 0.3.0 or later");
/// ```
pub fn version() -> u32 {
    ffi::version()
}

/// Returns the octets that a call writes. It is given so much room at first, and then what it needs.
pub(crate) fn written(room: usize, call: impl Fn(&mut [u8]) -> Answer) -> Result<Vec<u8>, Refusal> {
    written_or(room, call, |_, outcome| outcome.into())
}

/// Returns the octets that a call writes, or what its code and its outcome say.
pub(crate) fn written_or<Fault>(
    room: usize,
    call: impl Fn(&mut [u8]) -> Answer,
    fault: impl Fn(u32, Outcome) -> Fault,
) -> Result<Vec<u8>, Fault> {
    let mut out = vec![0; room];
    let (mut code, mut outcome) = call(&mut out);
    if code == ffi::NO_ROOM {
        out = vec![0; outcome.count];
        (code, outcome) = call(&mut out);
    }
    if code != ffi::OK {
        return Err(fault(code, outcome));
    }
    out.truncate(outcome.count);
    Ok(out)
}
