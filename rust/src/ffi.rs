// SPDX-License-Identifier: Apache-2.0 OR MIT
//! The calls of `include/bactool.h`, each with a safe function that takes slices in the place of pointers and lengths.
//! All unsafe code of this crate is here.
//!
//! The SAFETY comments rest on what the header promises of each call. It reads the octets and the fields that a pointer
//! and a length are. It writes within the room that a pointer and a room are, and the outcome, and nothing else. It keeps
//! no pointer, has no state, and may run in any threads at the same time. It takes any address that is not null if the
//! length or the room is 0, such as that of an empty slice.
#![allow(unsafe_code)]

/// `struct bactool_outcome`.
#[repr(C)]
#[derive(Clone, Copy, Debug, Default)]
pub(crate) struct Outcome {
    pub(crate) why: u32,
    pub(crate) place: usize,
    pub(crate) count: usize,
    pub(crate) fields: usize,
}

/// `struct bactool_field`.
#[repr(C)]
#[derive(Clone, Copy, Debug, Default, PartialEq, Eq, Hash)]
pub(crate) struct Part {
    pub(crate) name: u32,
    pub(crate) number: u64,
    pub(crate) place: usize,
    pub(crate) head: usize,
    pub(crate) length: usize,
}

/// `struct bactool_address`.
#[repr(C)]
#[derive(Clone, Copy, Debug, Default)]
pub(crate) struct Address {
    pub(crate) there: u32,
    pub(crate) network: u32,
    pub(crate) place: usize,
    pub(crate) length: usize,
}

/// `struct bactool_frame_head`.
#[repr(C)]
#[derive(Clone, Copy, Debug, Default)]
pub(crate) struct Head {
    pub(crate) known: u32,
    pub(crate) reply: u32,
    pub(crate) priority: u32,
    pub(crate) hops: u32,
    pub(crate) destination: Address,
    pub(crate) source: Address,
    pub(crate) pdu: u32,
    pub(crate) message: u32,
    pub(crate) vendor: u32,
    pub(crate) invoke: u32,
    pub(crate) segmented: u32,
    pub(crate) more: u32,
    pub(crate) sequence: u32,
    pub(crate) window: u32,
    pub(crate) negative: u32,
    pub(crate) server: u32,
    pub(crate) choice: u32,
    pub(crate) reason: u32,
    pub(crate) contents: usize,
}

/// `struct bactool_piece`.
#[repr(C)]
#[derive(Clone, Copy, Debug, Default)]
pub(crate) struct Piece {
    pub(crate) place: usize,
    pub(crate) length: usize,
    pub(crate) head: usize,
    pub(crate) depth: usize,
    pub(crate) kind: u32,
    pub(crate) tag: u32,
    pub(crate) number: u32,
}

// The codes of the header that this crate distinguishes. It takes each other code as a refusal.
pub(crate) const OK: u32 = 0;
pub(crate) const TOLERATED: u32 = 1;
pub(crate) const DIFFERENT: u32 = 2;
pub(crate) const RIGHT_REFUSED: u32 = 5;
pub(crate) const NO_ROOM: u32 = 6;
pub(crate) const NO_MEMORY: u32 = 7;
pub(crate) const NO_SERVICE: u32 = 8;
pub(crate) const BAD_SIZE: u32 = 9;
pub(crate) const BAD_WINDOW: u32 = 10;
pub(crate) const TOO_LONG: u32 = 11;
pub(crate) const TOO_MANY: u32 = 12;
pub(crate) const NO_SEGMENT: u32 = 14;
pub(crate) const CONFLICT: u32 = 15;
pub(crate) const INCOMPLETE: u32 = 16;
pub(crate) const SERVICE_REFUSED: u32 = 17;

/// What a call returns: its code, and the outcome that it filled in.
pub(crate) type Answer = (u32, Outcome);

// A line for each call, so that scripts/try-rust can hold them against the header.
#[rustfmt::skip]
extern "C" {
    fn bactool_check(octets: *const u8, length: usize, strict: bool, outcome: *mut Outcome) -> u32;
    fn bactool_head(octets: *const u8, length: usize, head: *mut Head, outcome: *mut Outcome) -> u32;
    fn bactool_explain(octets: *const u8, length: usize, pieces: *mut Piece, most: usize, outcome: *mut Outcome) -> u32;
    fn bactool_piece_text(piece: *const Piece, octets: *const u8, length: usize, out: *mut u8, room: usize, outcome: *mut Outcome) -> u32;
    fn bactool_explain_text(octets: *const u8, length: usize, out: *mut u8, room: usize, outcome: *mut Outcome) -> u32;
    fn bactool_normalise(octets: *const u8, length: usize, out: *mut u8, room: usize, outcome: *mut Outcome) -> u32;
    fn bactool_decode(octets: *const u8, length: usize, out: *mut u8, room: usize, fields: *mut Part, most: usize, outcome: *mut Outcome) -> u32;
    fn bactool_encode(fields: *const Part, count: usize, octets: *const u8, length: usize, out: *mut u8, room: usize, outcome: *mut Outcome) -> u32;
    fn bactool_show(octets: *const u8, length: usize, out: *mut u8, room: usize, outcome: *mut Outcome) -> u32;
    fn bactool_read(text: *const u8, length: usize, out: *mut u8, room: usize, outcome: *mut Outcome) -> u32;
    fn bactool_same_meaning(left: *const u8, left_length: usize, right: *const u8, right_length: usize, outcome: *mut Outcome) -> u32;
    fn bactool_cut(octets: *const u8, length: usize, size: usize, window: u8, out: *mut u8, room: usize, outcome: *mut Outcome) -> u32;
    fn bactool_join(records: *const u8, length: usize, out: *mut u8, room: usize, outcome: *mut Outcome) -> u32;
    fn bactool_reason(why: u32, out: *mut u8, room: usize) -> usize;
    fn bactool_name(name: u32, out: *mut u8, room: usize) -> usize;
    fn bactool_version() -> u32;
}

pub(crate) fn check(octets: &[u8], strict: bool) -> Answer {
    let mut outcome = Outcome::default();
    // SAFETY: the octets are a slice, which nobody changes meanwhile. The outcome is borrowed by nobody else.
    let code = unsafe { bactool_check(octets.as_ptr(), octets.len(), strict, &mut outcome) };
    (code, outcome)
}

pub(crate) fn head(octets: &[u8]) -> (u32, Outcome, Head) {
    let (mut outcome, mut head) = (Outcome::default(), Head::default());
    // SAFETY: as in `check`, and the head has the layout of the header and is borrowed by nobody else.
    let code = unsafe { bactool_head(octets.as_ptr(), octets.len(), &mut head, &mut outcome) };
    (code, outcome, head)
}

pub(crate) fn explain(octets: &[u8], pieces: &mut [Piece]) -> Answer {
    let mut outcome = Outcome::default();
    let (length, most) = (octets.len(), pieces.len());
    // SAFETY: as in `check`, and `pieces` is a slice of structs with the layout of the header, which is borrowed by nobody
    // else.
    let code = unsafe { bactool_explain(octets.as_ptr(), length, pieces.as_mut_ptr(), most, &mut outcome) };
    (code, outcome)
}

pub(crate) fn piece_text(piece: &Piece, octets: &[u8], out: &mut [u8]) -> Answer {
    let mut outcome = Outcome::default();
    let (length, room) = (octets.len(), out.len());
    let (octets, out) = (octets.as_ptr(), out.as_mut_ptr());
    // SAFETY: as in `normalise`, and the piece has the layout of the header, and nobody changes it meanwhile.
    let code = unsafe { bactool_piece_text(piece, octets, length, out, room, &mut outcome) };
    (code, outcome)
}

pub(crate) fn explain_text(octets: &[u8], out: &mut [u8]) -> Answer {
    let mut outcome = Outcome::default();
    // SAFETY: as in `normalise`.
    let code =
        unsafe { bactool_explain_text(octets.as_ptr(), octets.len(), out.as_mut_ptr(), out.len(), &mut outcome) };
    (code, outcome)
}

pub(crate) fn normalise(octets: &[u8], out: &mut [u8]) -> Answer {
    let mut outcome = Outcome::default();
    // SAFETY: as in `check`, and `out` is a slice that is borrowed by nobody else.
    let code = unsafe { bactool_normalise(octets.as_ptr(), octets.len(), out.as_mut_ptr(), out.len(), &mut outcome) };
    (code, outcome)
}

pub(crate) fn decode(octets: &[u8], out: &mut [u8], parts: &mut [Part]) -> Answer {
    let mut outcome = Outcome::default();
    let (room, most) = (out.len(), parts.len());
    let (out, parts) = (out.as_mut_ptr(), parts.as_mut_ptr());
    // SAFETY: as in `normalise`, and `parts` is a slice of structs with the layout of the header, which is borrowed by
    // nobody else.
    let code = unsafe { bactool_decode(octets.as_ptr(), octets.len(), out, room, parts, most, &mut outcome) };
    (code, outcome)
}

pub(crate) fn encode(parts: &[Part], octets: &[u8], out: &mut [u8]) -> Answer {
    let mut outcome = Outcome::default();
    let (count, length, room) = (parts.len(), octets.len(), out.len());
    let (parts, octets, out) = (parts.as_ptr(), octets.as_ptr(), out.as_mut_ptr());
    // SAFETY: as in `normalise`, and `parts` is a slice of structs with the layout of the header, which nobody changes
    // meanwhile. The call takes any numbers in them: it refuses contents that are not in the octets.
    let code = unsafe { bactool_encode(parts, count, octets, length, out, room, &mut outcome) };
    (code, outcome)
}

pub(crate) fn show(octets: &[u8], out: &mut [u8]) -> Answer {
    let mut outcome = Outcome::default();
    // SAFETY: as in `normalise`.
    let code = unsafe { bactool_show(octets.as_ptr(), octets.len(), out.as_mut_ptr(), out.len(), &mut outcome) };
    (code, outcome)
}

pub(crate) fn read(text: &[u8], out: &mut [u8]) -> Answer {
    let mut outcome = Outcome::default();
    // SAFETY: as in `normalise`, of the octets of a text, which may be any.
    let code = unsafe { bactool_read(text.as_ptr(), text.len(), out.as_mut_ptr(), out.len(), &mut outcome) };
    (code, outcome)
}

pub(crate) fn same_meaning(left: &[u8], right: &[u8]) -> Answer {
    let mut outcome = Outcome::default();
    // SAFETY: as in `check`, of two slices, which may overlap.
    let code = unsafe { bactool_same_meaning(left.as_ptr(), left.len(), right.as_ptr(), right.len(), &mut outcome) };
    (code, outcome)
}

pub(crate) fn cut(octets: &[u8], size: usize, window: u8, out: &mut [u8]) -> Answer {
    let mut outcome = Outcome::default();
    let (length, room) = (octets.len(), out.len());
    let (octets, out) = (octets.as_ptr(), out.as_mut_ptr());
    // SAFETY: as in `normalise`. The call takes any size and any window.
    let code = unsafe { bactool_cut(octets, length, size, window, out, room, &mut outcome) };
    (code, outcome)
}

pub(crate) fn join(records: &[u8], out: &mut [u8]) -> Answer {
    let mut outcome = Outcome::default();
    // SAFETY: as in `normalise`, of the octets of records, which may be any.
    let code = unsafe { bactool_join(records.as_ptr(), records.len(), out.as_mut_ptr(), out.len(), &mut outcome) };
    (code, outcome)
}

/// Returns the name of the reason with this number, if there is one.
pub(crate) fn reason(why: u32) -> Option<String> {
    // SAFETY: `out` is a slice that is borrowed by nobody else. The call takes any number.
    word(|out| unsafe { bactool_reason(why, out.as_mut_ptr(), out.len()) })
}

/// Returns the word of the name with this number, if there is one.
pub(crate) fn name(name: u32) -> Option<String> {
    // SAFETY: as in `reason`.
    word(|out| unsafe { bactool_name(name, out.as_mut_ptr(), out.len()) })
}

pub(crate) fn version() -> u32 {
    // SAFETY: the call reads and writes nothing.
    unsafe { bactool_version() }
}

/// Returns what a call writes that returns the length of a word, and writes the word if there is room for it.
fn word(call: impl Fn(&mut [u8]) -> usize) -> Option<String> {
    // The header promises that this is enough for each word of today.
    let mut out = vec![0; 32];
    let length = call(&mut out);
    if length > out.len() {
        out.resize(length, 0);
        call(&mut out);
    }
    out.truncate(length);
    String::from_utf8(out).ok().filter(|word| !word.is_empty())
}
