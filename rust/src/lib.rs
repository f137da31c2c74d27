// SPDX-License-Identifier: Apache-2.0 OR MIT
//! The messages of BACnet (ANSI/ASHRAE 135): checked, explained, normalised, shown, read, compared, decoded, encoded, cut
//! into segments and joined by the library libbactool, whose sixteen calls this crate wraps.
//!
//! A *frame* is one NPDU (clause 6 of the standard), with an APDU or a network message in it. It begins with the version
//! octet, so the BVLL header of a UDP payload must be removed first. Some frames can be encoded in several ways. One
//! encoding is *canonical*: no other is shorter, and the library writes only that one. Octets in another encoding are
//! *tolerated*; octets that encode no frame are *refused*, with a reason and a place ([`Refusal`]).
//!
//! ```
//! use bactool::{decode, show, Element, Name};
//!
//! // The answer to a ReadProperty: the present value of analog input 5 is 72.3.
//! let answer = [
//!     0x01, 0x00, 0x30, 0x01, 0x0C, 0x0C, 0x00, 0x00, 0x00, 0x05, 0x19, 0x55, 0x3E, 0x44, 0x42, 0x90, 0x99, 0x9A, 0x3F,
//! ];
//! assert_eq!(show(&answer)?, "prio=0 reply=0 ack id=1 ReadProperty object=0:5 property=85 value={r:4290999A}");
//!
//! let fields = decode(&answer)?;
//! let object = fields.find(Name::Object).and_then(|field| field.object());
//! assert_eq!(object.expect("the answer names it").to_string(), "0:5");
//! let elements: Vec<Element> = fields.iter().filter_map(|field| field.element()).collect();
//! assert_eq!(elements, [Element::Real(72.3)]);
//! # Ok::<(), bactool::Refusal>(())
//! ```
//!
//! # What holds of every function
//!
//! It returns on every input, and panics on none. It has no state, so any threads may call any functions at the same
//! time. It needs less than 16 KB of stack beside what Rust itself takes. If memory is refused to the library, the
//! refusal is [`Why::OutOfMemory`], and that of [`join`] [`JoinFault::OutOfMemory`]; if it is refused to Rust, Rust ends
//! the process.
//!
//! A number of a newer library that this crate has no name for is [`Name::Unknown`] or [`Why::Unknown`].
//!
//! # Linking
//!
//! The crate has no dependencies, and needs Rust 1.63 or later. Its build script takes the library from the first of
//! these places that has it:
//!
//! 1. the folder that the variable `BACTOOL_LIB` names by its full path; if the variable is set, there is no other
//!    place;
//! 2. `lib` of the repository, of the release or of the installation that the crate is a part of;
//! 3. the folder that `pkg-config --variable=libdir bactool` prints.
//!
//! It links the archive `libbactool.a` if it is there, and else the shared library `libbactool.so`. With `BACTOOL_LINK`
//! set to `static` or `shared` it links only that one. A program with the shared library needs it when it runs too: it
//! must be installed where the system looks, or `LD_LIBRARY_PATH` must name its folder.

#![deny(unsafe_code, unsafe_op_in_unsafe_fn)]
#![warn(missing_docs, missing_debug_implementations, clippy::undocumented_unsafe_blocks)]

#[macro_use]
mod numbered;

mod builder;
mod element;
mod ffi;
mod fields;
mod frame;
mod head;
mod name;
mod pieces;
mod records;
mod refusal;
mod segments;

pub use builder::Builder;
pub use element::{Element, ObjectIdentifier};
pub use fields::{decode, Field, Fields, Iter};
pub use frame::{check, check_strict, normalise, read, same_meaning, show, version, Verdict};
pub use head::{head, Address, Head, Known, Pdu};
pub use name::Name;
pub use pieces::{explain, explain_text, Explained, ExplainedText, Piece, PieceKind, Tag};
pub use records::{records, write_record, Records};
pub use refusal::{Refusal, Side, SideRefusal, Why};
pub use segments::{cut, join, CutFault, JoinFault};
