// SPDX-License-Identifier: Apache-2.0 OR MIT
//! What is known of a frame, also if it is refused.
use crate::ffi;
use crate::refusal::Refusal;

/// How far the head of a frame is known.
#[derive(Clone, Copy, Debug, PartialEq, Eq, PartialOrd, Ord, Hash)]
pub enum Known {
    /// Nothing: version and control octet are not both there, or the version is not 1.
    Nothing,
    /// Whether a reply is expected, and the priority.
    Control,
    /// Also where the frame goes and comes from.
    Addresses,
    /// All that is before the octets of a service or of a network message.
    All,
}

/// What a frame carries: an APDU of a type (clause 20.1), or a network message.
#[derive(Clone, Copy, Debug, PartialEq, Eq, Hash)]
pub enum Pdu {
    /// A request that wants an answer.
    Confirmed,
    /// A request that wants no answer.
    Unconfirmed,
    /// An answer without contents.
    SimpleAck,
    /// An answer with contents.
    ComplexAck,
    /// The acknowledgement of segments.
    SegmentAck,
    /// The answer to a request that failed.
    Error,
    /// The answer to a request that was not understood.
    Reject,
    /// The end of a transaction.
    Abort,
    /// A network message.
    Message,
}

/// A network, and an address on it.
#[derive(Clone, Copy, Debug, PartialEq, Eq, Hash)]
pub struct Address<'a> {
    /// The network.
    pub network: u32,
    /// The octets of the address. A destination without any is every device on the network.
    pub octets: &'a [u8],
}

/// What is known of a frame. A number that is not known, or that the PDU does not have, is 0.
#[derive(Clone, Copy, Debug, PartialEq, Eq, Hash)]
#[non_exhaustive]
pub struct Head<'a> {
    /// How far it is known.
    pub known: Known,
    /// Why the octets are refused, or None if they spell a frame.
    pub refused: Option<Refusal>,
    /// Whether a reply is expected.
    pub reply: bool,
    /// The priority, 0 to 3.
    pub priority: u32,
    /// Where the frame goes, if that is on another network.
    pub destination: Option<Address<'a>>,
    /// The hop count of the destination.
    pub hops: u32,
    /// Where the frame comes from, if that is on another network.
    pub source: Option<Address<'a>>,
    /// What the frame carries, or None if that is not known.
    pub pdu: Option<Pdu>,
    /// The type of a network message.
    pub message: u32,
    /// The vendor of a network message.
    pub vendor: u32,
    /// The invoke id.
    pub invoke: u32,
    /// Whether the APDU is a segment of a request or of an answer.
    pub segmented: bool,
    /// Whether more segments follow.
    pub more: bool,
    /// The sequence number of a segment, or in a SegmentACK.
    pub sequence: u32,
    /// The window of a segment, or in a SegmentACK.
    pub window: u32,
    /// Whether a SegmentACK is negative.
    pub negative: bool,
    /// Whether a server sent a SegmentACK or an Abort.
    pub server: bool,
    /// The service choice.
    pub choice: u32,
    /// The reason of a Reject or an Abort.
    pub reason: u32,
    /// The offset of what is after the head: the octets of a service begin here.
    pub contents: usize,
}

/// Returns what is known of the frame that octets begin, also if they are refused: then it is what the octets before the
/// place of the refusal tell, and is so of every frame that they begin. A server needs it to reject a request that it does
/// not understand.
///
/// # Examples
///
/// ```
/// use bactool::{head, Pdu};
///
/// // A WriteProperty with priority 17.
/// let request = [
///     0x01, 0x04, 0x00, 0x05, 0x03, 0x0F, 0x0C, 0x00, 0x40, 0x00, 0x01, 0x19, 0x55, 0x3E, 0x44, 0x42, 0xC8, 0x00,
///     0x00, 0x3F, 0x49, 0x11,
/// ];
/// let head = head(&request);
/// assert_eq!(head.refused.expect("no frame has it").to_string(), "Content at 21");
/// assert_eq!((head.pdu, head.invoke, head.choice), (Some(Pdu::Confirmed), 3, 15));
/// ```
pub fn head(octets: &[u8]) -> Head<'_> {
    let (code, outcome, told) = ffi::head(octets);
    let refused = if code == ffi::OK { None } else { Some(outcome.into()) };
    let known = match told.known {
        0 => Known::Nothing,
        1 => Known::Control,
        2 => Known::Addresses,
        _ => Known::All,
    };
    Head {
        known,
        refused,
        reply: told.reply != 0,
        priority: told.priority,
        destination: address(octets, told.destination),
        hops: told.hops,
        source: address(octets, told.source),
        pdu: if known == Known::All { pdu(told.pdu) } else { None },
        message: told.message,
        vendor: told.vendor,
        invoke: told.invoke,
        segmented: told.segmented != 0,
        more: told.more != 0,
        sequence: told.sequence,
        window: told.window,
        negative: told.negative != 0,
        server: told.server != 0,
        choice: told.choice,
        reason: told.reason,
        contents: told.contents,
    }
}

/// Returns an address that is told, with its octets.
fn address(octets: &[u8], told: ffi::Address) -> Option<Address<'_>> {
    if told.there == 0 {
        return None;
    }
    let end = told.place.checked_add(told.length)?;
    Some(Address { network: told.network, octets: octets.get(told.place..end)? })
}

/// Returns what this number of the header says.
fn pdu(number: u32) -> Option<Pdu> {
    Some(match number {
        0 => Pdu::Confirmed,
        1 => Pdu::Unconfirmed,
        2 => Pdu::SimpleAck,
        3 => Pdu::ComplexAck,
        4 => Pdu::SegmentAck,
        5 => Pdu::Error,
        6 => Pdu::Reject,
        7 => Pdu::Abort,
        8 => Pdu::Message,
        _ => return None,
    })
}
