// SPDX-License-Identifier: Apache-2.0 OR MIT
//! `fields` makes frames of fields, as `examples/c/fields.c` does. It prints a line with the octets and the text of a
//! request, of two answers, and of a request that was read and is changed.
//!
//! The status is 0, and 2 if there are words or the output is at fault.
mod common;

use bactool::{decode, show, Builder, Element, Name, ObjectIdentifier, Refusal};
use common::{ended, usage, words};
use std::io::{self, ErrorKind, Write};
use std::process::ExitCode;

const ANALOG_INPUT: u16 = 0;
const PRESENT_VALUE: u64 = 85;
const OBJECT_NAME: u64 = 77;

/// A WriteProperty with priority 8.
const WRITE: [u8; 22] = [
    0x01, 0x04, 0x00, 0x05, 0x03, 0x0F, 0x0C, 0x00, 0x40, 0x00, 0x01, 0x19, 0x55, 0x3E, 0x44, 0x42, 0xC8, 0x00, 0x00,
    0x3F, 0x49, 0x08,
];

fn main() -> ExitCode {
    if !words().is_empty() {
        return usage("fields");
    }
    ended(write_frames(&mut io::stdout().lock()).map(|()| false))
}

/// Writes a line for each frame. None is refused.
fn write_frames(output: &mut impl Write) -> io::Result<()> {
    let object = ObjectIdentifier::new(ANALOG_INPUT, 5).expect("both are in range");
    let frames = [
        request(object),
        answer(object, PRESENT_VALUE, Element::Real(72.3)),
        answer(object, OBJECT_NAME, "Hello".into()),
        change(&WRITE, 9),
    ];
    for frame in frames {
        let octets = frame.map_err(fault)?;
        for octet in &octets {
            write!(output, "{octet:02X}")?;
        }
        writeln!(output, " {}", show(&octets).map_err(fault)?)?;
    }
    output.flush()
}

fn fault(refusal: Refusal) -> io::Error {
    io::Error::new(ErrorKind::InvalidData, refusal)
}

/// The present value of an object is asked for.
fn request(object: ObjectIdentifier) -> Result<Vec<u8>, Refusal> {
    Builder::new()
        .say(Name::NetworkPriority, 0)
        .say(Name::ReplyExpected, 1)
        .say(Name::ConfirmedRequest, 0)
        .say(Name::InvokeId, 1)
        .say(Name::SegmentedAccepted, 0)
        .say(Name::MaxSegments, 0)
        .say(Name::MaxResponse, 5)
        .say(Name::ReadProperty, 12)
        .say(Name::Object, object.into())
        .say(Name::Property, PRESENT_VALUE)
        .encode()
}

/// The request is answered with a value of one element.
fn answer(object: ObjectIdentifier, property: u64, element: Element) -> Result<Vec<u8>, Refusal> {
    Builder::new()
        .say(Name::NetworkPriority, 0)
        .say(Name::ReplyExpected, 0)
        .say(Name::ComplexAck, 0)
        .say(Name::InvokeId, 1)
        .say(Name::ReadProperty, 12)
        .say(Name::Object, object.into())
        .say(Name::Property, property)
        .say(Name::Value, 0)
        .element(element)
        .say(Name::ValueEnd, 0)
        .encode()
}

/// The priority of a WriteProperty that was read is changed. Its other fields stay as they were.
fn change(octets: &[u8], priority: u64) -> Result<Vec<u8>, Refusal> {
    Builder::from(decode(octets)?).set(Name::Priority, priority).encode()
}
