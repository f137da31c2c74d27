// SPDX-License-Identifier: Apache-2.0 OR MIT
//! Writes a request for the present value of analog input 5, and reads the value out of what comes back.
use bactool::{decode, show, Builder, Element, Name, ObjectIdentifier, Refusal};
use std::error::Error;

const ANALOG_INPUT: u16 = 0;
const PRESENT_VALUE: u64 = 85;

/// Returns the octets of a ReadProperty request.
fn request(invoke_id: u8, object: ObjectIdentifier, property: u64) -> Result<Vec<u8>, Refusal> {
    Builder::new()
        .say(Name::NetworkPriority, 0)
        .say(Name::ReplyExpected, 1)
        .say(Name::ConfirmedRequest, 0)
        .say(Name::InvokeId, invoke_id.into())
        .say(Name::SegmentedAccepted, 0)
        .say(Name::MaxSegments, 0)
        .say(Name::MaxResponse, 5) // answers of up to 1476 octets
        .say(Name::ReadProperty, 12)
        .say(Name::Object, object.into())
        .say(Name::Property, property)
        .encode()
}

/// Returns the Real in the answer with this invoke id, if there is one.
fn value(octets: &[u8], invoke_id: u8) -> Result<Option<f32>, Refusal> {
    let fields = decode(octets)?;
    let id = fields.find(Name::InvokeId).map(|field| field.number);
    if fields.find(Name::ComplexAck).is_none() || id != Some(invoke_id.into()) {
        return Ok(None);
    }
    Ok(fields.iter().find_map(|field| match field.element() {
        Some(Element::Real(value)) => Some(value),
        _ => None,
    }))
}

fn main() -> Result<(), Box<dyn Error>> {
    let object = ObjectIdentifier::new(ANALOG_INPUT, 5).ok_or("no object has these numbers")?;
    let octets = request(1, object, PRESENT_VALUE)?;
    println!("{octets:02X?}");
    println!("{}", show(&octets)?);

    // What a device may answer: the Real 72.3, and an error of class property, unknown property.
    let answer = [1, 0, 0x30, 1, 12, 0x0C, 0, 0, 0, 5, 0x19, 85, 0x3E, 0x44, 0x42, 0x90, 0x99, 0x9A, 0x3F];
    let error = [1, 0, 0x50, 1, 12, 0x91, 2, 0x91, 32];
    println!("{:?}", value(&answer, 1)?);
    println!("{:?}", value(&error, 1)?);

    // What is cut is refused, at the first octet that is missing.
    if let Err(refusal) = value(&answer[..16], 1) {
        println!("refused {refusal}");
    }
    Ok(())
}
