// SPDX-License-Identifier: Apache-2.0 OR MIT
//! Frames as fields, and the way back, by section 8 of docs/FORMATS.md.
mod common;

use bactool::{decode, normalise, Builder, Element, Field, Name, ObjectIdentifier, Refusal, Why};
use common::{octets, F1, F2, F4};

/// A WriteProperty of each type of element, and of groups and context primitives.
const EVERY_ELEMENT: &str =
    "0104 0275060F 0C00C00001 1955 3E 00 10 11 2105 31FB 4441480000 55083FF0000000000000 62CAFE \
    75060048656C6C6F 7205E9 8306A540 9103 A47E0B1701 B40F0C1E00 C402000004 1955 2E21012F 4E4F 3F";

/// The name, the number, the place, and how many octets the head and the contents have.
type Row = (Name, u64, usize, usize, usize);

fn rows(frame: &str) -> Vec<Row> {
    let fields = decode(&octets(frame)).expect("a frame");
    let row = |field: Field| (field.name, field.number, field.place, field.head.len(), field.contents.len());
    fields.iter().map(row).collect()
}

fn of(refusal: Refusal) -> (Why, usize) {
    (refusal.why, refusal.place)
}

/// The fields of a Who-Is, up to its limits.
fn who_is() -> Builder {
    Builder::new()
        .say(Name::NetworkPriority, 0)
        .say(Name::ReplyExpected, 0)
        .say(Name::UnconfirmedRequest, 0)
        .say(Name::WhoIs, 8)
}

#[test]
fn a_request_has_its_fields() {
    let wanted = [
        (Name::NetworkPriority, 0, 1, 0, 1),
        (Name::ReplyExpected, 1, 1, 0, 1),
        (Name::ConfirmedRequest, 0, 2, 0, 1),
        (Name::InvokeId, 1, 4, 0, 1),
        (Name::SegmentedAccepted, 0, 2, 0, 1),
        (Name::MaxSegments, 0, 3, 0, 1),
        (Name::MaxResponse, 5, 3, 0, 1),
        (Name::ReadProperty, 12, 5, 0, 1),
        (Name::Object, 5, 6, 1, 4),
        (Name::Property, 85, 11, 1, 1),
    ];
    assert_eq!(rows(F1), wanted);
    // Places are those in the canonical octets.
    assert_eq!(rows(F2), wanted);
}

#[test]
fn addresses_are_contents() {
    let fields = decode(&octets("0128 0005 01 0A 0007 02 0102 FF 1008")).expect("a frame");
    let found: Vec<_> = fields.iter().map(|field| (field.name, field.number, field.head, field.contents)).collect();
    assert_eq!(found[2], (Name::Destination, 5, &[0, 5, 1][..], &[0x0A][..]));
    assert_eq!(found[3], (Name::HopCount, 255, &[][..], &[0xFF][..]));
    assert_eq!(found[4], (Name::Source, 7, &[0, 7, 2][..], &[1, 2][..]));
}

#[test]
fn every_element_is_read_and_written() {
    let frame = octets(EVERY_ELEMENT);
    let fields = decode(&frame).expect("a frame");
    let wanted = [
        Element::Null,
        Element::Boolean(false),
        Element::Boolean(true),
        Element::Unsigned(5),
        Element::Signed(-5),
        Element::Real(12.5),
        Element::Double(1.0),
        Element::OctetString(&[0xCA, 0xFE]),
        Element::from("Hello"),
        Element::CharacterString { set: 5, octets: &[0xE9] },
        Element::BitString { count: 10, octets: &[0xA5, 0x40] },
        Element::Enumerated(3),
        Element::Date([126, 11, 23, 1]),
        Element::Time([15, 12, 30, 0]),
        Element::ObjectIdentifier(ObjectIdentifier::new(8, 4).expect("in range")),
        Element::ContextPrimitive { tag: 1, octets: &[0x55] },
        Element::Unsigned(1),
    ];
    let found: Vec<Element> = fields.iter().filter_map(|field| field.element()).collect();
    assert_eq!(found, wanted);

    let said = |builder: Builder, field: Field| match field.element() {
        Some(element) => builder.element(element),
        None => builder.say(field.name, field.number),
    };
    assert_eq!(fields.iter().fold(Builder::new(), said).encode(), Ok(frame));
}

#[test]
fn what_is_no_number_keeps_its_bits() {
    for bits in [0x7F80_0000, 0xFF80_0000, 0x7FC0_0000, 0x7F80_0001, 0x8000_0000] {
        let frame = octets(&format!("0100 30010C 0C00000005 1955 3E 44{bits:08X} 3F"));
        let fields = decode(&frame).expect("a frame");
        match fields.find(Name::Real).and_then(|field| field.element()) {
            Some(Element::Real(value)) => assert_eq!(value.to_bits(), bits),
            other => panic!("{bits:08X} is {other:?}"),
        }
    }
}

#[test]
fn identifiers_are_in_range() {
    assert_eq!(ObjectIdentifier::new(1023, 4_194_303).map(u32::from), Some(u32::MAX));
    assert_eq!(ObjectIdentifier::new(1024, 0), None);
    assert_eq!(ObjectIdentifier::new(0, 4_194_304), None);
    let object = ObjectIdentifier::from(0x0040_0001);
    assert_eq!((object.kind(), object.instance(), object.to_string()), (1, 1, "1:1".to_owned()));
    let fields = decode(&octets(F1)).expect("a frame");
    let found: Vec<_> = fields.iter().filter_map(|field| field.object()).collect();
    assert_eq!(found, [ObjectIdentifier::from(5)]);
}

#[test]
fn the_fields_of_a_frame_give_it_again() {
    let long = format!("0100 1009 {}", "AA".repeat(65_531));
    for frame in [F1, F2, F4, EVERY_ELEMENT, "0128 0005 01 0A 0007 02 0102 FF 1008", "0180 01 0002 0003", &long] {
        let frame = octets(frame);
        let fields = decode(&frame).expect("a frame");
        let canonical = normalise(&frame).expect("a frame");
        assert_eq!(fields.octets(), canonical);
        assert_eq!(fields.iter().collect::<Builder>().encode().as_ref(), Ok(&canonical));
        assert_eq!(Builder::from(fields.clone()).encode().as_ref(), Ok(&canonical));
        assert_eq!(fields.into_octets(), canonical);
    }
}

#[test]
fn fields_are_counted_from_both_ends() {
    let fields = decode(&octets(F1)).expect("a frame");
    assert_eq!(fields.iter().len(), 10);
    let mut reversed: Vec<Field> = fields.iter().rev().collect();
    reversed.reverse();
    assert_eq!(reversed, (&fields).into_iter().collect::<Vec<_>>());
    assert_eq!(fields.find(Name::Priority), None);
}

#[test]
fn a_changed_frame_is_encoded() {
    let write = octets("0104 0005030F 0C00400001 1955 3E 4442C80000 3F 4908");
    let fields = decode(&write).expect("a frame");
    let changed = Builder::from(fields).set(Name::Priority, 9).set(Name::Real, 50.0_f32.to_bits().into());
    assert_eq!(changed.encode(), Ok(octets("0104 0005030F 0C00400001 1955 3E 4442480000 3F 4909")));
}

#[test]
fn other_fields_are_refused() {
    let rows = [
        (Builder::new(), Why::Short, 0),
        (who_is().say(Name::Low, 0), Why::Short, 5),
        (who_is().say(Name::High, 5), Why::Trailing, 4),
        (Builder::new().say(Name::ReplyExpected, 0), Why::Name, 0),
        (Builder::new().say(Name::Unknown(200), 0), Why::Name, 0),
        (Builder::new().say(Name::NetworkPriority, 4), Why::Number, 0),
        (who_is().set(Name::WhoIs, 0), Why::Number, 3),
        (who_is().set(Name::ReplyExpected, u64::MAX), Why::Number, 1),
    ];
    for (builder, why, index) in rows {
        assert_eq!(builder.encode().map_err(of), Err((why, index)), "{builder:?}");
    }
    assert_eq!(who_is().encode(), Ok(octets("0100 1008")));
}

#[test]
fn contents_out_of_range_are_refused() {
    // A source without an address, and one of 256 octets.
    let source = |address: &[u8]| {
        let front = Builder::new().say(Name::NetworkPriority, 0).say(Name::ReplyExpected, 0);
        front.hold(Name::Source, 7, address).say(Name::UnconfirmedRequest, 0).say(Name::WhoIs, 8)
    };
    assert_eq!(source(&[]).encode().map_err(of), Err((Why::Contents, 2)));
    assert_eq!(source(&[1; 256]).encode().map_err(of), Err((Why::Contents, 2)));
    assert_eq!(source(&[1, 2]).encode(), Ok(octets("0108 0007 02 0102 1008")));
}
