// SPDX-License-Identifier: Apache-2.0 OR MIT
//! The calls on whole frames, by the examples of docs/EXAMPLES.md.
mod common;

use bactool::{
    check, check_strict, decode, explain, explain_text, head, normalise, read, same_meaning, show, Known, Pdu,
    PieceKind, Refusal, Side, Tag, Verdict, Why,
};
use common::{octets, F1, F2, F4};

/// What a refusal says.
fn of(refusal: Refusal) -> (Why, usize) {
    (refusal.why, refusal.place)
}

#[test]
fn canonical_octets_are_accepted() {
    let frames = [
        F1,
        F4,
        "0120 FFFF00 FF 1008",
        "0100 1000 C402000001 2201E0 9103 2163",
        "0104 0005030F 0C00400001 1955 3E 4442C80000 3F 4908",
        "0180 01 0002 0003",
        "0128 0005 01 0A 0007 02 0102 FF 1008",
    ];
    for frame in frames.map(octets) {
        assert_eq!(check(&frame), Ok(Verdict::Canonical));
        assert_eq!(check_strict(&frame), Ok(()));
        assert_eq!(normalise(&frame), Ok(frame));
    }
}

#[test]
fn tolerated_octets_are_normalised() {
    let rows = [
        (F2, 1, F1),
        ("0104 0005010C FD0004 00000005 1955", 6, F1),
        ("0104 0005010C 0C00000005 1D08 0000000000000055", 11, F1),
        ("0104 0405010C 0C00000005 1955", 2, F1),
        ("01D0 12", 1, "0180 12"),
    ];
    for (spelling, place, canonical) in rows {
        let frame = octets(spelling);
        assert_eq!(check(&frame), Ok(Verdict::Tolerated { place }), "{spelling}");
        assert_eq!(check(&frame).unwrap().to_string(), format!("tolerated at {place}"));
        assert_eq!(check_strict(&frame).map_err(of), Err((Why::NotCanonical, place)), "{spelling}");
        assert_eq!(normalise(&frame), Ok(octets(canonical)), "{spelling}");
        assert_eq!(same_meaning(&frame, &octets(canonical)), Ok(true), "{spelling}");
    }
}

#[test]
fn other_octets_are_refused_by_every_call() {
    let rows = [
        ("", Why::Short, 0),
        ("0104 0005010C 0C000000", Why::Short, 10),
        ("0104 0005010C 0C00000005 1955 3E", Why::Trailing, 13),
        ("02", Why::Version, 0),
        ("0108 0001 00", Why::Address, 4),
        ("0100 80", Why::PduType, 2),
        ("0100 3C0100000C", Why::Window, 5),
        ("0104 0005010C 1C00000005 1955", Why::Tag, 6),
        ("0104 0005010C 0B00000005 1955", Why::Length, 6),
        ("0104 0005030F 0C00400001 1955 3E 4442C80000 3F 4911", Why::Content, 21),
    ];
    for (digits, why, place) in rows {
        let (frame, refused) = (octets(digits), Err((why, place)));
        assert_eq!(check(&frame).map(|_| ()).map_err(of), refused, "{digits}");
        assert_eq!(check_strict(&frame).map_err(of), refused, "{digits}");
        assert_eq!(normalise(&frame).map(|_| ()).map_err(of), refused, "{digits}");
        assert_eq!(show(&frame).map(|_| ()).map_err(of), refused, "{digits}");
        assert_eq!(decode(&frame).map(|_| ()).map_err(of), refused, "{digits}");
        assert_eq!(check(&frame).unwrap_err().to_string(), format!("{why} at {place}"));
    }
}

#[test]
fn the_head_of_what_is_refused_is_known() {
    let request = octets("010C 0007010A 0005030F 0C00400001 1955 3E 4442C80000 3F 4911");
    let found = head(&request);
    assert_eq!(found.refused.map(of), Some((Why::Content, 25)));
    assert_eq!((found.known, found.reply, found.priority, found.hops), (Known::All, true, 0, 0));
    assert_eq!(found.source.map(|source| (source.network, source.octets)), Some((7, &[0x0A][..])));
    assert_eq!((found.destination, found.pdu, found.invoke), (None, Some(Pdu::Confirmed), 3));
    assert_eq!((found.choice, found.contents, found.segmented), (15, 10, false));
    for (length, known) in [(9, Known::Addresses), (5, Known::Control), (1, Known::Nothing), (0, Known::Nothing)] {
        let cut = head(&request[..length]);
        assert_eq!((cut.known, cut.refused.map(of), cut.pdu), (known, Some((Why::Short, length)), None));
    }
    let message = octets("0180 80 0104 FF");
    let found = head(&message);
    assert_eq!((found.refused, found.pdu, found.message), (None, Some(Pdu::Message), 128));
    assert_eq!((found.vendor, found.contents), (260, 5));
}

/// The pieces of octets: each begins where the one before it ends, and one is at the place of a refusal.
fn covers(octets: &[u8]) {
    let told = explain(octets);
    assert_eq!(told.verdict, check(octets));
    let mut end = 0;
    for piece in &told.pieces {
        assert_eq!(piece.place(), end);
        let (head, contents) = piece.parts();
        assert_eq!([head, contents].concat(), piece.octets());
        assert!(!piece.to_string().is_empty());
        end += piece.octets().len();
    }
    assert_eq!(end, octets.len());
    let arrows: Vec<_> = told.pieces.iter().filter_map(|piece| Some((piece.why()?, piece.place()))).collect();
    assert_eq!(arrows, told.verdict.map_err(of).err().into_iter().collect::<Vec<_>>());
}

#[test]
fn each_octet_is_explained() {
    let frame = octets("0104 0005030F 0C00400001 1955 3E 4442C80000 3F 4911 FF");
    (0..=frame.len()).for_each(|length| covers(&frame[..length]));
    [F1, F2, F4, "0100 1009 AABB", "0180 01 0002 0003"].map(octets).iter().for_each(|frame| covers(frame));
    let told = explain(&frame);
    let places: Vec<_> = told.pieces.iter().map(|piece| (piece.place(), piece.depth())).collect();
    assert_eq!(places[6..], [(6, 0), (11, 0), (13, 0), (14, 1), (19, 0), (20, 0), (21, 0), (22, 0)]);
    let tags: Vec<_> = told.pieces.iter().filter_map(|piece| piece.tag()).collect();
    let wanted =
        [Tag::Context(0), Tag::Context(1), Tag::Opening(3), Tag::Application(4), Tag::Closing(3), Tag::Context(4)];
    assert_eq!(tags, wanted);
    assert_eq!(told.pieces[4].kind(), PieceKind::InvokeId);
    assert_eq!(told.pieces[13].kind(), PieceKind::Rest);
    assert_eq!(explain(&octets(F2)).verdict, Ok(Verdict::Tolerated { place: 1 }));
}

#[test]
fn each_octet_has_its_line() {
    let tolerated = explain_text(&octets(F2));
    assert_eq!(tolerated.verdict, Ok(Verdict::Tolerated { place: 1 }));
    assert!(tolerated.lines.ends_with("  11  1A 0055      [1] property 85  ~ 19 55\n"));
    let refused = explain_text(&octets(F1)[..11]);
    assert_eq!(refused.verdict.map_err(of), Err((Why::Short, 11)));
    assert!(refused.lines.contains("   6  0C 00000005  [0] object 0:5\n"));
    assert!(refused.lines.ends_with("; possible here: [1] property\n"));
    // More lines than there is room for at first.
    let long = [octets("0100 1009"), vec![0; 20_000]].concat();
    let told = explain_text(&long);
    assert_eq!((told.verdict, told.lines.lines().count()), (Ok(Verdict::Canonical), long.len()));
}

#[test]
fn groups_nest_32_deep() {
    let nested = |depth: usize| {
        let front = "0100 30010C 0C00000005 1955 3E";
        octets(&format!("{front}{}{}3F", "0E".repeat(depth), "0F".repeat(depth)))
    };
    assert_eq!(check(&nested(32)), Ok(Verdict::Canonical));
    assert_eq!(check(&nested(33)).map_err(of), Err((Why::Depth, 45)));
}

#[test]
fn text_is_shown_and_read_back() {
    let rows = [
        (F1, "prio=0 reply=1 conf id=1 sa=0 segs=0 resp=5 ReadProperty object=0:5 property=85"),
        ("0120 FFFF00 FF 1008", "prio=0 reply=0 dest=65535/* hops=255 unconf Who-Is"),
        ("0128 0005 01 0A 0007 02 0102 FF 1008", "prio=0 reply=0 dest=5/0A hops=255 src=7/0102 unconf Who-Is"),
        ("0180 80 0104 AABB", "prio=0 reply=0 net type=80 vendor=260 data=AABB"),
    ];
    for (digits, text) in rows {
        assert_eq!(show(&octets(digits)).as_deref(), Ok(text));
        assert_eq!(read(text), Ok(octets(digits)));
        assert_eq!(read(text.as_bytes()), Ok(octets(digits)));
    }
}

#[test]
fn text_longer_than_the_first_room_is_whole() {
    // Example 67: an opaque service of 1,000 octets.
    let frame = octets(&format!("0100 1009 {}", "AA".repeat(1000)));
    let text = format!("prio=0 reply=0 unconf opaque choice=9 octets={}", "AA".repeat(1000));
    assert_eq!(show(&frame), Ok(text.clone()));
    assert_eq!(read(text), Ok(frame));
}

#[test]
fn other_text_is_refused() {
    let rows: [(&[u8], Why, usize); 5] = [
        (b"", Why::Short, 0),
        (b"prio=0 reply=0 unconf Who-I", Why::Short, 27),
        (b"prio=4 reply=0 unconf Who-Is", Why::Text, 5),
        (b"prio=0 reply=0 unconf Who-Is\n", Why::Text, 28),
        (b"prio=0 \xFF", Why::Text, 7),
    ];
    for (text, why, place) in rows {
        assert_eq!(read(text).map_err(of), Err((why, place)), "{text:?}");
    }
}

#[test]
fn meanings_are_compared() {
    let (f1, f2, f4, refused) = (octets(F1), octets(F2), octets(F4), [0x02]);
    assert_eq!(same_meaning(&f1, &f2), Ok(true));
    assert_eq!(same_meaning(&f1, &f4), Ok(false));
    assert_eq!(same_meaning(&f1, &f1), Ok(true));
    let right = same_meaning(&f1, &refused).unwrap_err();
    assert_eq!((right.side, of(right.refusal)), (Side::Right, (Why::Version, 0)));
    let left = same_meaning(&[], &f1).unwrap_err();
    assert_eq!((left.side, of(left.refusal)), (Side::Left, (Why::Short, 0)));
    let both = same_meaning(&[], &refused).unwrap_err();
    assert_eq!((both.side, of(both.refusal)), (Side::Left, (Why::Short, 0)));
    assert_eq!(both.to_string(), "left: Short at 0");
}

#[test]
fn the_library_is_no_older_than_the_crate() {
    let parts = [env!("CARGO_PKG_VERSION_MAJOR"), env!("CARGO_PKG_VERSION_MINOR"), env!("CARGO_PKG_VERSION_PATCH")];
    let version = parts.iter().fold(0, |number, part| number * 100 + part.parse::<u32>().expect("a number"));
    assert!(bactool::version() >= version);
}

#[test]
fn threads_call_at_the_same_time() {
    let threads: Vec<_> = (0..8).map(|_| std::thread::spawn(|| normalise(&octets(F2)))).collect();
    for thread in threads {
        assert_eq!(thread.join().expect("no thread panics"), Ok(octets(F1)));
    }
}
