// SPDX-License-Identifier: Apache-2.0 OR MIT
//! The numbers of names and reasons, against the library.
use bactool::{Name, Why};

/// Numbers beyond all of the header.
const UNKNOWN: [u32; 4] = [0, 1000, 65_536, u32::MAX];

#[test]
fn the_crate_names_what_the_library_names() {
    for number in (0..=1000).chain(UNKNOWN) {
        let name = Name::from(number);
        let is_unknown = name == Name::Unknown(number);
        assert_eq!(name.to_string() == format!("name {number}"), is_unknown, "{name:?}");
        assert_eq!(u32::from(name), number);
    }
}

#[test]
fn words_are_those_of_the_text() {
    let rows = [
        (Name::NetworkPriority, "prio"),
        (Name::RequestSegment, "conf-seg"),
        (Name::NetworkMessage, "net"),
        (Name::WhoIs, "Who-Is"),
        (Name::Object, "object"),
        (Name::PropertyError, "error"),
        (Name::Real, "r"),
    ];
    for (name, word) in rows {
        assert_eq!(name.to_string(), word);
    }
}

/// Each reason has the number of its name: the library prints it as the variant is called.
#[test]
fn the_crate_names_the_reasons_of_the_library() {
    for number in (0..=1000).chain(UNKNOWN) {
        let why = Why::from(number);
        let printed = match why {
            Why::Unknown(_) => format!("reason {number}"),
            known => format!("{known:?}"),
        };
        assert_eq!(why.to_string(), printed);
        assert_eq!(u32::from(why), number);
    }
    assert!(!matches!(Why::from(16), Why::Unknown(_)));
}

#[test]
fn words_are_padded() {
    assert_eq!(format!("{:>8}|{:<8}|", Name::Object, Why::Short), "  object|Short   |");
}
