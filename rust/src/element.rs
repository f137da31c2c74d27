// SPDX-License-Identifier: Apache-2.0 OR MIT
//! The elements of open values, and object identifiers, as Rust has them.
use crate::Name;
use std::fmt;
use std::str;

/// An object identifier: a type of 10 bits, and an instance of 22 bits (clause 20.2.14). It prints as `0:5`.
///
/// ```
/// use bactool::ObjectIdentifier;
///
/// let object = ObjectIdentifier::new(1, 3).expect("both are in range");
/// assert_eq!((object.kind(), object.instance()), (1, 3));
/// assert_eq!(object.to_string(), "1:3");
/// assert_eq!(u32::from(object), 0x0040_0003);
/// assert_eq!(ObjectIdentifier::new(1024, 0), None);
/// ```
#[derive(Clone, Copy, Debug, PartialEq, Eq, PartialOrd, Ord, Hash)]
pub struct ObjectIdentifier {
    bits: u32,
}

impl ObjectIdentifier {
    /// Returns the identifier with this type, such as 0 for analog inputs, and this instance. It is `None` if the type
    /// is above 1,023 or the instance above 4,194,303.
    pub const fn new(kind: u16, instance: u32) -> Option<ObjectIdentifier> {
        if kind > 0x3FF || instance > 0x3F_FFFF {
            return None;
        }
        Some(ObjectIdentifier { bits: (kind as u32) << 22 | instance })
    }

    /// Returns the object type, 0 to 1,023.
    pub const fn kind(self) -> u16 {
        (self.bits >> 22) as u16
    }

    /// Returns the instance, 0 to 4,194,303.
    pub const fn instance(self) -> u32 {
        self.bits & 0x3F_FFFF
    }
}

/// Any 32 bits are those of an identifier.
impl From<u32> for ObjectIdentifier {
    fn from(bits: u32) -> ObjectIdentifier {
        ObjectIdentifier { bits }
    }
}

impl From<ObjectIdentifier> for u32 {
    fn from(object: ObjectIdentifier) -> u32 {
        object.bits
    }
}

/// The number of a field with the identifier.
impl From<ObjectIdentifier> for u64 {
    fn from(object: ObjectIdentifier) -> u64 {
        object.bits.into()
    }
}

impl fmt::Display for ObjectIdentifier {
    fn fmt(&self, formatter: &mut fmt::Formatter<'_>) -> fmt::Result {
        write!(formatter, "{}:{}", self.kind(), self.instance())
    }
}

/// An element of an open value, such as the value of a property: what a field says whose name is one of [`Name::Null`]
/// to [`Name::ContextPrimitive`]. [`Field::element`](crate::Field::element) returns it, and
/// [`Builder::element`](crate::Builder::element) takes it.
///
/// Reals and Doubles have the bits that are in the octets, also where they are no number.
#[derive(Clone, Copy, Debug, PartialEq)]
#[non_exhaustive]
pub enum Element<'a> {
    /// A Null.
    Null,
    /// A Boolean.
    Boolean(bool),
    /// An Unsigned Integer.
    Unsigned(u64),
    /// A Signed Integer.
    Signed(i64),
    /// A Real.
    Real(f32),
    /// A Double.
    Double(f64),
    /// The octets of an Octet String.
    OctetString(&'a [u8]),
    /// A Character String.
    CharacterString {
        /// The character set. Set 0 is UTF-8.
        set: u8,
        /// The octets of the text. That they are a text of the character set is not checked.
        octets: &'a [u8],
    },
    /// A Bit String.
    BitString {
        /// How many bits it has.
        count: u64,
        /// The octets that hold the bits, each from bit 7 downwards. Unused bits are 0.
        octets: &'a [u8],
    },
    /// An Enumerated.
    Enumerated(u32),
    /// The four octets of a Date: the year from 1900, the month, the day of the month and the day of the week. FF is
    /// any. That they are a date is not checked.
    Date([u8; 4]),
    /// The four octets of a Time: the hour, the minute, the second and the hundredths. FF is any. That they are a time
    /// is not checked.
    Time([u8; 4]),
    /// An object identifier.
    ObjectIdentifier(ObjectIdentifier),
    /// A context primitive, whose type its tag does not say.
    ContextPrimitive {
        /// The number of its tag, 0 to 254.
        tag: u8,
        /// The octets of its contents.
        octets: &'a [u8],
    },
}

impl<'a> Element<'a> {
    /// Returns the text of a Character String of character set 0, if it is UTF-8.
    ///
    /// ```
    /// use bactool::Element;
    ///
    /// assert_eq!(Element::from("Hello").text(), Some("Hello"));
    /// assert_eq!(Element::CharacterString { set: 5, octets: &[0xE9] }.text(), None);
    /// assert_eq!(Element::CharacterString { set: 0, octets: &[0xE9] }.text(), None);
    /// ```
    pub fn text(&self) -> Option<&'a str> {
        match *self {
            Element::CharacterString { set: 0, octets } => str::from_utf8(octets).ok(),
            _ => None,
        }
    }

    /// Returns the element that a field with this name, this number and these contents says, if it says one.
    pub(crate) fn of(name: Name, number: u64, contents: &'a [u8]) -> Option<Element<'a>> {
        Some(match name {
            Name::Null => Element::Null,
            Name::Boolean => Element::Boolean(number == 1),
            Name::Unsigned => Element::Unsigned(number),
            // 64 bits of two's complement
            Name::Signed => Element::Signed(number as i64),
            Name::Real => Element::Real(f32::from_bits(number.try_into().ok()?)),
            Name::Double => Element::Double(f64::from_bits(number)),
            Name::OctetString => Element::OctetString(contents),
            Name::CharacterString => Element::CharacterString { set: number.try_into().ok()?, octets: contents },
            Name::BitString => Element::BitString { count: number, octets: contents },
            Name::Enumerated => Element::Enumerated(number.try_into().ok()?),
            Name::Date => Element::Date(contents.try_into().ok()?),
            Name::TimeOfDay => Element::Time(contents.try_into().ok()?),
            Name::ObjectIdentifier => Element::ObjectIdentifier(u32::try_from(number).ok()?.into()),
            Name::ContextPrimitive => Element::ContextPrimitive { tag: number.try_into().ok()?, octets: contents },
            _ => return None,
        })
    }

    /// Returns the name and the number of a field that says this element.
    pub(crate) fn name_and_number(&self) -> (Name, u64) {
        match *self {
            Element::Null => (Name::Null, 0),
            Element::Boolean(value) => (Name::Boolean, value.into()),
            Element::Unsigned(value) => (Name::Unsigned, value),
            Element::Signed(value) => (Name::Signed, value as u64),
            Element::Real(value) => (Name::Real, value.to_bits().into()),
            Element::Double(value) => (Name::Double, value.to_bits()),
            Element::OctetString(_) => (Name::OctetString, 0),
            Element::CharacterString { set, .. } => (Name::CharacterString, set.into()),
            Element::BitString { count, .. } => (Name::BitString, count),
            Element::Enumerated(value) => (Name::Enumerated, value.into()),
            Element::Date(_) => (Name::Date, 0),
            Element::Time(_) => (Name::TimeOfDay, 0),
            Element::ObjectIdentifier(object) => (Name::ObjectIdentifier, object.into()),
            Element::ContextPrimitive { tag, .. } => (Name::ContextPrimitive, tag.into()),
        }
    }

    /// Returns the contents of a field that says this element.
    pub(crate) fn contents(&self) -> &[u8] {
        match self {
            Element::OctetString(octets)
            | Element::CharacterString { octets, .. }
            | Element::BitString { octets, .. }
            | Element::ContextPrimitive { octets, .. } => octets,
            Element::Date(octets) | Element::Time(octets) => octets,
            _ => &[],
        }
    }
}

/// A Character String of character set 0.
impl<'a> From<&'a str> for Element<'a> {
    fn from(text: &'a str) -> Element<'a> {
        Element::CharacterString { set: 0, octets: text.as_bytes() }
    }
}
