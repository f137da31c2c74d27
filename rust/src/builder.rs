// SPDX-License-Identifier: Apache-2.0 OR MIT
//! A frame that is made of fields.
use crate::ffi::{self, Part};
use crate::frame::written;
use crate::{Element, Field, Fields, Iter, Name, Refusal};
use std::fmt;

/// The fields of a frame that is made: those of a frame that was read, one's own, or both.
///
/// The fields come in the order of the text that [`show`](crate::show) returns for the frame. Section 8.4 of
/// docs/FORMATS.md has their numbers and their contents, and section 8 their order.
///
/// # Examples
///
/// A request is made:
///
/// ```
/// use bactool::{show, Builder, Name, ObjectIdentifier};
///
/// let analog_input = ObjectIdentifier::new(0, 5).expect("both are in range");
/// let octets = Builder::new()
///     .say(Name::NetworkPriority, 0)
///     .say(Name::ReplyExpected, 1)
///     .say(Name::ConfirmedRequest, 0)
///     .say(Name::InvokeId, 1)
///     .say(Name::SegmentedAccepted, 0)
///     .say(Name::MaxSegments, 0)
///     .say(Name::MaxResponse, 5)
///     .say(Name::ReadProperty, 12)
///     .say(Name::Object, analog_input.into())
///     .say(Name::Property, 85)
///     .encode()?;
/// assert_eq!(octets, [1, 4, 0, 5, 1, 12, 0x0C, 0, 0, 0, 5, 0x19, 85]);
/// # Ok::<(), bactool::Refusal>(())
/// ```
///
/// A frame that was read is changed:
///
/// ```
/// use bactool::{decode, Builder, Name};
///
/// let who_is = decode(&[0x01, 0x00, 0x10, 0x08, 0x09, 0x01, 0x19, 0x63])?;
/// let octets = Builder::from(who_is).set(Name::High, 100).encode()?;
/// assert_eq!(octets, [0x01, 0x00, 0x10, 0x08, 0x09, 0x01, 0x19, 0x64]);
/// # Ok::<(), bactool::Refusal>(())
/// ```
#[derive(Clone, Default)]
pub struct Builder {
    octets: Vec<u8>,
    parts: Vec<Part>,
}

impl fmt::Debug for Builder {
    fn fmt(&self, formatter: &mut fmt::Formatter<'_>) -> fmt::Result {
        formatter.debug_list().entries(Iter::new(&self.octets, &self.parts)).finish()
    }
}

impl Builder {
    /// Returns a builder without fields.
    pub fn new() -> Builder {
        Builder::default()
    }

    /// Appends a field with this name and this number, without contents. The number is 0 for a name that has none.
    #[must_use]
    pub fn say(self, name: Name, number: u64) -> Builder {
        self.hold(name, number, &[])
    }

    /// Appends a field with this name, this number and these contents, such as the octets of an address.
    ///
    /// ```
    /// use bactool::{Builder, Name};
    ///
    /// // A Who-Is to address 0A on network 5.
    /// let octets = Builder::new()
    ///     .say(Name::NetworkPriority, 0)
    ///     .say(Name::ReplyExpected, 0)
    ///     .hold(Name::Destination, 5, &[0x0A])
    ///     .say(Name::HopCount, 255)
    ///     .say(Name::UnconfirmedRequest, 0)
    ///     .say(Name::WhoIs, 8)
    ///     .encode()?;
    /// assert_eq!(octets, [0x01, 0x20, 0x00, 0x05, 0x01, 0x0A, 0xFF, 0x10, 0x08]);
    /// # Ok::<(), bactool::Refusal>(())
    /// ```
    #[must_use]
    pub fn hold(mut self, name: Name, number: u64, contents: &[u8]) -> Builder {
        self.push(name, number, contents);
        self
    }

    /// Appends the field of an element of an open value. It comes between a [`Name::Value`] and a [`Name::ValueEnd`].
    ///
    /// ```
    /// use bactool::{show, Builder, Name};
    ///
    /// let octets = Builder::new()
    ///     .say(Name::NetworkPriority, 0)
    ///     .say(Name::ReplyExpected, 0)
    ///     .say(Name::ComplexAck, 0)
    ///     .say(Name::InvokeId, 1)
    ///     .say(Name::ReadProperty, 12)
    ///     .say(Name::Object, 5)
    ///     .say(Name::Property, 77)
    ///     .say(Name::Value, 0)
    ///     .element("Hello".into())
    ///     .say(Name::ValueEnd, 0)
    ///     .encode()?;
    /// assert_eq!(show(&octets)?, r#"prio=0 reply=0 ack id=1 ReadProperty object=0:5 property=77 value={s:"Hello"}"#);
    /// # Ok::<(), bactool::Refusal>(())
    /// ```
    #[must_use]
    pub fn element(self, element: Element<'_>) -> Builder {
        let (name, number) = element.name_and_number();
        self.hold(name, number, element.contents())
    }

    /// Gives each field with this name another number. Its contents, and all other fields, stay as they are.
    #[must_use]
    pub fn set(mut self, name: Name, number: u64) -> Builder {
        let name = u32::from(name);
        for part in self.parts.iter_mut().filter(|part| part.name == name) {
            part.number = number;
        }
        self
    }

    /// Returns the canonical octets of the frame that the fields say: the way back from [`decode`](crate::decode).
    ///
    /// # Errors
    ///
    /// Fields that no frame has are refused. The place is the index of the first field with which no frame's fields
    /// continue, counted from 0; it is the number of the fields if they only end too early.
    ///
    /// ```
    /// use bactool::{Builder, Name, Why};
    ///
    /// let refusal = Builder::new().say(Name::NetworkPriority, 4).encode().unwrap_err();
    /// assert_eq!((refusal.why, refusal.place), (Why::Number, 0));
    /// let refusal = Builder::new().say(Name::NetworkPriority, 0).encode().unwrap_err();
    /// assert_eq!((refusal.why, refusal.place), (Why::Short, 1));
    /// ```
    pub fn encode(&self) -> Result<Vec<u8>, Refusal> {
        // Enough for most frames.
        let room = self.octets.len() + 16 * self.parts.len();
        written(room, |out| ffi::encode(&self.parts, &self.octets, out))
    }

    fn push(&mut self, name: Name, number: u64, contents: &[u8]) {
        let (place, length) = (self.octets.len(), contents.len());
        self.octets.extend_from_slice(contents);
        self.parts.push(Part { name: name.into(), number, place, head: 0, length });
    }
}

/// The fields of a frame that was read.
impl From<Fields> for Builder {
    fn from(fields: Fields) -> Builder {
        let Fields { octets, parts } = fields;
        Builder { octets, parts }
    }
}

/// Appends fields of frames that were read, or some of them.
///
/// ```
/// use bactool::{decode, Builder, Name};
///
/// // A Who-Is without its limits is one for every device.
/// let who_is = decode(&[0x01, 0x00, 0x10, 0x08, 0x09, 0x01, 0x19, 0x63])?;
/// let limits = [Name::Low, Name::High];
/// let builder: Builder = who_is.iter().filter(|field| !limits.contains(&field.name)).collect();
/// assert_eq!(builder.encode()?, [0x01, 0x00, 0x10, 0x08]);
/// # Ok::<(), bactool::Refusal>(())
/// ```
impl<'a> Extend<Field<'a>> for Builder {
    fn extend<T: IntoIterator<Item = Field<'a>>>(&mut self, fields: T) {
        for field in fields {
            self.push(field.name, field.number, field.contents);
        }
    }
}

impl<'a> FromIterator<Field<'a>> for Builder {
    fn from_iter<T: IntoIterator<Item = Field<'a>>>(fields: T) -> Builder {
        let mut builder = Builder::new();
        builder.extend(fields);
        builder
    }
}
