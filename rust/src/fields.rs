// SPDX-License-Identifier: Apache-2.0 OR MIT
//! A frame as its fields.
use crate::ffi::{self, Part};
use crate::{Element, Name, ObjectIdentifier, Refusal};
use std::fmt;
use std::iter::FusedIterator;
use std::slice;

/// A frame as its fields, and its canonical octets. [`decode`] returns it.
#[derive(Clone, PartialEq, Eq, Hash)]
pub struct Fields {
    pub(crate) octets: Vec<u8>,
    pub(crate) parts: Vec<Part>,
}

impl fmt::Debug for Fields {
    fn fmt(&self, formatter: &mut fmt::Formatter<'_>) -> fmt::Result {
        formatter.debug_list().entries(self).finish()
    }
}

/// A field of a frame: a part of its text, and where its octets are in the canonical octets of the frame.
#[derive(Clone, Copy, Debug, PartialEq, Eq, Hash)]
#[non_exhaustive]
pub struct Field<'a> {
    /// What it says.
    pub name: Name,
    /// The number that it says, or 0 if it says none.
    pub number: u64,
    /// The offset of its first octet in the canonical octets of the frame, counted from 0.
    pub place: usize,
    /// The octets before its contents, such as a tag.
    pub head: &'a [u8],
    /// The octets after its head.
    pub contents: &'a [u8],
}

impl<'a> Field<'a> {
    /// Returns the element of an open value that the field says. It is `None` if the field says something else, such as
    /// where a group begins or ends.
    ///
    /// ```
    /// use bactool::{decode, Element, Name};
    ///
    /// let answer = [1, 0, 0x30, 1, 12, 0x0C, 0, 0, 0, 5, 0x19, 85, 0x3E, 0x44, 0x42, 0x90, 0x99, 0x9A, 0x3F];
    /// let fields = decode(&answer)?;
    /// let real = fields.find(Name::Real).expect("the value is a Real");
    /// assert_eq!(real.element(), Some(Element::Real(72.3)));
    /// assert_eq!(fields.find(Name::Property).unwrap().element(), None);
    /// # Ok::<(), bactool::Refusal>(())
    /// ```
    pub fn element(&self) -> Option<Element<'a>> {
        Element::of(self.name, self.number, self.contents)
    }

    /// Returns the object identifier that the field says. It is `None` if the name is none of [`Name::Object`],
    /// [`Name::Device`] and [`Name::ObjectIdentifier`].
    ///
    /// ```
    /// use bactool::{decode, Name, ObjectIdentifier};
    ///
    /// let fields = decode(&[1, 4, 0, 5, 1, 12, 0x0C, 0, 0, 0, 5, 0x19, 85])?;
    /// let object = fields.find(Name::Object).and_then(|field| field.object());
    /// assert_eq!(object, ObjectIdentifier::new(0, 5));
    /// # Ok::<(), bactool::Refusal>(())
    /// ```
    pub fn object(&self) -> Option<ObjectIdentifier> {
        match self.name {
            Name::Object | Name::Device | Name::ObjectIdentifier => Some(u32::try_from(self.number).ok()?.into()),
            _ => None,
        }
    }
}

/// Decodes the frame that octets encode, canonical or not. The octets of its fields are the canonical ones.
///
/// # Errors
///
/// Octets that encode no frame are refused as by [`check`](crate::check).
///
/// # Examples
///
/// ```
/// use bactool::{decode, Name};
///
/// // A Who-Is for the devices 1 to 99.
/// let fields = decode(&[0x01, 0x00, 0x10, 0x08, 0x09, 0x01, 0x19, 0x63])?;
/// let numbers: Vec<(Name, u64)> = fields.iter().map(|field| (field.name, field.number)).collect();
/// assert_eq!(
///     numbers,
///     [
///         (Name::NetworkPriority, 0),
///         (Name::ReplyExpected, 0),
///         (Name::UnconfirmedRequest, 0),
///         (Name::WhoIs, 8),
///         (Name::Low, 1),
///         (Name::High, 99),
///     ]
/// );
/// let high = fields.find(Name::High).expect("it is there");
/// assert_eq!((high.place, high.head, high.contents), (6, &[0x19][..], &[0x63][..]));
/// # Ok::<(), bactool::Refusal>(())
/// ```
pub fn decode(octets: &[u8]) -> Result<Fields, Refusal> {
    // The header promises that this is enough.
    let mut out = vec![0; octets.len()];
    let mut parts = vec![Part::default(); 2 * octets.len() + 2];
    let (code, outcome) = ffi::decode(octets, &mut out, &mut parts);
    if code != ffi::OK {
        return Err(outcome.into());
    }
    out.truncate(outcome.count);
    parts.truncate(outcome.fields);
    // A frame has fewer fields than that, most often.
    parts.shrink_to_fit();
    Ok(Fields { octets: out, parts })
}

impl Fields {
    /// Returns the canonical octets of the frame.
    pub fn octets(&self) -> &[u8] {
        &self.octets
    }

    /// Returns the canonical octets of the frame, without a copy.
    pub fn into_octets(self) -> Vec<u8> {
        self.octets
    }

    /// Returns the fields in the order of the text.
    pub fn iter(&self) -> Iter<'_> {
        Iter { octets: &self.octets, parts: self.parts.iter() }
    }

    /// Returns the first field with this name, if there is one.
    pub fn find(&self, name: Name) -> Option<Field<'_>> {
        self.iter().find(|field| field.name == name)
    }
}

impl<'a> IntoIterator for &'a Fields {
    type Item = Field<'a>;
    type IntoIter = Iter<'a>;

    fn into_iter(self) -> Iter<'a> {
        self.iter()
    }
}

/// The fields of a frame in the order of its text. [`Fields::iter`] returns it.
#[derive(Clone, Debug)]
pub struct Iter<'a> {
    octets: &'a [u8],
    parts: slice::Iter<'a, Part>,
}

impl<'a> Iter<'a> {
    pub(crate) fn new(octets: &'a [u8], parts: &'a [Part]) -> Iter<'a> {
        Iter { octets, parts: parts.iter() }
    }

    fn field(&self, part: &Part) -> Field<'a> {
        // The library promises that a field is within the octets, and a builder puts it there.
        let (head, rest) = self.octets[part.place..].split_at(part.head);
        Field { name: part.name.into(), number: part.number, place: part.place, head, contents: &rest[..part.length] }
    }
}

impl<'a> Iterator for Iter<'a> {
    type Item = Field<'a>;

    fn next(&mut self) -> Option<Field<'a>> {
        self.parts.next().map(|part| self.field(part))
    }

    fn size_hint(&self) -> (usize, Option<usize>) {
        self.parts.size_hint()
    }
}

impl<'a> DoubleEndedIterator for Iter<'a> {
    fn next_back(&mut self) -> Option<Field<'a>> {
        self.parts.next_back().map(|part| self.field(part))
    }
}

impl ExactSizeIterator for Iter<'_> {}

impl FusedIterator for Iter<'_> {}
