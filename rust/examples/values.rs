// SPDX-License-Identifier: Apache-2.0 OR MIT
//! `values < FRAMES` prints the values of a frame file on standard input, as `examples/c/values.c` does: a line for each
//! property in an answer to ReadProperty or ReadPropertyMultiple, or in a COV notification, with the number of the
//! record. Refused records are named on standard error. Other records are passed over.
//!
//! The status is 0, 1 if a record is refused, and 2 if the words, the input or the output are at fault.
mod common;

use bactool::{decode, records, Element, Field, Fields, Name};
use common::{ended, report, usage, words};
use std::io::{self, BufWriter, Write};
use std::process::ExitCode;

fn main() -> ExitCode {
    if !words().is_empty() {
        return usage("values < FRAMES");
    }
    ended(run())
}

/// Writes the values of each record. Returns whether one was refused.
fn run() -> io::Result<bool> {
    let mut output = BufWriter::new(io::stdout().lock());
    let mut is_refused = false;
    for (number, octets) in (1..).zip(records(io::stdin().lock())) {
        match decode(&octets?) {
            Ok(fields) => write_values(number, &fields, &mut output)?,
            Err(refusal) => {
                is_refused = true;
                report(format_args!("values: record {number}: refused {refusal}"));
            }
        }
    }
    output.flush()?;
    Ok(is_refused)
}

/// Writes a line for each value of an answer or a notification. Before it are its object, its property and, if there is
/// one, its index.
fn write_values(number: u64, fields: &Fields, output: &mut impl Write) -> io::Result<()> {
    const WANTED: [Name; 3] = [Name::ComplexAck, Name::ConfirmedCovNotification, Name::UnconfirmedCovNotification];
    if !fields.iter().any(|field| WANTED.contains(&field.name)) {
        return Ok(());
    }
    let device = fields.find(Name::Device);
    let (mut object, mut property, mut index) = (None, None, None);
    for field in fields {
        match field.name {
            Name::Object => object = Some(field),
            Name::Property => (property, index) = (Some(field), None),
            Name::Index => index = Some(field),
            Name::Value | Name::PropertyError => {
                write!(output, "{number}")?;
                for part in [device, object, property, index].into_iter().flatten() {
                    write_part(&part, output)?;
                }
                write!(output, " {}", field.name)?;
            }
            Name::ErrorClass | Name::ErrorCode => write_part(&field, output)?,
            Name::ValueEnd | Name::PropertyErrorEnd => writeln!(output)?,
            Name::Group => write!(output, " [{}]{{", field.number)?,
            Name::GroupEnd => write!(output, " }}")?,
            _ => {
                if let Some(element) = field.element() {
                    write!(output, " ")?;
                    write_element(element, output)?;
                }
            }
        }
    }
    Ok(())
}

/// Writes the word and the number of a field.
fn write_part(field: &Field, output: &mut impl Write) -> io::Result<()> {
    match field.object() {
        Some(object) => write!(output, " {}={object}", field.name),
        None => write!(output, " {}={}", field.name, field.number),
    }
}

/// Writes an element of a value.
fn write_element(element: Element, output: &mut impl Write) -> io::Result<()> {
    match element {
        Element::Null => write!(output, "null"),
        Element::Boolean(value) => write!(output, "{value}"),
        Element::Unsigned(value) => write!(output, "{value}"),
        Element::Enumerated(value) => write!(output, "{value}"),
        Element::Signed(value) => write!(output, "{value}"),
        Element::Real(value) => write!(output, "{}", real(value)),
        Element::Double(value) => write!(output, "{}", double(value)),
        Element::OctetString(octets) => write!(output, "o:{}", hex(octets)),
        Element::CharacterString { set: 0, octets } => write_text(octets, output),
        Element::CharacterString { set, octets } => write!(output, "s{set}:{}", hex(octets)),
        Element::BitString { count, octets } => write!(output, "b:{}", bits(count, octets)),
        Element::Date(octets) => write!(output, "D:{}", hex(&octets)),
        Element::Time(octets) => write!(output, "T:{}", hex(&octets)),
        Element::ObjectIdentifier(object) => write!(output, "{object}"),
        Element::ContextPrimitive { tag, octets } => write!(output, "[{tag}]{}", hex(octets)),
        // one that only a later release of the crate has
        other => write!(output, "{other:?}"),
    }
}

fn hex(octets: &[u8]) -> String {
    octets.iter().map(|octet| format!("{octet:02X}")).collect()
}

fn bits(count: u64, octets: &[u8]) -> String {
    (0..count as usize).map(|bit| if octets[bit / 8] << (bit % 8) & 0x80 == 0 { '0' } else { '1' }).collect()
}

/// Writes text in quotes, with \xHH in the place of what would break the line.
fn write_text(octets: &[u8], output: &mut impl Write) -> io::Result<()> {
    write!(output, "\"")?;
    for octet in octets {
        match octet {
            0..=0x1F | b'"' | b'\\' | 0x7F => write!(output, "\\x{octet:02X}")?,
            _ => output.write_all(&[*octet])?,
        }
    }
    write!(output, "\"")
}

/// Returns no more digits than read back as the same number, and no fewer than the type always keeps.
fn real(value: f32) -> String {
    let texts = (6..=9).map(|digits| general(f64::from(value), digits));
    shortest(texts, |text| text.parse() == Ok(value))
}

/// The same of a Double.
fn double(value: f64) -> String {
    let texts = (15..=17).map(|digits| general(value, digits));
    shortest(texts, |text| text.parse() == Ok(value))
}

/// Returns the first text that reads back as the number, or the last one, since nothing reads back as what is no number.
fn shortest(mut texts: impl Iterator<Item = String>, reads_back: impl Fn(&str) -> bool) -> String {
    let mut last = String::new();
    let found = texts.find(|text| {
        last.clone_from(text);
        reads_back(text)
    });
    found.unwrap_or(last)
}

/// Returns a number with so many digits, as `%g` of C has it.
fn general(value: f64, digits: usize) -> String {
    if !value.is_finite() {
        return value.to_string().to_lowercase();
    }
    let text = format!("{value:.*e}", digits - 1);
    let (mantissa, exponent) = text.split_once('e').expect("there is an exponent");
    let exponent: i32 = exponent.parse().expect("it is a number");
    if exponent < -4 || exponent >= digits as i32 {
        let sign = if exponent < 0 { '-' } else { '+' };
        return format!("{}e{sign}{:02}", trimmed(mantissa), exponent.abs());
    }
    let decimals = digits as i32 - 1 - exponent;
    trimmed(&format!("{value:.*}", decimals as usize)).to_owned()
}

/// Returns a number with decimals without the zeros at its end.
fn trimmed(text: &str) -> &str {
    match text.contains('.') {
        true => text.trim_end_matches('0').trim_end_matches('.'),
        false => text,
    }
}
