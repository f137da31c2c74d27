// SPDX-License-Identifier: Apache-2.0 OR MIT
//! Frame files: each record is two octets of length, and so many octets.
use std::io::{self, BufReader, ErrorKind, Read, Write};
use std::iter::FusedIterator;

/// Returns the records of a frame file, in their order: the octets of each, at most 65,535. They are not
/// examined. The reader is read through a buffer of its own.
///
/// # Errors
///
/// A record is an error where the reader fails, and one of the kind [`ErrorKind::UnexpectedEof`] where the file ends
/// within a record. No record comes after an error.
///
/// # Examples
///
/// ```
/// use bactool::{check, records, Verdict};
///
/// let file = [0, 4, 0x01, 0x00, 0x10, 0x08, 0, 1, 0x02];
/// let checked: Vec<_> = records(&file[..]).map(|record| check(&record.expect("no read fails"))).collect();
/// assert_eq!(checked[0], Ok(Verdict::Canonical));
/// assert_eq!(checked[1].unwrap_err().to_string(), "Version at 0");
/// assert_eq!(checked.len(), 2);
/// ```
pub fn records<R: Read>(reader: R) -> Records<R> {
    Records { reader: BufReader::new(reader), count: 0, is_over: false }
}

/// The records of a frame file. [`records`] returns it.
#[derive(Debug)]
pub struct Records<R> {
    reader: BufReader<R>,
    /// How many records were returned.
    count: u64,
    is_over: bool,
}

impl<R: Read> Records<R> {
    fn read_record(&mut self) -> io::Result<Option<Vec<u8>>> {
        let mut head = [0; 2];
        match read_up_to(&mut self.reader, &mut head)? {
            0 => return Ok(None),
            2 => {}
            _ => return Err(self.cut()),
        }
        let mut octets = vec![0; u16::from_be_bytes(head).into()];
        if read_up_to(&mut self.reader, &mut octets)? < octets.len() {
            return Err(self.cut());
        }
        self.count += 1;
        Ok(Some(octets))
    }

    fn cut(&self) -> io::Error {
        io::Error::new(ErrorKind::UnexpectedEof, format!("the file ends within record {}", self.count + 1))
    }
}

impl<R: Read> Iterator for Records<R> {
    type Item = io::Result<Vec<u8>>;

    fn next(&mut self) -> Option<io::Result<Vec<u8>>> {
        if self.is_over {
            return None;
        }
        let record = self.read_record().transpose();
        self.is_over = !matches!(record, Some(Ok(_)));
        record
    }
}

impl<R: Read> FusedIterator for Records<R> {}

/// Reads octets until the room is full or the input ends. Returns how many were read.
fn read_up_to(reader: &mut impl Read, room: &mut [u8]) -> io::Result<usize> {
    let mut count = 0;
    while count < room.len() {
        match reader.read(&mut room[count..]) {
            Ok(0) => break,
            Ok(read) => count += read,
            Err(fault) if fault.kind() == ErrorKind::Interrupted => {}
            Err(fault) => return Err(fault),
        }
    }
    Ok(count)
}

/// Writes a record of a frame file: the length of the octets in two octets, and the octets.
///
/// # Errors
///
/// An error is that of the writer. It is one of the kind [`ErrorKind::InvalidInput`] if there are more than 65,535
/// octets, and then nothing is written.
///
/// # Examples
///
/// ```
/// use bactool::write_record;
///
/// let mut file = Vec::new();
/// write_record(&mut file, &[0x01, 0x00, 0x10, 0x08])?;
/// assert_eq!(file, [0, 4, 0x01, 0x00, 0x10, 0x08]);
/// # Ok::<(), std::io::Error>(())
/// ```
pub fn write_record(writer: &mut impl Write, octets: &[u8]) -> io::Result<()> {
    let length = u16::try_from(octets.len())
        .map_err(|_| io::Error::new(ErrorKind::InvalidInput, "a record has at most 65535 octets"))?;
    writer.write_all(&length.to_be_bytes())?;
    writer.write_all(octets)
}
