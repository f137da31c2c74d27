// SPDX-License-Identifier: Apache-2.0 OR MIT
//! Frame files.
use bactool::{records, write_record};
use std::io::{self, ErrorKind, Read};

/// Reads one octet at a time, and is interrupted before each.
struct Slow<'a> {
    octets: &'a [u8],
    is_interrupted: bool,
}

impl Read for Slow<'_> {
    fn read(&mut self, room: &mut [u8]) -> io::Result<usize> {
        self.is_interrupted = !self.is_interrupted;
        if self.is_interrupted {
            return Err(ErrorKind::Interrupted.into());
        }
        let length = room.len().min(1);
        self.octets.read(&mut room[..length])
    }
}

/// Fails after its octets.
struct Failing<'a>(&'a [u8]);

impl Read for Failing<'_> {
    fn read(&mut self, room: &mut [u8]) -> io::Result<usize> {
        match self.0.read(room)? {
            0 => Err(ErrorKind::PermissionDenied.into()),
            count => Ok(count),
        }
    }
}

/// Returns the records before the first fault, and what kind of fault it is and its text, if there is one. Nothing comes
/// after a fault.
fn all(reader: impl Read) -> (Vec<Vec<u8>>, Option<(ErrorKind, String)>) {
    let (mut found, mut records) = (Vec::new(), records(reader));
    for record in &mut records {
        match record {
            Ok(octets) => found.push(octets),
            Err(fault) => {
                assert!(records.next().is_none());
                return (found, Some((fault.kind(), fault.to_string())));
            }
        }
    }
    assert!(records.next().is_none());
    (found, None)
}

#[test]
fn records_are_read_in_any_pieces() {
    let file = [0, 3, 1, 2, 3, 0, 0, 0, 1, 9];
    let wanted = (vec![vec![1, 2, 3], vec![], vec![9]], None);
    assert_eq!(all(&file[..]), wanted);
    assert_eq!(all(Slow { octets: &file, is_interrupted: false }), wanted);
    assert_eq!(all(&[][..]), (vec![], None));
}

#[test]
fn a_file_that_ends_within_a_record_is_a_fault() {
    let file = [0, 1, 7, 0, 3, 1, 2, 3];
    for length in 4..file.len() {
        let fault = (ErrorKind::UnexpectedEof, "the file ends within record 2".to_owned());
        assert_eq!(all(&file[..length]), (vec![vec![7]], Some(fault)), "{length} octets");
    }
}

#[test]
fn a_fault_of_the_reader_is_returned() {
    for length in 3..=5 {
        let (found, fault) = all(Failing(&[0, 1, 7, 0, 3][..length]));
        assert_eq!((found, fault.expect("a fault").0), (vec![vec![7]], ErrorKind::PermissionDenied));
    }
}

#[test]
fn records_are_written_up_to_the_longest() {
    let longest = vec![0xAA; 65_535];
    let mut file = Vec::new();
    write_record(&mut file, &[]).expect("a vector takes any");
    write_record(&mut file, &longest).expect("a vector takes any");
    let fault = write_record(&mut file, &[0; 65_536]).expect_err("no record is longer");
    assert_eq!(fault.kind(), ErrorKind::InvalidInput);
    assert_eq!(file[..4], [0, 0, 0xFF, 0xFF]);
    assert_eq!(all(&file[..]), (vec![vec![], longest], None));
}
