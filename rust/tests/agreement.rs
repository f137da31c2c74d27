// SPDX-License-Identifier: Apache-2.0 OR MIT
//! The functions agree with one another, on frames that are drawn: those of docs/EXAMPLES.md, cut, lengthened and changed.
mod common;

use bactool::{check, check_strict, decode, normalise, read, same_meaning, show, Builder, Refusal, Side, Verdict, Why};
use common::{octets, F1, F2, F4};

const FRAMES: [&str; 9] = [
    F1,
    F2,
    F4,
    "0104 0002F10E 0C00000021 1E 0955 1F",
    "0100 30F10E 0C00000021 1E 2955 4E 444290999A 4F 2967 5E 9102 9120 5F 1F",
    "0100 1002 0912 1C02000004 2C0000000A 3900 4E 0955 2E 4442820000 2F 096F 2E 820400 2F 4F",
    "0128 0005 01 0A 0007 02 0102 FF 1008",
    "0180 06 01 0002 01 00",
    "0100 30010C 0C00000005 1955 3E 00 10 2105 31FB 7506 0048656C6C6F 2E 0F 3F",
];

/// Numbers that look random, the same in each run (xorshift).
struct Drawn(u64);

impl Drawn {
    fn below(&mut self, limit: usize) -> usize {
        self.0 ^= self.0 << 13;
        self.0 ^= self.0 >> 7;
        self.0 ^= self.0 << 17;
        (self.0 % limit as u64) as usize
    }

    /// Returns a frame with up to three changes.
    fn frame(&mut self) -> Vec<u8> {
        let mut frame = octets(FRAMES[self.below(FRAMES.len())]);
        for _ in 0..self.below(4) {
            let (place, octet) = (self.below(frame.len() + 1), self.below(256) as u8);
            match (self.below(4), frame.get_mut(place)) {
                (0, _) => frame.truncate(place),
                (1, _) => frame.insert(place, octet),
                (2, Some(changed)) => *changed = octet,
                (_, Some(changed)) => *changed ^= 1 << (octet % 8),
                (_, None) => frame.push(octet),
            }
        }
        frame
    }
}

/// Octets that are accepted give one frame, whichever way is gone.
fn agrees_accepted(frame: &[u8], verdict: Verdict) {
    let canonical = normalise(frame).expect("accepted by check");
    let difference = frame.iter().zip(&canonical).position(|(left, right)| left != right);
    match verdict {
        Verdict::Canonical => {
            assert_eq!(frame, canonical);
            assert_eq!(check_strict(frame), Ok(()));
        }
        Verdict::Tolerated { place } => {
            assert_eq!(place, difference.unwrap_or(canonical.len()));
            let refusal = check_strict(frame).expect_err("not canonical");
            assert_eq!((refusal.why, refusal.place), (Why::NotCanonical, place));
        }
    }
    let fields = decode(frame).expect("accepted by check");
    assert_eq!(fields.octets(), canonical);
    assert_eq!(fields.iter().collect::<Builder>().encode().as_ref(), Ok(&canonical));
    assert_eq!(read(show(frame).expect("accepted by check")).as_ref(), Ok(&canonical));
    assert_eq!(same_meaning(frame, &canonical), Ok(true));
}

/// Octets that are refused are refused by each function, for one reason at one place.
fn agrees_refused(frame: &[u8], refusal: Refusal) {
    assert_eq!(check_strict(frame), Err(refusal));
    assert_eq!(normalise(frame), Err(refusal));
    assert_eq!(show(frame), Err(refusal));
    assert_eq!(decode(frame), Err(refusal));
    let sides = same_meaning(&octets(F1), frame).expect_err("refused by check");
    assert_eq!((sides.side, sides.refusal), (Side::Right, refusal));
    assert!(refusal.place <= frame.len());
}

#[test]
fn functions_agree_on_drawn_frames() {
    let (mut drawn, mut accepted) = (Drawn(0x9E37_79B9_7F4A_7C15), 0);
    for _ in 0..20_000 {
        let frame = drawn.frame();
        match check(&frame) {
            Ok(verdict) => {
                accepted += 1;
                agrees_accepted(&frame, verdict);
            }
            Err(refusal) => agrees_refused(&frame, refusal),
        }
    }
    // Both kinds are drawn, in good number.
    assert!((4_000..16_000).contains(&accepted), "{accepted} are accepted");
}
