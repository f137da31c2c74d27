// SPDX-License-Identifier: Apache-2.0 OR MIT
//! Messages in segments: cut, and joined.
mod common;

use bactool::{cut, head, join, CutFault, JoinFault, Refusal, Why};
use common::{octets, F1, F2, F4};

/// What a refusal says.
fn of(refusal: Refusal) -> (Why, usize) {
    (refusal.why, refusal.place)
}

/// The frames of example 24: F4 in pieces of six octets.
fn three() -> Vec<Vec<u8>> {
    ["0100 3C0100040C 0C0000000519", "0100 3C0101040C 553E44429099", "0100 380102040C 9A3F"].map(octets).to_vec()
}

/// The frame of a segment of an answer with invoke id 1 and choice 12.
fn segment(number: u8, piece: &[u8], more: bool) -> Vec<u8> {
    [&[0x01, 0x00, if more { 0x3C } else { 0x38 }, 1, number, 4, 12], piece].concat()
}

/// An answer with so many octets of a service that is not decoded.
fn opaque(length: usize) -> Vec<u8> {
    let service = (0..length).map(|at| (at % 251) as u8);
    octets("0100 301A1A").into_iter().chain(service).collect()
}

/// All orders of the numbers 0 to 3.
fn orders() -> Vec<[usize; 4]> {
    let four = (0..256).map(|number| [number & 3, number >> 2 & 3, number >> 4 & 3, number >> 6]);
    four.filter(|four| (0..4).all(|number| four.contains(&number))).collect()
}

#[test]
fn a_frame_is_cut_into_the_frames_of_its_segments() {
    assert_eq!(cut(&octets(F4), 6, 4), Ok(three()));
    assert_eq!(cut(&octets(F2), 4, 4), cut(&octets(F1), 4, 4));
    assert_eq!(cut(&opaque(0), 6, 127), Ok(vec![octets("0100 381A007F1A")]));
    // A request from one network to another.
    let request = octets("012C 0005010A 0007020102 FF 0205030F 0C00400001 1955 3E 4442C80000 3F 4908");
    let frames = cut(&request, 10, 1).expect("it is cut");
    assert_eq!(frames[0], octets("012C 0005010A 0007020102 FF 0E050300010F 0C00400001 1955 3E 4442"));
    assert_eq!(frames[1], octets("012C 0005010A 0007020102 FF 0A050301010F C80000 3F 4908"));
    assert_eq!(frames.len(), 2);
    assert_eq!(join(frames), Ok(request));
}

#[test]
fn a_frame_is_cut_up_to_the_limits() {
    for (length, size, count) in [(256, 1, 256), (65_535, 65_528, 2), (65_535, 256, 256), (65_280, 255, 256)] {
        let whole = opaque(length);
        let frames = cut(&whole, size, 4).expect("it is cut");
        assert_eq!(frames.len(), count);
        assert_eq!(join(frames.iter().rev()), Ok(whole));
        assert_eq!(join(&frames[1..]), Err(JoinFault::Incomplete { number: 0 }));
        assert_eq!(join(&frames[..count - 1]), Err(JoinFault::Incomplete { number: count - 1 }));
    }
}

#[test]
fn other_frames_are_not_cut() {
    let rows = [
        (octets("0100 1008"), 6, 4, CutFault::NoService),
        (octets("0180 12"), 6, 4, CutFault::NoService),
        (three().remove(0), 6, 4, CutFault::NoService),
        (octets(F4), 0, 0, CutFault::Size),
        (octets(F4), 6, 0, CutFault::Window),
        (octets(F4), 6, 128, CutFault::Window),
        (opaque(65_536), 1, 4, CutFault::TooLong),
        (opaque(65_535), 65_529, 4, CutFault::TooLong),
        (opaque(65_535), 255, 4, CutFault::TooMany),
    ];
    for (frame, size, window, fault) in rows {
        assert_eq!(cut(&frame, size, window), Err(fault), "size {size}, window {window}");
    }
    match cut(&octets(F1)[..10], 0, 0) {
        Err(CutFault::Refused(refusal)) => assert_eq!(of(refusal), (Why::Short, 10)),
        other => panic!("{other:?}"),
    }
}

#[test]
fn each_order_of_four_segments_is_joined_with_each_lost_or_doubled() {
    let (whole, four) = (octets(F4), cut(&octets(F4), 4, 4).expect("it is cut"));
    assert_eq!(orders().len(), 24);
    for order in orders() {
        let frames: Vec<_> = order.iter().map(|number| &four[*number]).collect();
        assert_eq!(join(&frames).as_ref(), Ok(&whole));
        for (number, one) in four.iter().enumerate() {
            let lost = frames.iter().filter(|frame| **frame != one);
            assert_eq!(join(lost), Err(JoinFault::Incomplete { number }));
            for place in 0..=4 {
                let mut doubled = frames.clone();
                doubled.insert(place, one);
                assert_eq!(join(doubled).as_ref(), Ok(&whole));
            }
        }
    }
}

#[test]
fn frames_of_other_messages_are_named() {
    let mut mixed = three();
    mixed.insert(1, octets("0100 3C0200040C 0C0000000519"));
    assert_eq!(join(mixed), Err(JoinFault::Conflict { index: 1 }));
    let rows = [
        (segment(0, &[0x0C], true), JoinFault::Conflict { index: 3 }),
        (segment(2, &[0x9A, 0x3F], true), JoinFault::Conflict { index: 3 }),
        (segment(3, &[], false), JoinFault::Conflict { index: 3 }),
        (octets("0104 3C0101040C 553E44429099"), JoinFault::Conflict { index: 3 }),
        (octets("0100 3C0101040D 553E44429099"), JoinFault::Conflict { index: 3 }),
        (octets("0104 0C050101040C 553E44429099"), JoinFault::Conflict { index: 3 }),
        (octets(F4), JoinFault::NoSegment { index: 3 }),
        (vec![0; 65_536], JoinFault::TooLong { index: 3 }),
    ];
    for (frame, fault) in rows {
        let mut frames = three();
        frames.push(frame);
        assert_eq!(join(&frames), Err(fault), "{:?}", frames[3]);
    }
    let long = [segment(0, &[0; 40_000], true), segment(1, &[0; 40_000], false)];
    assert_eq!(join(long), Err(JoinFault::TooLong { index: 1 }));
    assert_eq!(join([segment(255, &[], true)]), Err(JoinFault::Conflict { index: 0 }));
}

#[test]
fn windows_and_other_encodings_do_not_matter() {
    let mut frames = three();
    frames[1] = octets("0140 3C01017F0C 553E44429099");
    assert_eq!(join(&frames), Ok(octets(F4)));
    frames.extend(three());
    assert_eq!(join(&frames), Ok(octets(F4)));
}

#[test]
fn what_is_refused_is_named() {
    assert_eq!(join::<[&[u8]; 0]>([]), Err(JoinFault::Incomplete { number: 0 }));
    let refused = join([&octets(F4)[..], &[0x02], &[]]).expect_err("the second one is no frame");
    assert_eq!(refused.to_string(), "frame 1: Version at 0");
    match join([segment(1, &[0x00], false), segment(0, &[0x0C, 0x00], true)]) {
        Err(JoinFault::Service(refusal)) => assert_eq!(of(refusal), (Why::Short, 3)),
        other => panic!("{other:?}"),
    }
}

#[test]
fn faults_say_what_is_wrong() {
    let rows = [
        (join([segment(1, &[], false)]), "segment 0 is missing"),
        (join([octets(F4)]), "frame 0 is no segment"),
        (join([segment(255, &[], true)]), "frame 0 is of another message"),
        (join([segment(0, &[0x19], false)]), "the joined octets: Tag at 0"),
        (join([vec![0; 70_000]]), "with frame 0 there are more than 65535 octets"),
    ];
    for (found, text) in rows {
        assert_eq!(found.expect_err("it is not joined").to_string(), text);
    }
    let rows = [
        (cut(&[], 6, 4), "Short at 0"),
        (cut(&octets("0100 1008"), 6, 4), "the frame has no service that is cut"),
        (cut(&octets(F4), 0, 4), "a segment has no octets"),
        (cut(&octets(F4), 6, 0), "a window is 1 to 127"),
        (cut(&opaque(65_536), 480, 4), "the service or a frame has more than 65535 octets"),
        (cut(&opaque(257), 1, 4), "there are more than 256 segments"),
    ];
    for (found, text) in rows {
        assert_eq!(found.expect_err("it is not cut").to_string(), text);
    }
}

#[test]
fn each_size_gives_back_the_frame() {
    let whole = octets(F4);
    for size in 1..=15 {
        let frames = cut(&whole, size, 16).expect("it is cut");
        assert_eq!(frames.len(), (14 + size - 1) / size);
        for (number, frame) in (0..).zip(&frames) {
            let head = head(frame);
            assert_eq!((head.sequence, head.window, head.invoke, head.choice), (number, 16, 1, 12));
        }
        assert_eq!(join(&frames).as_ref(), Ok(&whole));
    }
}
