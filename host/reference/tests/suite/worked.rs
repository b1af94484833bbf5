//! The worked numbers.

use crate::alike::*;
use crate::common::*;
use reference::check::{check, check_by_division};

const L: usize = 3_906;

fn blank_pair(length: usize, data: &[u8]) -> (Answer, Vec<u8>, Vec<u8>) {
    let (mut track, mut marks) = (vec![0xA5; length], vec![9; length]);
    let answer = blank(&mut track, &mut marks, HERE, 0, HERE, 0, &[], data);
    (answer, track, marks)
}

/// The case of two sectors, with eight and with eighty bytes of data.
fn two_sectors() -> (Vec<u8>, Vec<u8>) {
    let (_, track, marks) = blank_pair(L, &[0xD1; 8]);
    let (mut longer, mut longer_marks) = (vec![0; L], vec![0; L]);
    let done = add(
        &track,
        &marks,
        &mut longer,
        &mut longer_marks,
        0,
        1,
        &[1, 2, 3],
        &[0xD2; 80],
        GapRule::One,
    );
    assert_eq!(done, answer(0, 0));
    (longer, longer_marks)
}

#[test]
fn numbers_1_to_4_checks() {
    let cases: [(&[u8], [u8; 2]); 7] = [
        (&[0x00, 0x00, 0x64, 0x00, 0x07], [0xFF, 0x9C]),
        (&[0x00, 0x00, 0x00, 0x00, 0x00], [0xFF, 0xFF]),
        (
            &[0x80, 0x00, 0x64, 0x00, 0x07, 0x01, 0x00, 0x00, 0x50],
            [0xFE, 0x4C],
        ),
        (&[0x41], [0xFF, 0xBE]),
        (&[0x41, 0x42], [0xBE, 0xBD]),
        (&[0xC1, 0xC2, 0xC3], [0x3D, 0xFD]),
        (&[0x00], [0xFF, 0xFF]),
    ];
    for (information, bytes) in cases {
        assert_eq!(check(information), bytes);
        assert_eq!(check_by_division(information), bytes);
    }
}

#[test]
fn numbers_1_and_2_on_the_track() {
    let (_, track, _) = blank_pair(L, &[]);
    let home = [
        0, 0, 0, 0, 0xFF, 0x0E, 0, 0, 0x64, 0, 7, 0xFF, 0x9C, 0xCC, 0, 0,
    ];
    assert_eq!(track[30..46], home);
    let (mut zero, mut marks) = (vec![0xA5; L], vec![0; L]);
    let origin = Address::default();
    let done = blank(&mut zero, &mut marks, origin, 0, HERE, 0, &[], &[]);
    assert_eq!(done, answer(0, 0));
    assert_eq!(zero[36..44], [0, 0, 0, 0, 0, 0xFF, 0xFF, 0xCC]);
}

#[test]
fn number_5_places() {
    let (done, track, marks) = blank_pair(L, &[0xD1; 8]);
    assert_eq!(done, answer(0, 0));
    assert_eq!(track[55..61], SHORT);
    assert_eq!(track[84..90], SHORT);
    assert_eq!((track[100], track[101]), (0xCC, 0xFF));
    assert!(marks.iter().all(|&mark| mark == 0));
    let (track, marks) = two_sectors();
    assert_eq!(track[121], 0xFF);
    assert_eq!(track[122..130], LONG);
    assert_eq!(track[153..159], SHORT);
    assert_eq!(track[176..182], SHORT);
    assert_eq!((track[264], track[265]), (0xCC, 0xFF));
    let marked: Vec<usize> = (0..L).filter(|&place| marks[place] == 1).collect();
    assert_eq!(marked, [127, 128]);
    let (mut third, mut third_marks) = (vec![0; L], vec![0; L]);
    let done = add(
        &track,
        &marks,
        &mut third,
        &mut third_marks,
        0,
        2,
        &[],
        &[7],
        GapRule::One,
    );
    assert_eq!(done, answer(0, 0));
    assert_eq!(third[290..298], LONG);
    assert_eq!(accept(&third, &third_marks), answer(0, 0));
}

#[test]
fn number_6_largest_data() {
    for (length, largest) in [(3_906, 3_800), (3_815, 3_709), (4_002, 3_896)] {
        let (done, track, marks) = blank_pair(length, &vec![0x3C; largest]);
        assert_eq!(done, answer(0, 0));
        assert_eq!(accept(&track, &marks), answer(0, 0));
        let (refused, track, marks) = blank_pair(length, &vec![0x3C; largest + 1]);
        assert_eq!(refused, answer(15, 0));
        assert!(track.iter().all(|&byte| byte == 0xA5) && marks.iter().all(|&mark| mark == 9));
    }
}

#[test]
fn number_7_limits() {
    for (length, number) in [(3_814, 1), (3_815, 0), (4_002, 0), (4_003, 1)] {
        let mut plan = plan();
        plan.length = length;
        assert_eq!(accepted(&build(&plan)), answer(number, 0));
    }
    for (home, expected) in [(22, (2, 23)), (23, (0, 0)), (37, (0, 0)), (38, (2, 23))] {
        let mut plan = plan();
        plan.home = home;
        assert_eq!(accepted(&build(&plan)), answer(expected.0, expected.1));
    }
    let limits = [
        ((202, 9), (0, 0)),
        ((203, 9), (4, 30)),
        ((202, 10), (4, 30)),
        ((0, 256), (4, 30)),
        ((256, 0), (4, 30)),
    ];
    for ((cylinder, head), expected) in limits {
        let mut plan = plan();
        plan.address = Address { cylinder, head };
        plan.named = plan.address;
        assert_eq!(accepted(&build(&plan)), answer(expected.0, expected.1));
    }
}

#[test]
fn number_8_gaps() {
    let mut plan = plan();
    plan.sectors[0].gap = 21;
    assert_eq!(accepted(&build(&plan)), answer(0, 0));
    plan.sectors[0].gap = 20;
    assert_eq!(accepted(&build(&plan)), answer(9, 55));
    for (dl, number) in [(3_800, 0), (3_801, 9)] {
        plan.sectors = vec![sector(0, 0, 0, dl)];
        let place = if number == 9 { 55 } else { 0 };
        assert_eq!(accepted(&build(&plan)), answer(number, place));
    }
}

#[test]
fn tracklist_of_two_sectors() {
    let (track, marks) = two_sectors();
    let output = tracklist(&[track.clone(), marks.clone()].concat());
    assert_eq!(output, b"100 7 0\n0 0 0 8 90\n1 128 3 80 182\n");
    let wrong = [
        (vec![], "refused 1\n"),
        (vec![0; 7_813], "refused 1\n"),
        (vec![0; 8_006], "refused 1\n"),
        (vec![0; 200_000], "refused 1\n"),
        (vec![0; 7_812], "refused 2\n"),
    ];
    for (input, expected) in wrong {
        assert_eq!(tracklist(&input), expected.as_bytes());
    }
    let mut spoiled = [track, marks].concat();
    spoiled[182] ^= 1;
    assert_eq!(tracklist(&spoiled), b"refused 11\n");
    spoiled.push(0);
    assert_eq!(tracklist(&spoiled), b"refused 1\n");
}

/// Whatever is wrong with a block, the line has the one number.
#[test]
fn tracklist_prints_no_second_number() {
    for (set, _) in SETS {
        for (number, opening, length) in [(10, 172, 3), (11, 195, 80)] {
            let mut built = build(&plan());
            spoil(&mut built, opening, length, set);
            let output = tracklist(&[built.track, built.marks].concat());
            assert_eq!(output, format!("refused {number}\n").as_bytes());
        }
    }
}

#[test]
fn tracklist_prints_home_flag_and_alternative() {
    let built = build(&flagged(1, THERE));
    let output = tracklist(&[built.track, built.marks].concat());
    let text = "100 7 1\n5 1 0 8 90\n6 129 3 80 201\n7 1 0 0 361\n";
    assert_eq!(String::from_utf8(output).unwrap(), text);
}
