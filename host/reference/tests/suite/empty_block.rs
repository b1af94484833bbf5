//! The data block of DL = 0: seven bytes, or ten where check and end byte follow.

use crate::alike::*;
use crate::common::*;
use reference::generate::{Built, Places, Plan, PlannedSector};
use reference::layout::{first_count, later_count};

/// Check and end byte of an empty block.
const TRAILER: [u8; 3] = [0xFF, 0xFF, 0xCC];

/// Bytes put at a place.
fn put(built: &mut Built, place: usize, bytes: &[u8]) {
    built.track[place..place + bytes.len()].copy_from_slice(bytes);
}

/// The three-sector plan with this sector empty, and so many bytes between its zero byte and the next opening.
fn inner_plan(index: usize, kl: usize, gap: usize) -> Plan {
    let mut plan = plan();
    let old = &plan.sectors[index];
    plan.sectors[index] = PlannedSector {
        gap,
        ..sector(old.flag, old.s, kl, 0)
    };
    plan
}

/// The three-sector plan with the last sector empty, and so many bytes between its zero byte and index.
fn last_plan(kl: usize, gap: usize) -> Plan {
    let mut plan = inner_plan(2, kl, 0);
    let end = build(&plan).places[2].end;
    plan.sectors[1].gap += plan.length - gap - end;
    plan
}

/// The plan's track with these bytes behind the zero byte of one sector.
fn behind_zero(plan: &Plan, index: usize, bytes: &[u8]) -> Built {
    let mut built = build(plan);
    let place = built.places[index].data + 1;
    put(&mut built, place, bytes);
    built
}

/// Plans of an empty sector with its index: as sector 0, within, and last, with and without a key; the least gap gives the bytes behind the zero byte.
fn rows(behind: impl Fn(usize) -> usize) -> Vec<(Plan, usize)> {
    let mut rows = Vec::new();
    for kl in [0, 1, 5, 255] {
        for index in 0..2 {
            rows.push((inner_plan(index, kl, behind(21)), index));
        }
        rows.push((last_plan(kl, behind(13)), 2));
    }
    rows
}

/// The end of a sector's data block as it is measured.
fn measured(built: &Built, index: usize) -> usize {
    let place = built.places[index].count;
    let count = match index {
        0 => first_count(&built.marks, place),
        _ => later_count(&built.marks, place),
    };
    let fields = count.fields(&built.track);
    count.blocks(&built.track, &fields).end
}

/// What Accept answers, and Find for key and data of the sector.
fn answers(built: &Built, index: usize) -> [Answer; 3] {
    let found = |part| find(&built.track, &built.marks, 5 + index as u8, part).0;
    [accepted(built), found(Part::Key), found(Part::Data)]
}

#[test]
fn the_end_is_seven_or_ten_bytes_behind_the_opening() {
    for (plan, index) in rows(|least| least + 30) {
        let opening = build(&plan).places[index].data - 6;
        let seven = behind_zero(&plan, index, &[]);
        assert_eq!(measured(&seven, index), opening + 7);
        assert_eq!(answers(&seven, index), [answer(0, 0); 3]);
        let ten = behind_zero(&plan, index, &TRAILER);
        assert_eq!(measured(&ten, index), opening + 10);
        assert_eq!(answers(&ten, index), [answer(0, 0); 3]);
    }
}

/// Behind seven bytes 21 are enough, or 13 at index; if these start with check and end byte, 24 are, or 16.
#[test]
fn the_least_gap_counts_from_the_end() {
    for more in 0..6 {
        for (plan, index) in rows(|least| least + more) {
            let seven = behind_zero(&plan, index, &[]);
            assert_eq!(answers(&seven, index), [answer(0, 0); 3]);
            let ten = behind_zero(&plan, index, &TRAILER);
            let refused = answer(9, ten.places[index].count);
            let expected = if more < 3 { refused } else { answer(0, 0) };
            assert_eq!(answers(&ten, index), [expected; 3], "{more}");
        }
    }
    // One byte less is too short for either.
    for (plan, index) in rows(|least| least - 1) {
        for bytes in [&[][..], &TRAILER] {
            let built = behind_zero(&plan, index, bytes);
            let refused = answer(9, built.places[index].count);
            assert_eq!(answers(&built, index), [refused; 3]);
        }
    }
}

/// The rows with their numbers: 21 to 24 before an opening, 13 to 16 at index.
#[test]
fn worked_gaps() {
    let rows = [(20, 9, 9), (21, 0, 9), (22, 0, 9), (23, 0, 9), (24, 0, 0)];
    for (gap, seven, ten) in rows {
        let number = |bytes| accepted(&behind_zero(&inner_plan(0, 0, gap), 0, bytes)).number;
        assert_eq!((number(&[]), number(&TRAILER)), (seven, ten), "{gap}");
    }
    let rows = [(12, 9, 9), (13, 0, 9), (14, 0, 9), (15, 0, 9), (16, 0, 0)];
    for (gap, seven, ten) in rows {
        let number = |bytes| accepted(&behind_zero(&last_plan(0, gap), 2, bytes)).number;
        assert_eq!((number(&[]), number(&TRAILER)), (seven, ten), "{gap}");
    }
}

/// With any bit of the three bytes reversed the block has seven bytes, and the three are gap.
#[test]
fn every_bit_of_check_and_end_byte() {
    for (plan, index) in rows(|least| least) {
        for bit in 0..24 {
            let mut built = behind_zero(&plan, index, &TRAILER);
            let place = built.places[index].data + 1 + bit / 8;
            built.track[place] ^= 1 << (bit % 8);
            assert_eq!(measured(&built, index), built.places[index].data + 1);
            assert_eq!(answers(&built, index), [answer(0, 0); 3], "{bit}");
        }
    }
}

/// Three bytes in another order, or one place further right, are gap.
#[test]
fn other_bytes_behind_the_zero_byte() {
    let others: [&[u8]; 7] = [
        &[0xFF, 0xCC, 0xFF],
        &[0xCC, 0xFF, 0xFF],
        &[0xFF, 0xFF, 0xFF, 0xCC],
        &[0x00, 0xFF, 0xFF, 0xCC],
        &[0xCC, 0xFF, 0xFF, 0xCC],
        &[0xFF, 0xFF, 0x00, 0xCC],
        &[0x00, 0x00, 0xCC],
    ];
    for (plan, index) in rows(|least| least) {
        for bytes in others {
            let built = behind_zero(&plan, index, bytes);
            assert_eq!(measured(&built, index), built.places[index].data + 1);
            assert_eq!(answers(&built, index), [answer(0, 0); 3]);
        }
    }
}

/// Whatever stands in the zero byte's place, the block has ten bytes; 9 comes before 11, and with room 11 is given for the zero byte.
#[test]
fn every_other_zero_byte() {
    for byte in 1..=255 {
        for more in 0..4 {
            for (plan, index) in rows(|least| least + more) {
                let mut built = behind_zero(&plan, index, &TRAILER);
                let Places { count, data, .. } = built.places[index];
                built.track[data] = byte;
                assert_eq!(measured(&built, index), data + 4);
                let wrong = faulty(11, 2, data - 6);
                let expected = match more {
                    3 => [wrong, answer(0, 0), wrong],
                    _ => [answer(9, count); 3],
                };
                assert_eq!(answers(&built, index), expected, "{byte} {more}");
            }
        }
    }
}

/// A wrong opening changes neither the end nor the order of the answers.
#[test]
fn every_byte_of_the_opening() {
    for offset in 0..6 {
        for (more, byte) in [(0, 0x00), (2, 0xAA), (3, 0x00), (3, 0xAA)] {
            for (plan, index) in rows(|least| least + more) {
                let mut built = behind_zero(&plan, index, &TRAILER);
                let Places { count, data, .. } = built.places[index];
                built.track[data - 6 + offset] ^= 0x40;
                built.track[data] = byte;
                assert_eq!(measured(&built, index), data + 4);
                let wrong = faulty(11, 1, data - 6);
                let expected = match more {
                    3 => [wrong, answer(0, 0), wrong],
                    _ => [answer(9, count); 3],
                };
                assert_eq!(answers(&built, index), expected);
            }
        }
    }
}

/// A block with data has its own check and end byte; what follows is gap.
#[test]
fn blocks_with_data_do_not_go_on() {
    for (data, index) in [(vec![0], 0), (vec![0], 1), (vec![7], 0), (vec![0; 2], 1)] {
        let mut plan = inner_plan(index, 3 * index, 21);
        plan.sectors[index].data = data.clone();
        let mut built = build(&plan);
        let place = built.places[index].data;
        let end = place + data.len() + 3;
        assert_eq!(built.track[end - 1], 0xCC);
        put(&mut built, end, &TRAILER);
        assert_eq!(measured(&built, index), end);
        assert_eq!(answers(&built, index), [answer(0, 0); 3]);
    }
    // One byte of data that is zero has the very bytes of an empty block of ten.
    let mut plan = last_plan(0, 16);
    plan.sectors[2].data = vec![0];
    plan.sectors[2].closed = true;
    let one = build(&plan);
    plan.sectors[2].data.clear();
    let none = build(&plan);
    let place = one.places[2].data;
    assert_eq!(one.track[place..], none.track[place..]);
    assert_eq!(
        (measured(&one, 2), measured(&none, 2)),
        (place + 4, place + 4)
    );
    assert_eq!(
        (accepted(&one), accepted(&none)),
        (answer(0, 0), answer(0, 0))
    );
}

/// The three bytes in the gaps after a count and after a key make nothing longer.
#[test]
fn gaps_of_count_and_key() {
    for (plan, index) in rows(|least| least) {
        let mut built = build(&plan);
        let Places {
            count, key, data, ..
        } = built.places[index];
        let count_end = count + if index == 0 { 18 } else { 20 };
        put(&mut built, count_end, &TRAILER);
        put(&mut built, data - 6 - 3, &TRAILER);
        if key > 0 {
            put(&mut built, data - 6 - 11, &TRAILER);
        }
        assert_eq!(measured(&built, index), data + 1);
        assert_eq!(answers(&built, index), [answer(0, 0); 3]);
    }
}

/// A block of ten bytes followed by the three bytes once more has ten.
#[test]
fn ten_bytes_stay_ten() {
    for (plan, index) in rows(|least| least + 3) {
        for times in 2..5 {
            let built = behind_zero(&plan, index, &TRAILER.repeat(times));
            assert_eq!(measured(&built, index), built.places[index].data + 4);
            assert_eq!(answers(&built, index), [answer(0, 0); 3]);
        }
    }
}

/// Three bytes that reach past the span are not looked at; a mark ends it so many bytes behind the zero byte.
#[test]
fn cut_by_a_mark() {
    for (plan, index) in rows(|least| least + 30) {
        for inside in 0..30 {
            let mut built = behind_zero(&plan, index, &TRAILER);
            let Places { count, data, .. } = built.places[index];
            built.marks[data + 1 + inside + 5] = 1;
            let end = if inside < 3 { data + 1 } else { data + 4 };
            assert_eq!(measured(&built, index), end, "{inside}");
            let expected = match inside {
                0..24 => answer(9, count),
                _ => answer(0, 0),
            };
            assert_eq!(answers(&built, index)[1..], [expected; 2], "{inside}");
        }
    }
}

/// Likewise where an opening follows.
#[test]
fn cut_by_an_opening() {
    for (plan, index) in rows(|least| least + 30) {
        for inside in 0..26 {
            let mut built = behind_zero(&plan, index, &TRAILER);
            let Places { count, data, .. } = built.places[index];
            plant(&mut built, data + 1 + inside);
            let end = if inside < 3 { data + 1 } else { data + 4 };
            assert_eq!(measured(&built, index), end, "{inside}");
            let [whole, key, part] = answers(&built, index);
            let expected = match inside {
                0..24 => answer(9, count),
                _ => answer(0, 0),
            };
            assert_eq!((key, part), (expected, expected), "{inside}");
            // With room the planted opening is refused itself.
            assert_eq!(whole.place == count, inside < 24, "{whole:?}");
        }
    }
}

/// Likewise where the track ends behind the zero byte.
#[test]
fn cut_by_index() {
    for kl in [0, 4] {
        for inside in 0..20 {
            let plan = last_plan(kl, inside);
            let bytes = &TRAILER[..inside.min(3)];
            let built = behind_zero(&plan, 2, bytes);
            let Places { count, data, .. } = built.places[2];
            assert_eq!(data + 1 + inside, plan.length);
            let end = if inside < 3 { data + 1 } else { data + 4 };
            assert_eq!(measured(&built, 2), end, "{inside}");
            let expected = match inside {
                0..16 => answer(9, count),
                _ => answer(0, 0),
            };
            assert_eq!(answers(&built, 2), [expected; 3], "{inside}");
        }
    }
}

/// Where the zero byte itself, or more, lies past the span, nothing behind it is read.
#[test]
fn a_block_past_its_span() {
    for (plan, index) in rows(|least| least + 20) {
        for missing in 0..20 {
            let mut built = behind_zero(&plan, index, &TRAILER);
            let Places { count, data, .. } = built.places[index];
            built.marks[data + 5 - missing] = 1;
            assert_eq!(measured(&built, index), data + 1);
            let [_, key, part] = answers(&built, index);
            let fits = count + if index == 0 { 18 } else { 20 } <= data - missing;
            let number = if fits { 9 } else { 12 };
            assert_eq!((key.number, part.number), (number, number));
        }
    }
    // The track ends within the block's opening, before the count's gap, and far before the block.
    let mut built = build(&plan());
    for (place, kl) in [(3_870, 0), (3_880, 0), (3_886, 0), (3_886, 255)] {
        plant_count(&mut built, place, [0x80, 0, 100, 0, 7, 9, kl, 0, 0]);
        for part in [Part::Key, Part::Data] {
            let refused = find(&built.track, &built.marks, 9, part);
            assert_eq!(refused, (answer(9, place), 0..0));
        }
    }
}

/// List's records but for end and gap, Walk's steps and the listing are the same with seven bytes and with ten.
#[test]
fn places_do_not_move() {
    for (plan, index) in rows(|least| least + 3) {
        let [seven, ten] = [&[][..], &TRAILER].map(|bytes| behind_zero(&plan, index, bytes));
        let listed = |built: &Built| {
            let mut records = [Sector::default(); 67];
            let done = list(&built.track, &built.marks, &mut records);
            (done, records)
        };
        let mut of_seven = listed(&seven);
        of_seven.1[index].end += 3;
        of_seven.1[index].gap -= 3;
        assert_eq!(of_seven, listed(&ten));
        assert_eq!(listed(&ten).0, (answer(0, 0), 3));
        assert_eq!(listed(&ten).1[index].data_place, ten.places[index].data);
        let steps = |built: &Built| {
            let from = |place| walk_from(&built.track, &built.marks, place);
            [0, 56, 3_000].map(from)
        };
        assert_eq!(steps(&seven), steps(&ten));
        let lines = |built: &Built| tracklist(&[&built.track[..], &built.marks].concat());
        assert_eq!(lines(&seven), lines(&ten));
        let found = |built: &Built| find(&built.track, &built.marks, 5 + index as u8, Part::Data);
        assert_eq!(found(&seven), found(&ten));
    }
}

/// List, Pair find and the listing refuse as Accept does.
#[test]
fn other_calls_refuse_likewise() {
    let mut second = flagged(1, THERE);
    (second.address, second.named) = (THERE, HERE);
    second.sectors[1] = PlannedSector {
        gap: 23,
        ..sector(0x81, 6, 3, 0)
    };
    let first = build(&flagged(2, THERE));
    let pair = |other: &Built, s| {
        let first = (&first.track[..], &first.marks[..]);
        pair_find(first, (&other.track, &other.marks), s, Part::Data)
    };
    let seven = build(&second);
    assert_eq!(pair(&seven, 5).0, answer(0, 0));
    let ten = behind_zero(&second, 1, &TRAILER);
    let refused = answer(9, ten.places[1].count);
    assert_eq!(pair(&ten, 5), (refused, 1, 0..0));
    let mut records = [Sector::default(); 67];
    let listed = list(&ten.track, &ten.marks, &mut records);
    assert_eq!(listed, (refused, 0));
    let lines = tracklist(&[&ten.track[..], &ten.marks].concat());
    assert_eq!(lines, b"refused 9\n");
}

/// The longest track has 11 bytes to spare with 67 sectors of the shortest form: three blocks of ten bytes, and not four.
#[test]
fn sixty_seven_sectors() {
    let mut plan = plan();
    (plan.length, plan.home) = (4_002, 23);
    let shortest = |s: u8| PlannedSector {
        gap: 21,
        ..sector(s % 2 * 0x80, s, 0, 0)
    };
    plan.sectors = (0..67).map(shortest).collect();
    for (tens, number) in [(0, 0), (1, 0), (3, 0), (4, 9)] {
        for step in [1, 5, 22] {
            let mut plan = plan.clone();
            for nth in 0..tens {
                plan.sectors[66 - nth * step].closed = true;
            }
            let built = build(&plan);
            let place = if number == 0 {
                0
            } else {
                built.places[66].count
            };
            assert_eq!(accepted(&built), answer(number, place));
        }
    }
}
