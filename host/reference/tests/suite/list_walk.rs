//! List and Walk.

use crate::alike::*;
use crate::common::*;

const NOISE: Sector = Sector {
    flag: 0xEE,
    s: 0xEE,
    kl: 0xEE,
    dl: 0xEEEE,
    key_place: 9_999,
    data_place: 9_998,
    end: 9_997,
    gap: 9_996,
};

/// A record of flag, S, KL and DL, of the places of key and data, and of end and gap.
fn record(fields: (u8, u8, u8, u16), places: (usize, usize), end: usize, gap: usize) -> Sector {
    let (flag, s, kl, dl) = fields;
    let (key_place, data_place) = places;
    Sector {
        flag,
        s,
        kl,
        dl,
        key_place,
        data_place,
        end,
        gap,
    }
}

fn candidate(place: usize, flag: u8, s: u8, kl: u8, dl: u16) -> Candidate {
    Candidate {
        place,
        flag,
        s,
        kl,
        dl,
    }
}

/// All candidates of a walk, after which it must answer 12 for ever.
fn walked(track: &[u8], marks: &[u8]) -> Vec<Candidate> {
    let mut walk = Walk::new(track, marks);
    let mut found = Vec::new();
    while let Ok(next) = walk.step() {
        found.push(next);
        assert!(found.len() < 300, "more counts than a track can hold");
    }
    for _ in 0..5 {
        assert_eq!(walk.step(), Err(answer(12, 0)));
    }
    found
}

#[test]
fn list_fills_records_and_keeps_the_rest() {
    let built = build(&plan());
    for length in [67, 68, 100] {
        let mut out = vec![NOISE; length];
        let done = list(&built.track, &built.marks, &mut out);
        assert_eq!(done, (answer(0, 0), 3));
        assert_eq!(out[0], record((0x00, 5, 0, 8), (0, 90), 101, 40));
        assert_eq!(out[1], record((0x80, 6, 3, 80), (178, 201), 284, 40));
        assert_eq!(out[2], record((0x00, 7, 0, 0), (0, 361), 362, 3_544));
        assert!(out[3..].iter().all(|&rest| rest == NOISE));
    }
}

#[test]
fn list_refusals_change_no_record() {
    let mut built = build(&plan());
    let mut out = [NOISE; 66];
    let short = list(&built.track, &built.marks, &mut out);
    assert_eq!(short, (answer(1, 0), 0));
    assert_eq!(out, [NOISE; 66]);
    built.track[361] = 1;
    // A short list is refused before the track is judged.
    assert_eq!(
        list(&built.track, &built.marks, &mut out),
        (answer(1, 0), 0)
    );
    let mut out = [NOISE; 67];
    let wrong = list(&built.track, &built.marks, &mut out);
    assert_eq!(wrong, (faulty(11, 2, 355), 0));
    assert_eq!(
        list(&built.track, &built.marks[1..], &mut out),
        (answer(1, 0), 0)
    );
    assert_eq!(out, [NOISE; 67]);
}

/// What is wrong with a block is told by List as by Accept, and no record is written.
#[test]
fn list_tells_what_is_wrong_with_a_block() {
    let blocks = [(10, 172, 3), (11, 195, 80), (11, 84, 8)];
    for (number, opening, length) in blocks {
        for (set, first) in SETS {
            let mut built = build(&plan());
            spoil(&mut built, opening, length, set);
            let mut out = [NOISE; 67];
            let refused = list(&built.track, &built.marks, &mut out);
            assert_eq!(refused, (faulty(number, first, opening), 0));
            assert_eq!(out, [NOISE; 67]);
        }
    }
    for (place, fault) in [(355, 1), (360, 1), (361, 2)] {
        let mut built = build(&plan());
        built.track[place] ^= 1;
        let refused = list(&built.track, &built.marks, &mut [NOISE; 67]);
        assert_eq!(refused, (faulty(11, fault, 355), 0));
    }
}

/// Walk judges no block, so that no step has a second number.
#[test]
fn walk_has_no_second_number() {
    for (set, _) in SETS {
        let mut built = build(&plan());
        spoil(&mut built, 172, 3, set);
        spoil(&mut built, 195, 80, set);
        assert_eq!(walked(&built.track, &built.marks).len(), 3);
        assert_eq!(
            walk_from(&built.track, &built.marks, 325),
            Err(answer(12, 0))
        );
    }
}

#[test]
fn walk_gives_every_count_once() {
    let built = build(&plan());
    let expected = [
        candidate(55, 0x00, 5, 0, 8),
        candidate(141, 0x80, 6, 3, 80),
        candidate(324, 0x00, 7, 0, 0),
    ];
    assert_eq!(walked(&built.track, &built.marks), expected);
}

#[test]
fn walk_does_not_judge_flags_addresses_blocks_or_numbers() {
    let mut strange = plan();
    strange.named = Address {
        cylinder: 9_999,
        head: 9_999,
    };
    strange.sectors[0].flag = 0xFF;
    strange.sectors[1].flag = 0x3C;
    strange.sectors[1].gap = 20;
    strange.sectors[2].s = 5;
    let mut built = build(&strange);
    built.track[43] ^= 1; // home's end byte
    built.track[170] ^= 1; // in the key block
    let expected = [
        candidate(55, 0xFF, 5, 0, 8),
        candidate(141, 0x3C, 6, 3, 80),
        candidate(304, 0x00, 5, 0, 0),
    ];
    assert_eq!(walked(&built.track, &built.marks), expected);
}

#[test]
fn walk_goes_by_place() {
    let mut built = build(&plan());
    plant_count(&mut built, 0, [0x81, 1, 2, 3, 4, 77, 9, 1, 2]);
    plant_count(&mut built, 3_886, [0x82, 1, 2, 3, 4, 78, 0, 0, 0]);
    plant(&mut built, 1_000);
    let found = walked(&built.track, &built.marks);
    let places: Vec<usize> = found.iter().map(|next| next.place).collect();
    assert_eq!(places, [0, 55, 141, 324, 3_886]);
    assert_eq!(found[0], candidate(0, 0x81, 77, 9, 0x0102));
    assert_eq!(found[4], candidate(3_886, 0x82, 78, 0, 0));
}

#[test]
fn walk_skips_counts_that_do_not_fit() {
    // A mark at p + 23 leaves the first count of 18 bytes its span, one further left does not.
    for (mark, first) in [(55 + 22, 141), (55 + 23, 55), (55 + 6, 141)] {
        let mut built = build(&plan());
        built.marks[mark] = 1;
        let found = walked(&built.track, &built.marks);
        assert_eq!(found[0].place, first);
    }
    // Likewise p + 25 for a count of 20 bytes.
    for (mark, count) in [(141 + 24, 2), (141 + 25, 3), (141 + 8, 2), (141 + 7, 2)] {
        let mut built = build(&plan());
        built.marks[mark] = 1;
        assert_eq!(walked(&built.track, &built.marks).len(), count);
    }
}

#[test]
fn walk_across_home() {
    // An opening over the home opening's last bytes takes sector 0 away.
    let mut built = build(&plan());
    plant_count(&mut built, 15, [0, 0, 0, 0, 0, 9, 0, 0, 0]);
    assert_eq!(walked(&built.track, &built.marks)[0].place, 15);
    assert_eq!(walked(&built.track, &built.marks).len(), 3);
    // One just left of home keeps it.
    let mut built = build(&plan());
    plant_count(&mut built, 10, [0, 0, 0, 0, 0, 9, 0, 0, 0]);
    assert_eq!(walked(&built.track, &built.marks).len(), 4);
}

#[test]
fn walk_without_readable_input() {
    let built = build(&plan());
    let mut walk = Walk::new(&built.track[1..], &built.marks);
    for _ in 0..4 {
        assert_eq!(walk.step(), Err(answer(1, 0)));
    }
    let mut marks = built.marks.clone();
    marks[7] = 2;
    assert_eq!(Walk::new(&built.track, &marks).step(), Err(answer(1, 0)));
    assert_eq!(walk_from(&built.track, &marks, 0), Err(answer(1, 0)));
    assert_eq!(walk_from(&[], &[], 5_000), Err(answer(1, 0)));
}

#[test]
fn walk_from_a_place() {
    let built = build(&plan());
    let from = |place| walk_from(&built.track, &built.marks, place).map(|next| next.place);
    for (start, place) in [
        (0, 55),
        (55, 55),
        (56, 141),
        (141, 141),
        (142, 324),
        (324, 324),
    ] {
        assert_eq!(from(start), Ok(place));
    }
    for start in [325, 3_905, 3_906, 4_000, usize::MAX] {
        assert_eq!(from(start), Err(answer(12, 0)));
    }
}
