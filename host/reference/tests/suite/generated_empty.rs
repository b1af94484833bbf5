//! Generated tracks: the data blocks of DL = 0, and how often each kind of them is met.

use crate::alike::*;
use crate::common::*;
use crate::generated::{addition, both_orders, correction};
use reference::generate::*;
use reference::layout::{first_count, later_count, marked_opening_at, Count, Fields};
use std::collections::BTreeMap;

/// Check and end byte of an empty block.
const TRAILER: [u8; 3] = [0xFF, 0xFF, 0xCC];

/// How often each kind was met.
#[derive(Default)]
struct Met(BTreeMap<&'static str, usize>);

impl Met {
    /// One more of this kind, if it is one.
    fn count(&mut self, kind: &'static str, is_one: bool) {
        *self.0.entry(kind).or_default() += usize::from(is_one);
    }

    /// Demands so many kinds, each met so often.
    fn finish(&self, name: &str, kinds: usize, least: usize) {
        println!("{name}: {:?}", self.0);
        assert_eq!(self.0.len(), kinds, "{name}: {:?}", self.0);
        for (kind, &times) in &self.0 {
            assert!(times >= least, "{name}, {kind}: {times} of {:?}", self.0);
        }
    }
}

/// The count at a place, with its fields.
fn count_at(track: &[u8], marks: &[u8], place: usize) -> (Count, Fields) {
    let count = match marked_opening_at(track, marks, place) {
        true => later_count(marks, place),
        false => first_count(marks, place),
    };
    (count, count.fields(track))
}

/// Three bytes from a place on, as far as the track goes.
fn three_at(track: &[u8], place: usize) -> &[u8] {
    let rest = &track[place.min(track.len())..];
    &rest[..rest.len().min(3)]
}

/// How many bits differ from those of check and end byte.
fn differing_bits(three: &[u8]) -> u32 {
    let pairs = three.iter().zip(TRAILER);
    pairs
        .map(|(byte, wanted)| (byte ^ wanted).count_ones())
        .sum()
}

/// Tallies one sector of a sound track; its end as built is the end as measured.
fn count_sound(met: &mut Met, Sound { plan, built }: &Sound, index: usize) {
    let (sector, places) = (&plan.sectors[index], built.places[index]);
    let (count, fields) = count_at(&built.track, &built.marks, places.count);
    assert_eq!(count.blocks(&built.track, &fields).end, places.end);
    let behind = three_at(&built.track, places.end);
    met.count("FF FF CC behind data", places.dl > 0 && behind == TRAILER);
    if places.dl > 0 {
        return;
    }
    let ten = places.is_ten();
    assert_eq!(ten, three_at(&built.track, places.data + 1) == TRAILER);
    let (last, gap) = (index + 1 == plan.sectors.len(), built.gap_after(index));
    met.count("seven bytes", !ten);
    met.count("ten bytes, planned", ten && sector.closed);
    met.count("ten bytes, by the gap", ten && !sector.closed);
    met.count("ten bytes in sector 0", ten && index == 0);
    met.count("ten bytes in the last sector", ten && last);
    met.count("ten bytes with a key", ten && places.key > 0);
    met.count("ten bytes, 21 before an opening", ten && !last && gap == 21);
    met.count("ten bytes, 13 before index", ten && last && gap == 13);
    met.count("ten bytes, then FF FF CC", ten && behind == TRAILER);
    met.count(
        "seven bytes, 21 before an opening",
        !ten && !last && gap == 21,
    );
    met.count("seven bytes, 13 before index", !ten && last && gap == 13);
    met.count(
        "seven bytes, one bit off",
        !ten && differing_bits(behind) == 1,
    );
    let later = built.track[places.end + 1..built.span_end(index)].windows(3);
    met.count(
        "FF FF CC within a gap",
        later.clone().any(|three| three == TRAILER),
    );
}

#[test]
fn sound_tracks_hold_empty_blocks_of_each_kind() {
    let mut met = Met::default();
    for seed in 0..3_000 {
        let sound = sound_plan(seed);
        assert_eq!(accepted(&sound.built), answer(0, 0), "seed {seed}");
        for index in 0..sound.plan.sectors.len() {
            count_sound(&mut met, &sound, index);
        }
        let tens = sound.built.places.iter().filter(|places| places.is_ten());
        let (number, all) = (tens.count(), sound.plan.sectors.len());
        met.count("67 sectors with ten bytes in some", all == 67 && number > 0);
        met.count("more than 30 of ten bytes", number > 30);
    }
    met.finish("sound", 16, 10);
}

/// An empty block on any track: where seven bytes end, its span, and the answers about its sector.
struct Empty<'a> {
    track: &'a [u8],
    count: Count,
    opening: usize,
    whole: Answer,
    data: Answer,
}

impl Empty<'_> {
    /// Whether a block that ends here leaves the least gap.
    fn fits(&self, end: usize) -> bool {
        end + self.count.span.least_gap <= self.count.span.end
    }

    /// Whether the byte in the zero byte's place is zero.
    fn zero(&self) -> bool {
        self.track.get(self.opening + 6) == Some(&0)
    }

    /// Whether the block opens.
    fn opens(&self) -> bool {
        self.track.get(self.opening..self.opening + 6) == Some(&SHORT)
    }

    /// Demands of Find what follows from the block; with another sector of the same number nothing does.
    fn check_find(&self, fits: bool) {
        let sound = self.opens() && self.zero();
        match self.data.number {
            9 => assert!(!fits),
            11 => assert!(fits && !sound),
            13 => {}
            other => assert!(other == 0 && fits && sound, "{other}"),
        }
    }

    /// Tallies the block.
    fn count(&self, met: &mut Met) {
        let seven = self.opening + 7;
        let three = three_at(self.track, seven);
        let inside = self.count.span.end.saturating_sub(seven);
        let ten = three == TRAILER && inside >= 3;
        let fits = self.fits(if ten { seven + 3 } else { seven });
        self.check_find(fits);
        if self.data.number == 13 {
            return;
        }
        let wrong = ten && self.data == faulty(11, 2, self.opening);
        let whole = wrong && self.whole == self.data;
        met.count("11 of Find, ten bytes, wrong 00", wrong);
        met.count("11 of Accept, ten bytes, wrong 00", whole);
        met.count("ten bytes that fit", ten && fits);
        met.count(
            "ten bytes, just enough",
            ten && fits && !self.fits(seven + 4),
        );
        met.count(
            "seven bytes, one bit off",
            !ten && differing_bits(three) == 1,
        );
        self.count_nine(met, ten && !fits && self.fits(seven));
        self.count_cut(met, three, inside);
    }

    /// Tallies answer 9 that is given only because the block has ten bytes.
    fn count_nine(&self, met: &mut Met, only_by_rule: bool) {
        let whole = only_by_rule && self.whole == answer(9, self.count.place);
        let at_index = self.count.span.end == self.track.len();
        let (wrong, shut) = (!self.zero(), !self.opens());
        met.count("9 of Find by the rule", only_by_rule);
        met.count("9 of Find by the rule at index", only_by_rule && at_index);
        met.count("9 of Find by the rule, wrong 00", only_by_rule && wrong);
        met.count("9 of Find by the rule, wrong opening", only_by_rule && shut);
        met.count("9 of Accept by the rule", whole);
        met.count("9 of Accept by the rule at index", whole && at_index);
        met.count("9 of Accept by the rule, wrong 00", whole && wrong);
        met.count("9 of Accept by the rule, wrong opening", whole && shut);
    }

    /// Tallies check and end byte that reach past the span.
    fn count_cut(&self, met: &mut Met, three: &[u8], inside: usize) {
        let at_index = self.count.span.end == self.track.len();
        let cut = three == TRAILER && !at_index;
        let behind_block = self.opening + 7 <= self.count.span.end;
        met.count("cut, none inside", cut && behind_block && inside == 0);
        met.count("cut, one inside", cut && inside == 1);
        met.count("cut, two inside", cut && inside == 2);
        met.count("cut, three inside", cut && inside == 3);
        let cut = differing_bits(three) == 0 && at_index && behind_block;
        met.count("cut by index, none inside", cut && inside == 0);
        met.count("cut by index, one inside", cut && inside == 1);
        met.count("cut by index, two inside", cut && inside == 2);
        met.count("cut by index, three inside", cut && inside == 3);
    }
}

/// Tallies every candidate without data.
fn count_any(met: &mut Met, track: &[u8], marks: &[u8]) {
    let mut walk = Walk::new(track, marks);
    let whole = accept(track, marks);
    while let Ok(next) = walk.step() {
        if next.dl == 0 {
            let (count, fields) = count_at(track, marks, next.place);
            let empty = Empty {
                track,
                count,
                opening: count.blocks(track, &fields).data,
                whole,
                data: find(track, marks, next.s, Part::Data).0,
            };
            empty.count(met);
        }
    }
}

#[test]
fn damaged_tracks_hold_empty_blocks_of_each_kind() {
    let mut met = Met::default();
    for seed in 0..6_000 {
        let (track, marks) = damaged(seed);
        count_any(&mut met, &track, &marks);
    }
    met.finish("damaged", 21, 10);
}

#[test]
fn jumbled_tracks_hold_empty_blocks_of_ten_bytes() {
    let mut met = Met::default();
    for seed in 0..900 {
        let (track, marks) = jumbled(seed);
        count_any(&mut met, &track, &marks);
    }
    println!("jumbled: {:?}", met.0);
    for kind in ["ten bytes that fit", "9 of Find by the rule"] {
        assert!(met.0[kind] > 20, "{:?}", met.0);
    }
}

/// The end of the data block of each sector of an accepted track, from left to right, and whether it has ten bytes.
fn ends(track: &[u8], marks: &[u8]) -> Vec<(u8, usize, bool)> {
    let mut walk = Walk::new(track, marks);
    let mut ends = Vec::new();
    while let Ok(next) = walk.step() {
        let (count, fields) = count_at(track, marks, next.place);
        let blocks = count.blocks(track, &fields);
        let ten = next.dl == 0 && blocks.end == blocks.data + 10;
        ends.push((next.s, blocks.end, ten));
    }
    ends
}

#[test]
fn wanted_additions_behind_ten_bytes() {
    let mut met = Met::default();
    for seed in 0..4_000 {
        let (mut track, marks) = sound(seed);
        let (_, end, ten) = *ends(&track, &marks).last().unwrap();
        if !ten {
            continue;
        }
        let w = wanted_add(seed, &track, &marks);
        let (done, new, new_marks) = addition(&track, &marks, &w);
        met.count("done", done.number == 0);
        if done.number == 0 {
            assert_eq!(new[..end], track[..end]);
            assert_eq!(new_marks[..end], marks[..end]);
            let (_, new_end, new_ten) = *ends(&new, &new_marks).last().unwrap();
            assert!(!new_ten && new_end <= track.len() - 13);
            met.count("just fits", new_end == track.len() - 13);
        }
        // With another end byte the old block has seven bytes.
        track[end - 1] ^= 0x10;
        let (done_seven, ..) = addition(&track, &marks, &w);
        met.count("no room", done.number == 15);
        met.count("no room by three bytes", done != done_seven);
        assert!(done == done_seven || (done.number, done_seven.number) == (15, 0));
    }
    met.finish("additions", 4, 5);
}

/// How many blocks have ten bytes left of a sector, in it, and right of it.
fn tens_around(sectors: &[(u8, usize, bool)], s: u8) -> [usize; 3] {
    let tens = |sectors: &[(u8, usize, bool)]| sectors.iter().filter(|one| one.2).count();
    match sectors.iter().position(|one| one.0 == s) {
        None => [0; 3],
        Some(index) => [
            tens(&sectors[..index]),
            tens(&sectors[index..=index]),
            tens(&sectors[index + 1..]),
        ],
    }
}

#[test]
fn wanted_corrections_among_ten_bytes() {
    let mut met = Met::default();
    for seed in 0..4_000 {
        let (track, marks) = sound(seed);
        let old = ends(&track, &marks);
        let w = wanted_correct(seed, &track, &marks);
        let (done, new, new_marks) = correction(&track, &marks, &w);
        let [left, at, right] = tens_around(&old, w.s);
        met.count(
            "no room, ten bytes right of it",
            done.number == 15 && right > 0,
        );
        if done.number != 0 {
            continue;
        }
        let sectors = ends(&new, &new_marks);
        assert_eq!(tens_around(&sectors, w.s), [left, 0, 0], "seed {seed}");
        let end = sectors[sectors.len() - 1].1;
        let most = track.len() - 13;
        met.count("ten bytes left of it", left > 0);
        met.count("ten bytes in it", at > 0);
        met.count("ten bytes right of it", right > 0);
        met.count("ten bytes on all sides", left > 0 && at > 0 && right > 0);
        met.count("just fits, ten bytes right of it", end == most && right > 0);
        met.count("fits by seven bytes only", end + 3 * right > most);
    }
    met.finish("corrections", 7, 20);
}

/// Two corrections in both orders on tracks that hold blocks of ten bytes.
#[test]
fn corrections_in_both_orders_among_ten_bytes() {
    let mut met = Met::default();
    for seed in 30_000..33_000 {
        let (track, marks) = sound(seed);
        let old = ends(&track, &marks);
        let Some((a, b, done)) = both_orders(seed, &track, &marks) else {
            continue;
        };
        let (around_a, around_b) = (tens_around(&old, a), tens_around(&old, b));
        let [left, right] = [0, 2].map(|side| around_a[side].min(around_b[side]));
        let all: usize = around_a.iter().sum();
        let between = all - left - right - around_a[1] - around_b[1];
        met.count("ten bytes left of both", done.number == 0 && left > 0);
        met.count(
            "ten bytes in one",
            done.number == 0 && around_a[1] + around_b[1] > 0,
        );
        met.count("ten bytes between", done.number == 0 && between > 0);
        met.count("ten bytes right of both", done.number == 0 && right > 0);
        met.count("no room, ten bytes", done.number == 15 && all > left);
    }
    met.finish("both orders", 5, 40);
}
