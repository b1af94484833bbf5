//! The writing calls: Blank, Add and Correct.

use crate::reading::Lent;
use crate::result::{Answer, Word};

extern "C" {
    fn iso3561_blank(
        track: *mut u8,
        track_length: usize,
        marks: *mut u8,
        marks_length: usize,
        cylinder: u16,
        head: u16,
        flag: u8,
        partner_cylinder: u16,
        partner_head: u16,
        sector: u8,
        key: *const u8,
        key_length: usize,
        data: *const u8,
        data_length: usize,
    ) -> u64;
    fn iso3561_add(
        track: *const u8,
        track_length: usize,
        marks: *const u8,
        marks_length: usize,
        new_track: *mut u8,
        new_track_length: usize,
        new_marks: *mut u8,
        new_marks_length: usize,
        b7: u8,
        sector: u8,
        key: *const u8,
        key_length: usize,
        data: *const u8,
        data_length: usize,
        rule: u16,
        a: u16,
        b: u16,
    ) -> u64;
    fn iso3561_correct(
        track: *const u8,
        track_length: usize,
        marks: *const u8,
        marks_length: usize,
        new_track: *mut u8,
        new_track_length: usize,
        new_marks: *mut u8,
        new_marks_length: usize,
        sector: u8,
        key: *const u8,
        key_length: usize,
        data: *const u8,
        data_length: usize,
        rule: u16,
        a: u16,
        b: u16,
    ) -> u64;
}

/// Cylinder and head of a track; values out of rule are refused by the call.
#[derive(Clone, Copy, PartialEq, Eq, Debug, Default, Hash)]
pub struct Address {
    pub cylinder: u16,
    pub head: u16,
}

/// A track to be made: its address, flag (0 to 3), partner, and sector 0.
#[derive(Clone, Copy, PartialEq, Eq, Debug, Default)]
pub struct NewTrack<'a> {
    pub address: Address,
    pub flag: u8,
    /// Only looked at for flags 1 and 2.
    pub partner: Address,
    pub sector: u8,
    pub key: &'a [u8],
    pub data: &'a [u8],
}

/// How long the gap between a data block and the next count's opening is made: at least 21 bytes, and more by KL + DL, the lengths of key and data.
///
/// A rule out of its range is refused by the call with 14. Rule two with 1 and 20 gives the very tracks of rule one.
#[derive(Clone, Copy, PartialEq, Eq, Debug, Default, Hash)]
pub enum GapRule {
    /// Rule one: 21 + (KL + DL) / 20 bytes, rounded down.
    #[default]
    One,
    /// Rule two: 21 + (KL + DL) × a / b bytes, rounded down.
    Two {
        /// From 0 to b.
        a: u16,
        /// From 1 to 1,000.
        b: u16,
    },
}

impl GapRule {
    /// The rule's number, a and b, as the calls take them; rule one has no a and b.
    fn numbers(self) -> [u16; 3] {
        match self {
            GapRule::One => [1, 0, 0],
            GapRule::Two { a, b } => [2, a, b],
        }
    }
}

/// A sector to be added; `b7` is 1 if its record runs on elsewhere, else 0.
#[derive(Clone, Copy, PartialEq, Eq, Debug, Default)]
pub struct NewSector<'a> {
    pub b7: u8,
    pub sector: u8,
    pub key: &'a [u8],
    pub data: &'a [u8],
    /// Sets the gap behind the block that was the last; the others are copied.
    pub rule: GapRule,
}

/// New key and data for the sector with this number.
#[derive(Clone, Copy, PartialEq, Eq, Debug, Default)]
pub struct NewBody<'a> {
    pub sector: u8,
    pub key: &'a [u8],
    pub data: &'a [u8],
    /// Sets the gaps from this sector on but for the last, which runs to index; those before it are copied.
    pub rule: GapRule,
}

/// Blank: writes a new track with home and sector 0.
pub fn blank(track: &mut [u8], marks: &mut [u8], wanted: &NewTrack) -> Answer {
    // SAFETY: all slices are lent whole, and the two written ones are borrowed alone.
    let word = unsafe {
        iso3561_blank(
            track.as_mut_ptr(),
            track.len(),
            marks.as_mut_ptr(),
            marks.len(),
            wanted.address.cylinder,
            wanted.address.head,
            wanted.flag,
            wanted.partner.cylinder,
            wanted.partner.head,
            wanted.sector,
            wanted.key.as_ptr(),
            wanted.key.len(),
            wanted.data.as_ptr(),
            wanted.data.len(),
        )
    };
    Word(word).only_answer()
}

/// Add: writes a copy of a track with one more sector after the last.
///
/// ```
/// use station::{add, blank, list, Answer, GapRule, NewSector, NewTrack};
///
/// let (mut old, mut old_marks) = (vec![0; 3_906], vec![0; 3_906]);
/// let wanted = NewTrack { data: &[0xD1; 60], ..NewTrack::default() };
/// assert!(blank(&mut old, &mut old_marks, &wanted).is_done());
///
/// // The new track, or the refusal, of one more sector by a gap rule.
/// let by = |rule| {
///     let (mut track, mut marks) = (vec![0; 3_906], vec![0; 3_906]);
///     let wanted = NewSector { sector: 1, data: b"ISO 3561", rule, ..NewSector::default() };
///     add((&old, &old_marks), &mut track, &mut marks, &wanted).done()?;
///     Ok::<_, Answer>((track, marks))
/// };
/// let (track, marks) = by(GapRule::Two { a: 1, b: 3 })?;
/// assert_eq!(list(&track, &marks)?[0].gap, 21 + 60 / 3);
/// assert_eq!(by(GapRule::Two { a: 1, b: 20 })?, by(GapRule::One)?);
/// assert_eq!(by(GapRule::Two { a: 4, b: 3 }).unwrap_err().number, 14);
/// # Ok::<(), Answer>(())
/// ```
pub fn add(old: Lent, new_track: &mut [u8], new_marks: &mut [u8], wanted: &NewSector) -> Answer {
    let [rule, a, b] = wanted.rule.numbers();
    // SAFETY: all slices are lent whole, and the two written ones are borrowed alone.
    let word = unsafe {
        iso3561_add(
            old.0.as_ptr(),
            old.0.len(),
            old.1.as_ptr(),
            old.1.len(),
            new_track.as_mut_ptr(),
            new_track.len(),
            new_marks.as_mut_ptr(),
            new_marks.len(),
            wanted.b7,
            wanted.sector,
            wanted.key.as_ptr(),
            wanted.key.len(),
            wanted.data.as_ptr(),
            wanted.data.len(),
            rule,
            a,
            b,
        )
    };
    Word(word).only_answer()
}

/// Correct: writes a copy of a track with a new key and new data for one sector.
///
/// Two corrections of different sectors, each possible alone, give the same track in either order where both use the same rule, rule two with the same a and b.
///
/// ```
/// use station::{add, blank, correct, list, Answer, GapRule, NewBody, NewSector, NewTrack};
///
/// let (mut first, mut first_marks) = (vec![0; 3_906], vec![0; 3_906]);
/// assert!(blank(&mut first, &mut first_marks, &NewTrack::default()).is_done());
/// let (mut old, mut old_marks) = (vec![0; 3_906], vec![0; 3_906]);
/// let wanted = NewSector { sector: 1, ..NewSector::default() };
/// assert!(add((&first, &first_marks), &mut old, &mut old_marks, &wanted).is_done());
///
/// // The new track, or the refusal, of a correction of sector 0 by a gap rule.
/// let by = |rule| {
///     let (mut track, mut marks) = (vec![0; 3_906], vec![0; 3_906]);
///     let wanted = NewBody { sector: 0, key: b"KEY", data: &[0xD1; 80], rule };
///     correct((&old, &old_marks), &mut track, &mut marks, &wanted).done()?;
///     Ok::<_, Answer>((track, marks))
/// };
/// let (track, marks) = by(GapRule::Two { a: 1, b: 1 })?;
/// assert_eq!(list(&track, &marks)?[0].gap, 21 + 83);
/// assert_eq!(by(GapRule::Two { a: 1, b: 20 })?, by(GapRule::One)?);
/// assert_eq!(by(GapRule::Two { a: 0, b: 1_001 }).unwrap_err().number, 14);
/// # Ok::<(), Answer>(())
/// ```
pub fn correct(old: Lent, new_track: &mut [u8], new_marks: &mut [u8], wanted: &NewBody) -> Answer {
    let [rule, a, b] = wanted.rule.numbers();
    // SAFETY: all slices are lent whole, and the two written ones are borrowed alone.
    let word = unsafe {
        iso3561_correct(
            old.0.as_ptr(),
            old.0.len(),
            old.1.as_ptr(),
            old.1.len(),
            new_track.as_mut_ptr(),
            new_track.len(),
            new_marks.as_mut_ptr(),
            new_marks.len(),
            wanted.sector,
            wanted.key.as_ptr(),
            wanted.key.len(),
            wanted.data.as_ptr(),
            wanted.data.len(),
            rule,
            a,
            b,
        )
    };
    Word(word).only_answer()
}
