//! The call that lists the sectors of an accepted track.

use crate::result::{Answer, Word};

extern "C" {
    fn iso3561_list(
        track: *const u8,
        track_length: usize,
        marks: *const u8,
        marks_length: usize,
        rows: *mut [u16; 8],
        rows_count: usize,
    ) -> u64;
}

/// No track holds more sectors, and List asks for so many rows.
///
/// ```
/// use station::{list_into, Answer, MOST_SECTORS};
///
/// let mut rows = [[0; 8]; MOST_SECTORS - 1];
/// let refused = Answer { number: 1, fault: None, place: 0 };
/// assert_eq!(list_into(&[], &[], &mut rows), Err(refused));
/// ```
pub const MOST_SECTORS: usize = 67;

/// A sector that List gives; places are in bytes after index.
///
/// ```
/// use station::{blank, list, NewTrack, Sector};
///
/// let (mut track, mut marks) = (vec![0; 3_906], vec![0; 3_906]);
/// let wanted = NewTrack { sector: 9, ..NewTrack::default() };
/// assert!(blank(&mut track, &mut marks, &wanted).is_done());
/// // A data block without data is written as its opening and one byte.
/// let only = Sector {
///     flag: 0,
///     s: 9,
///     kl: 0,
///     dl: 0,
///     key_place: 0,
///     data_place: 90,
///     end: 91,
///     gap: 3_906 - 91,
/// };
/// assert_eq!(list(&track, &marks), Ok(vec![only]));
/// ```
#[derive(Clone, Copy, PartialEq, Eq, Debug, Hash)]
pub struct Sector {
    /// The flag of its count.
    pub flag: u8,
    /// Its number.
    pub s: u8,
    /// The key's length.
    pub kl: u8,
    /// The data's length.
    pub dl: u16,
    /// Where the key's information starts; 0 without a key.
    pub key_place: usize,
    /// Where the data's information starts, or would without data.
    pub data_place: usize,
    /// The place after the data block's last byte.
    pub end: usize,
    /// How many bytes follow the data block, up to the next count's opening or up to index.
    pub gap: usize,
}

impl Sector {
    /// A row that List filled.
    fn of_row([flag, s, kl, dl, key_place, data_place, end, gap]: [u16; 8]) -> Sector {
        let byte = |number: u16| {
            debug_assert!(number < 256, "no byte: {number}");
            number as u8
        };
        Sector {
            flag: byte(flag),
            s: byte(s),
            kl: byte(kl),
            dl,
            key_place: key_place.into(),
            data_place: data_place.into(),
            end: end.into(),
            gap: gap.into(),
        }
    }
}

/// List: the sectors of an accepted track from left to right; a track that Accept refuses is refused with the same answer.
///
/// ```
/// use station::{accept, add, blank, list, NewSector, NewTrack};
///
/// let (mut old, mut old_marks) = (vec![0; 3_906], vec![0; 3_906]);
/// let wanted = NewTrack { data: b"ISO 3561", ..NewTrack::default() };
/// assert!(blank(&mut old, &mut old_marks, &wanted).is_done());
/// let (mut track, mut marks) = (vec![0; 3_906], vec![0; 3_906]);
/// let wanted = NewSector { sector: 1, key: b"KEY", data: &[0xD1; 80], ..NewSector::default() };
/// assert!(add((&old, &old_marks), &mut track, &mut marks, &wanted).is_done());
///
/// let sectors = list(&track, &marks).unwrap();
/// let places: Vec<_> = sectors.iter().map(|sector| (sector.end, sector.gap)).collect();
/// assert_eq!(places, [(101, 21), (265, 3_906 - 265)]);
/// // A block's end and its gap reach the next count, which has 20 bytes, with 11 before the key's opening of six.
/// assert_eq!(sectors[1].key_place, 101 + 21 + 20 + 11 + 6);
///
/// track[101 - 1] = 0xCD;
/// assert_eq!(list(&track, &marks), Err(accept(&track, &marks)));
/// ```
pub fn list(track: &[u8], marks: &[u8]) -> Result<Vec<Sector>, Answer> {
    let mut rows = [[0; 8]; MOST_SECTORS];
    let count = list_into(track, marks, &mut rows)?;
    Ok(rows[..count].iter().copied().map(Sector::of_row).collect())
}

/// List into lent rows of flag, S, KL, DL, key's place, data's place, end and gap; gives the number of sectors.
///
/// Fewer than [`MOST_SECTORS`] rows are refused with 1. Rows past the last sector stay as they are, and a refusal changes none.
///
/// ```
/// use station::{blank, list_into, Answer, NewTrack};
///
/// let (mut track, mut marks) = (vec![0; 3_906], vec![0; 3_906]);
/// let wanted = NewTrack { sector: 5, data: b"ISO 3561", ..NewTrack::default() };
/// assert!(blank(&mut track, &mut marks, &wanted).is_done());
///
/// let mut rows = [[7; 8]; 67];
/// assert_eq!(list_into(&track, &marks, &mut rows), Ok(1));
/// assert_eq!(rows[0], [0, 5, 0, 8, 0, 90, 101, 3_906 - 101]);
/// assert_eq!(rows[1], [7; 8]);
///
/// let refused = Answer { number: 1, fault: None, place: 0 };
/// assert_eq!(list_into(&track, &marks, &mut rows[..66]), Err(refused));
/// ```
pub fn list_into(track: &[u8], marks: &[u8], rows: &mut [[u16; 8]]) -> Result<usize, Answer> {
    // SAFETY: all slices are lent whole, and the rows are borrowed alone.
    let word = unsafe {
        iso3561_list(
            track.as_ptr(),
            track.len(),
            marks.as_ptr(),
            marks.len(),
            rows.as_mut_ptr(),
            rows.len(),
        )
    };
    Word(word).sector_count()
}

#[cfg(test)]
mod tests {
    use super::*;

    /// Every field of a record from its own number of the row.
    #[test]
    fn fields_of_a_row() {
        let sector = Sector {
            flag: 0x80,
            s: 1,
            kl: 3,
            dl: 80,
            key_place: 159,
            data_place: 182,
            end: 265,
            gap: 3_641,
        };
        let row = [0x80, 1, 3, 80, 159, 182, 265, 3_641];
        assert_eq!(Sector::of_row(row), sector);
    }
}
