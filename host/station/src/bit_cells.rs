//! The calls for the drive's bit cells: From cells and To cells.

use crate::result::{Answer, Word};

extern "C" {
    fn iso3561_from_cells(
        bit_cells: *const u8,
        bit_cells_length: usize,
        track: *mut u8,
        track_length: usize,
        marks: *mut u8,
        marks_length: usize,
    ) -> u64;
    fn iso3561_to_cells(
        track: *const u8,
        track_length: usize,
        marks: *const u8,
        marks_length: usize,
        bit_cells: *mut u8,
        bit_cells_length: usize,
    ) -> u64;
}

/// From cells: reads the drive's bit cells, two cell bytes for each track byte, into a track and its marks.
///
/// A byte whose bit cells are no legal pattern is refused with 17 and its place on the track. A refusal writes nothing.
///
/// ```
/// use station::{accept, blank, find, from_cells, to_cells, Answer, NewTrack, Wanted};
///
/// let (mut track, mut marks) = (vec![0; 3_906], vec![0; 3_906]);
/// let wanted = NewTrack {
///     data: b"ISO 3561",
///     ..NewTrack::default()
/// };
/// assert!(blank(&mut track, &mut marks, &wanted).is_done());
/// let mut bit_cells = vec![0; 2 * 3_906];
/// assert!(to_cells(&track, &marks, &mut bit_cells).is_done());
///
/// let (mut read, mut read_marks) = (vec![0; 3_906], vec![0; 3_906]);
/// assert!(from_cells(&bit_cells, &mut read, &mut read_marks).is_done());
/// assert!(accept(&read, &read_marks).is_done());
/// assert_eq!(find(&read, &read_marks, 0, Wanted::Data), Ok(&b"ISO 3561"[..]));
///
/// // One clock of the byte at 90 is lost.
/// bit_cells[2 * 90] ^= 0x80;
/// let refused = from_cells(&bit_cells, &mut read, &mut read_marks);
/// assert_eq!(refused, Answer { number: 17, fault: None, place: 90 });
/// ```
pub fn from_cells(bit_cells: &[u8], track: &mut [u8], marks: &mut [u8]) -> Answer {
    // SAFETY: all slices are lent whole, and the two written ones are borrowed alone.
    let word = unsafe {
        iso3561_from_cells(
            bit_cells.as_ptr(),
            bit_cells.len(),
            track.as_mut_ptr(),
            track.len(),
            marks.as_mut_ptr(),
            marks.len(),
        )
    };
    Word(word).only_answer()
}

/// To cells: writes the bit cells of a track and its marks, two cell bytes for each track byte.
///
/// A marked byte that is not `FF` is refused with 17 and its place. A refusal writes nothing.
///
/// ```
/// use station::{blank, find, from_cells, to_cells, Answer, NewTrack, Wanted};
///
/// let (mut track, mut marks) = (vec![0; 3_906], vec![0; 3_906]);
/// let wanted = NewTrack {
///     data: b"ISO 3561",
///     ..NewTrack::default()
/// };
/// assert!(blank(&mut track, &mut marks, &wanted).is_done());
/// let mut bit_cells = vec![0; 2 * 3_906];
/// assert!(to_cells(&track, &marks, &mut bit_cells).is_done());
/// // Home opens at 30 with 00 00 00 00 FF 0E.
/// assert_eq!(bit_cells[2 * 33..2 * 36], [0xAA, 0xAA, 0xFF, 0xFF, 0xAA, 0xFE]);
///
/// let (mut read, mut read_marks) = (vec![0; 3_906], vec![0; 3_906]);
/// assert!(from_cells(&bit_cells, &mut read, &mut read_marks).is_done());
/// assert_eq!(find(&read, &read_marks, 0, Wanted::Data), Ok(&b"ISO 3561"[..]));
///
/// // A mark on 0E.
/// marks[35] = 1;
/// let refused = to_cells(&track, &marks, &mut bit_cells);
/// assert_eq!(refused, Answer { number: 17, fault: None, place: 35 });
/// ```
pub fn to_cells(track: &[u8], marks: &[u8], bit_cells: &mut [u8]) -> Answer {
    // SAFETY: all slices are lent whole, and the written one is borrowed alone.
    let word = unsafe {
        iso3561_to_cells(
            track.as_ptr(),
            track.len(),
            marks.as_ptr(),
            marks.len(),
            bit_cells.as_mut_ptr(),
            bit_cells.len(),
        )
    };
    Word(word).only_answer()
}
