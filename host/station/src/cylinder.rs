//! The calls for a cylinder's file: Read cylinder and Write cylinder.

use crate::result::{Answer, Word};

extern "C" {
    fn iso3561_cylinder_read(
        file: *const u8,
        file_length: usize,
        tracks: *mut u8,
        tracks_length: usize,
        marks: *mut u8,
        marks_length: usize,
        lengths: *mut u16,
        lengths_count: usize,
    ) -> u64;
    fn iso3561_cylinder_write(
        tracks: *const u8,
        tracks_length: usize,
        marks: *const u8,
        marks_length: usize,
        lengths: *const u16,
        lengths_count: usize,
        file: *mut u8,
        file_length: usize,
    ) -> u64;
}

/// No cylinder's file holds more tracks.
pub const MOST_TRACKS: usize = 10;

/// No cylinder's file has more bytes: that of ten tracks of 4,002.
///
/// ```
/// use station::{write_cylinder, LONGEST_FILE, MOST_TRACKS};
///
/// let (tracks, lengths) = (vec![0; MOST_TRACKS * 4_002], [4_002; MOST_TRACKS]);
/// let mut file = vec![0; LONGEST_FILE];
/// assert_eq!(write_cylinder(&tracks, &tracks, &lengths, &mut file), Ok(LONGEST_FILE));
/// ```
pub const LONGEST_FILE: usize = 45_094;

/// Read cylinder: reads a file into the tracks one after the other, their marks likewise, and the list of their lengths; gives the number of tracks.
///
/// What lies behind the last track, its last mark and its length stays as it is, and a refusal changes nothing.
/// A file is refused with 18 for a number of tracks that is not 1 to 10 or a zero field that is not zero, with 1 for a length that is not 3,815 to 4,002,
/// with 19 for an offset that is not where the track has to start, with 20 if its header or its table is cut short or it is not as long as its table says,
/// and with 21 for a spare bit that is set.
/// A slice shorter than the sum of the lengths, or a list shorter than the number of tracks, is refused with 24, after all that is wrong with the file.
///
/// ```
/// use station::{blank, find, read_cylinder, write_cylinder, Answer, NewTrack, Wanted};
///
/// // Two tracks, one after the other in one pair of slices.
/// let (mut tracks, mut marks) = (vec![0; 3_906 + 3_815], vec![0; 3_906 + 3_815]);
/// let (first, second) = tracks.split_at_mut(3_906);
/// let (first_marks, second_marks) = marks.split_at_mut(3_906);
/// let wanted = |data| NewTrack { data, ..NewTrack::default() };
/// assert!(blank(first, first_marks, &wanted(b"head 0")).is_done());
/// assert!(blank(second, second_marks, &wanted(b"head 1")).is_done());
/// let mut file = vec![0; 45_094];
/// let length = write_cylinder(&tracks, &marks, &[3_906, 3_815], &mut file).unwrap();
/// file.truncate(length);
///
/// // Buffers for any file.
/// let (mut read, mut read_marks, mut lengths) = (vec![0; 40_020], vec![0; 40_020], [0; 10]);
/// let count = read_cylinder(&file, &mut read, &mut read_marks, &mut lengths).unwrap();
/// assert_eq!(lengths[..count], [3_906, 3_815]);
/// let (second, second_marks) = (&read[3_906..3_906 + 3_815], &read_marks[3_906..3_906 + 3_815]);
/// assert_eq!(find(second, second_marks, 0, Wanted::Data), Ok(&b"head 1"[..]));
///
/// // The last byte of the file is lost.
/// let refused = read_cylinder(&file[..length - 1], &mut read, &mut read_marks, &mut lengths);
/// assert_eq!(refused, Err(Answer { number: 20, fault: None, place: 0 }));
/// ```
pub fn read_cylinder(
    file: &[u8],
    tracks: &mut [u8],
    marks: &mut [u8],
    lengths: &mut [u16],
) -> Result<usize, Answer> {
    // SAFETY: all slices are lent whole, and the three written ones are borrowed alone.
    let word = unsafe {
        iso3561_cylinder_read(
            file.as_ptr(),
            file.len(),
            tracks.as_mut_ptr(),
            tracks.len(),
            marks.as_mut_ptr(),
            marks.len(),
            lengths.as_mut_ptr(),
            lengths.len(),
        )
    };
    Word(word).given()
}

/// Write cylinder: writes the one file of some tracks, lent one after the other with their marks and the list of their lengths; gives the file's length.
///
/// There must be 1 to 10 lengths, else it is refused with 18. Each of them must be 3,815 to 4,002, the tracks and the marks must each be exactly as long
/// as the lengths together, and each mark must be 0 or 1, else it is refused with 1. A buffer shorter than the file is refused with 24.
/// What lies behind the file stays as it is, and a refusal changes nothing.
///
/// ```
/// use station::{write_cylinder, Answer};
///
/// let (tracks, mut marks) = (vec![0xD1; 3_815], vec![0; 3_815]);
/// marks[0] = 1;
/// let mut file = vec![0xA5; 5_000];
/// assert_eq!(write_cylinder(&tracks, &marks, &[3_815], &mut file), Ok(10 + 3_815 + 477));
/// // One track, a zero field, and 3,815 bytes at 10.
/// assert_eq!(file[..10], [0x00, 0x01, 0x00, 0x00, 0x0E, 0xE7, 0x00, 0x00, 0x00, 0x0A]);
/// // Its last byte, and the first eight marks.
/// assert_eq!(file[10 + 3_814..10 + 3_816], [0xD1, 0x80]);
///
/// let refused = |number| Err(Answer { number, fault: None, place: 0 });
/// assert_eq!(write_cylinder(&tracks, &marks, &[], &mut file), refused(18));
/// assert_eq!(write_cylinder(&tracks, &marks, &[3_816], &mut file), refused(1));
/// assert_eq!(write_cylinder(&tracks, &marks, &[3_815], &mut file[..4_301]), refused(24));
/// ```
pub fn write_cylinder(
    tracks: &[u8],
    marks: &[u8],
    lengths: &[u16],
    file: &mut [u8],
) -> Result<usize, Answer> {
    // SAFETY: all slices are lent whole, and the written one is borrowed alone.
    let word = unsafe {
        iso3561_cylinder_write(
            tracks.as_ptr(),
            tracks.len(),
            marks.as_ptr(),
            marks.len(),
            lengths.as_ptr(),
            lengths.len(),
            file.as_mut_ptr(),
            file.len(),
        )
    };
    Word(word).given()
}
