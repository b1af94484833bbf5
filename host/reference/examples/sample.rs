//! Writes the sample pair to standard output: cylinder 100, head 7, two sectors, 3,906 bytes and their marks.

use reference::{accept, add, blank, Address, Answer, GapRule};
use std::io::Write;

const L: usize = 3_906;
const HERE: Address = Address {
    cylinder: 100,
    head: 7,
};

/// The text of sector 1, filled up with blanks to the 80 bytes of a card.
fn card() -> [u8; 80] {
    let text = b"A record of eighty bytes, as one punched card holds it";
    let mut card = [b' '; 80];
    card[..text.len()].copy_from_slice(text);
    card
}

/// Sector 0 without a key and with eight bytes of data.
fn one_sector() -> (Vec<u8>, Vec<u8>) {
    let (mut track, mut marks) = (vec![0; L], vec![0; L]);
    let done = blank(&mut track, &mut marks, HERE, 0, HERE, 0, b"", b"ISO 3561");
    assert_eq!(done, Answer::OK);
    (track, marks)
}

/// One more sector, with a key of three bytes.
fn two_sectors() -> (Vec<u8>, Vec<u8>) {
    let (old, old_marks) = one_sector();
    let (mut track, mut marks) = (vec![0; L], vec![0; L]);
    let data = card();
    let done = add(
        &old,
        &old_marks,
        &mut track,
        &mut marks,
        0,
        1,
        b"KEY",
        &data,
        GapRule::One,
    );
    assert_eq!(done, Answer::OK);
    assert_eq!(accept(&track, &marks), Answer::OK);
    (track, marks)
}

fn main() -> std::io::Result<()> {
    let (track, marks) = two_sectors();
    let mut output = std::io::stdout();
    output.write_all(&track)?;
    output.write_all(&marks)
}
