//! Writes a defective track and its alternative into the folder that the first argument names: defective.bin and alternative.bin.

use reference::{accept, add, blank, Address, Answer, GapRule};
use std::path::Path;

const L: usize = 3_906;
const DEFECTIVE: Address = Address {
    cylinder: 100,
    head: 7,
};
const ALTERNATIVE: Address = Address {
    cylinder: 200,
    head: 0,
};

/// A track of one sector that names its partner.
fn one_sector(own: Address, flag: u8, partner: Address) -> (Vec<u8>, Vec<u8>) {
    let (mut track, mut marks) = (vec![0; L], vec![0; L]);
    let done = blank(
        &mut track,
        &mut marks,
        own,
        flag,
        partner,
        0,
        b"",
        b"ISO 3561",
    );
    assert_eq!(done, Answer::OK);
    (track, marks)
}

/// The alternative with the record that the defective track lost.
fn alternative() -> (Vec<u8>, Vec<u8>) {
    let (old, old_marks) = one_sector(ALTERNATIVE, 1, DEFECTIVE);
    let (mut track, mut marks) = (vec![0; L], vec![0; L]);
    let done = add(
        &old,
        &old_marks,
        &mut track,
        &mut marks,
        0,
        1,
        b"PART 17",
        b"PRICE 4.20",
        GapRule::One,
    );
    assert_eq!(done, Answer::OK);
    assert_eq!(accept(&track, &marks), Answer::OK);
    (track, marks)
}

fn main() -> std::io::Result<()> {
    let folder = std::env::args().nth(1).expect("a folder");
    let write = |name: &str, (track, marks): (Vec<u8>, Vec<u8>)| {
        std::fs::write(Path::new(&folder).join(name), [track, marks].concat())
    };
    write("defective.bin", one_sector(DEFECTIVE, 2, ALTERNATIVE))?;
    write("alternative.bin", alternative())
}
