//! The three packs, and the file of a pack: for each track the number of its bytes and of its marks, two bytes each, most significant first, then bytes and marks.

use crate::first_written::{seven_bits, with_first, with_more};
use crate::Track;
use reference::generate::{damaged, sound, Rng};
use reference::Address;
use std::fs;
use std::io::{self, ErrorKind};
use std::path::{Path, PathBuf};

/// Heads of a pack.
const HEADS: u64 = 10;
/// Cylinders times heads of a pack.
pub const PACK: u64 = 203 * HEADS;
/// What the tracks of each pack are, by which its file is named too.
pub const KINDS: [&str; 3] = ["sound", "damaged", "cards"];
/// Length of a card track, and data bytes of its sectors.
const CARD_TRACK: usize = 3_906;
const FIRST_DATA: usize = 8;
const CARD: usize = 80;

/// A track of cards: sector 0, and as many sectors of 80 bytes as fit.
fn cards(seed: u64, index: u64) -> Track {
    let mut rng = Rng::new(seed);
    let address = Address {
        cylinder: (index / HEADS) as u16,
        head: (index % HEADS) as u16,
    };
    let data = seven_bits(&mut rng, FIRST_DATA);
    let first = with_first(CARD_TRACK, address, &data);
    with_more(first, &mut rng, CARD, usize::MAX)
}

/// The pack of a kind and a seed.
pub fn pack(kind: &str, seed: u64) -> Vec<Track> {
    let track = |index| {
        let own = seed.wrapping_mul(PACK).wrapping_add(index);
        match kind {
            "sound" => sound(own),
            "damaged" => damaged(own),
            _ => cards(own, index),
        }
    };
    (0..PACK).map(track).collect()
}

/// The file of a kind in a folder.
fn file_of(folder: &Path, kind: &str) -> PathBuf {
    folder.join(kind).with_extension("pack")
}

/// Writes the pack of a kind and a seed to its file, and gives the file.
pub fn write(folder: &Path, kind: &str, seed: u64) -> io::Result<PathBuf> {
    let mut bytes = Vec::new();
    for (track, marks) in pack(kind, seed) {
        for part in [&track, &marks] {
            bytes.extend((part.len() as u16).to_be_bytes());
        }
        bytes.extend(track);
        bytes.extend(marks);
    }
    let file = file_of(folder, kind);
    fs::write(&file, bytes)?;
    Ok(file)
}

/// The pack in the file of a kind.
pub fn read(folder: &Path, kind: &str) -> io::Result<Vec<Track>> {
    let bytes = fs::read(file_of(folder, kind))?;
    let (mut rest, mut tracks) = (&bytes[..], Vec::new());
    while !rest.is_empty() {
        tracks.push(take_track(&mut rest).ok_or(ErrorKind::UnexpectedEof)?);
    }
    Ok(tracks)
}

/// The next track of a file.
fn take_track(rest: &mut &[u8]) -> Option<Track> {
    let lengths = take(rest, 4)?;
    let length = |at| usize::from(u16::from_be_bytes([lengths[at], lengths[at + 1]]));
    let (track, marks) = (take(rest, length(0))?, take(rest, length(2))?);
    Some((track.to_vec(), marks.to_vec()))
}

/// The next so many bytes of a file.
fn take<'a>(rest: &mut &'a [u8], count: usize) -> Option<&'a [u8]> {
    let (taken, behind) = rest.split_at_checked(count)?;
    *rest = behind;
    Some(taken)
}

#[cfg(test)]
mod tests {
    use super::*;

    /// What is written reads back, and each track of cards is full and accepted.
    #[test]
    fn packs_read_back() {
        let folder = std::env::temp_dir().join(format!("packs-{}", std::process::id()));
        fs::create_dir_all(&folder).expect("a folder");
        for kind in KINDS {
            write(&folder, kind, 3).expect("a file");
            let (read, made) = (read(&folder, kind).expect("a pack"), pack(kind, 3));
            assert_eq!(read.len() as u64, PACK);
            assert!(read == made, "{kind}");
        }
        fs::remove_dir_all(&folder).expect("a folder");
        let (track, marks) = cards(5, 2_029);
        assert_eq!(reference::accept(&track, &marks), reference::Answer::OK);
        let openings = marks.iter().filter(|&&mark| mark == 1).count() / 2;
        assert_eq!(openings, 26);
    }
}
