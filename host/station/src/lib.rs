//! A safe wrapper of the proved library for tracks of interchangeable six-disk packs (ISO 3561).
//!
//! A track is two byte slices of one length, 3,815 to 4,002: the bytes and the marks.
//! The drive's bit cells are one byte slice of twice that length.
//! The tracks of a cylinder stand one after the other in such a pair, with a list of their lengths, or in one file.
//!
//! ```
//! use station::{accept, blank, find, Address, NewTrack, Wanted};
//!
//! let (mut track, mut marks) = (vec![0; 3_906], vec![0; 3_906]);
//! let wanted = NewTrack {
//!     address: Address { cylinder: 100, head: 7 },
//!     data: b"ISO 3561",
//!     ..NewTrack::default()
//! };
//! assert!(blank(&mut track, &mut marks, &wanted).is_done());
//! assert!(accept(&track, &marks).is_done());
//! assert_eq!(find(&track, &marks, 0, Wanted::Data), Ok(&b"ISO 3561"[..]));
//! ```

mod bit_cells;
mod cylinder;
mod listing;
mod reading;
mod result;
mod writing;

pub use bit_cells::{from_cells, to_cells};
pub use cylinder::{read_cylinder, write_cylinder, LONGEST_FILE, MOST_TRACKS};
pub use listing::{list, list_into, Sector, MOST_SECTORS};
pub use reading::{
    accept, candidates, find, pair_find, walk_from, Candidates, Lent, Wanted, Which,
};
pub use result::{Answer, Candidate, Fault};
pub use writing::{add, blank, correct, Address, GapRule, NewBody, NewSector, NewTrack};
