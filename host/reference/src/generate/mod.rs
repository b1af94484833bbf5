//! Tracks for tests, drawn from a seed: sound ones, damaged ones, ones with a spoiled block, jumbled ones, pairs, gap rules, wanted fields, bit cells, and cylinders.
//!
//! Sound tracks are laid out here by hand and never by the writing calls.

mod bit_cells;
mod block;
mod cylinder;
mod cylinder_file;
mod damage;
mod jumble;
mod pairs;
mod plan;
mod rng;
mod rules;
mod sound;
mod wanted;

pub use bit_cells::{
    bit_cells_of, wanted_from_cells, wanted_to_cells, WantedFromCells, WantedToCells,
};
pub use block::{spoil_block, spoiled, Block, Spoiled};
pub use cylinder::{
    wanted_read_cylinder, wanted_write_cylinder, WantedReadCylinder, WantedWriteCylinder,
};
pub use cylinder_file::{
    cylinder_file, cylinder_of, noisy_cylinder, noisy_file, spare_bits, sum_of, tracks_of, Cylinder,
};
pub use damage::{damage, damaged, recheck};
pub use jumble::jumbled;
pub use pairs::{pair, Pair, Track};
pub use plan::{Built, Places, Plan, PlannedSector};
pub use rng::Rng;
pub use rules::{any_rule, rule_two, rule_two_out_of_range};
pub use sound::{sound, sound_plan, Sound};
pub use wanted::{
    wanted_add, wanted_add_by, wanted_blank, wanted_correct, wanted_correct_by, WantedAdd,
    WantedBlank, WantedCorrect,
};
