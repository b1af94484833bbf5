//! Tests of the reference implementation, one module for each group of calls.

mod accept;
mod alike;
mod bit_cells;
mod common;
mod cylinder;
mod empty_block;
mod empty_block_write;
mod end_and_gap;
mod find;
mod generated;
mod generated_empty;
mod list_walk;
mod pair;
mod rules;
mod worked;
mod write;
