//! Lomuveran mixes blocks into a secret order and puts them back, by a Waksman network: a fixed list of switches, each of which
//! exchanges two blocks or leaves them. This package calls the proved library (`tools/library`) through its C interface.
//!
//! [`Setting`] and [`Permutation`] own their memory and are what most programs need; [`Permutation::ranked`] gives any order
//! of a few places by its number. The functions are the library's calls as they are, on lent slices. Each call asks its
//! questions in a fixed sequence; the first no is the [`Refusal`].
//!
//! There are two wirings of the network: the paper's, that of [`Setting`] and of sheets, and the neighbour wiring of the bought
//! archive, that of [`NeighbourSetting`]. Each setting becomes one of the other wiring that does the same.

#![warn(missing_docs)]
#![deny(unsafe_op_in_unsafe_fn)]

mod calls;
mod ffi;
mod neighbour;
mod permutation;
mod refusal;
mod setting;

pub use calls::{
    apply, apply_inverse, control_bits, entries, gauge_report, neighbour_apply, neighbour_apply_inverse,
    neighbour_control_bits, ranked_order, read_number, read_sheet, shuffle, switches, to_neighbour, to_paper, write_sheet,
    Drawn, Figures, Number,
};
pub use neighbour::NeighbourSetting;
pub use permutation::Permutation;
pub use refusal::Refusal;
pub use setting::{Entry, Setting};

/// The most places.
pub const MAX_PLACES: usize = 1024;
/// The widest block, in bytes.
pub const MAX_WIDTH: usize = 256;
/// The switches of the most places.
pub const MAX_SWITCHES: usize = 9217;
/// The entries that [`control_bits`] logs for the most places.
pub const MAX_ENTRIES: usize = 16381;
/// The bytes of the longest sheet.
pub const MAX_SHEET: usize = 1320;
/// The most places whose orders are listed: by [`ranked_order`] and [`Permutation::ranked`].
pub const MAX_LISTED: usize = 6;
