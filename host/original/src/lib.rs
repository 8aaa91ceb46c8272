//! The original's edits, shifts and selections, to be run beside the core.
//!
//! The files in `carried/` are those of the repository kryptic-sh/hjkl at commit 87431d70aa, byte for byte (MIT licence; the
//! text stands in NOTICE). What they lean on is not at hand: `ropey`, `Position`, the `Buffer` struct and `unicode_width`. The other
//! files stand in for these by document 01's rules.

// The carried files name the crates that they were part of or leaned on.
extern crate self as hjkl_buffer;
extern crate self as ropey;
extern crate self as unicode_width;

mod buffer;
mod position;
mod rope;
mod view;
mod width;

#[rustfmt::skip]
#[allow(warnings, clippy::all)]
#[path = "carried/edit.rs"]
mod edit;
#[rustfmt::skip]
#[allow(warnings, clippy::all)]
#[path = "carried/geom.rs"]
mod geom;
#[rustfmt::skip]
#[allow(warnings, clippy::all)]
#[path = "carried/selection.rs"]
mod selection;
#[rustfmt::skip]
#[allow(warnings, clippy::all)]
#[path = "carried/selection_shift.rs"]
mod selection_shift;

pub use edit::{Edit, MotionKind};
pub use position::Position;
pub use rope::Rope;
pub use selection::{RowSpan, Selection};
pub use selection_shift::{Sel, merge_overlapping, shift_position, shift_sel};
pub use view::View;
pub use width::UnicodeWidthChar;
