//! The core beside the original and document 01: the same input to both, and all that comes of it compared.
//!
//! `law` says what document 01 and the original make of a call, `widths` which characters are wide and `told` what a caller is told, `lend` and `guard` lend its slices
//! to the core and look them over afterwards, `small`, `cases`, `limits`, `bruises` and `damage` make the input, `met` counts what runs have met, and `groups` runs it all.

pub mod boxes;
pub mod bridge;
pub mod bruises;
pub mod calls;
pub mod cases;
pub mod cursors;
pub mod damage;
pub mod edits;
pub mod ends;
pub mod forms;
pub mod framed;
pub mod frames;
pub mod groups;
pub mod guard;
pub mod law;
pub mod lend;
pub mod letters;
pub mod limits;
pub mod merges;
pub mod met;
pub mod places;
pub mod random;
pub mod reads;
pub mod runs;
pub mod sample;
pub mod scripts;
pub mod shifts;
pub mod small;
pub mod spans;
pub mod tally;
pub mod told;
pub mod utf8;
pub mod widths;
pub mod work;
