//! The two surfaces, driven by the bytes of a fuzzer's input.
//!
//! What is under test comes in as a function, so that the fuzz targets and
//! the replay of the kept corpus run the very same comparison.

pub mod bytes;
pub mod calls;
#[path = "../../sheets/src/cards.rs"]
pub mod cards;
#[path = "../../compare/src/guarded.rs"]
pub mod guarded;
#[path = "../../sheets/src/pieces.rs"]
pub mod pieces;
#[path = "../../sheets/src/program.rs"]
pub mod program;
pub mod seen;
pub mod sheet;
#[path = "../../compare/src/slices.rs"]
pub mod slices;
