//! The frame layer: how a frame reads and how frames are written, re-formed and
//! joined. It knows nothing of boards.

pub mod body;
pub mod forms;
pub mod header;
pub mod joining;
pub mod lead;
pub mod reading;
pub mod reforming;
pub mod sum;
pub mod translation;
pub mod writing;
