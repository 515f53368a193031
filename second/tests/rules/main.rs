//! What the documents say, of the second implementation.

mod calendar;
mod laws;
mod stored;
mod stream;
mod twelve;
