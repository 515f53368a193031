//! The comparison with another implementation: the case stream, and the cases.

pub mod answer;
pub mod parts;
pub mod random;
pub mod stored;
pub mod stream;
pub mod twelve;
