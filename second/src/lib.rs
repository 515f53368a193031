//! A second implementation of the sign board of document 01 and of requests 1,
//! 3, 4, 6, 7, 9, 10 and 11 of document 02, written from these documents alone, to be
//! compared case by case with another one.
//!
//! [`frame`] reads, writes, re-forms and joins frames; [`board`] runs them; [`dates`]
//! and [`temperature`] reckon by themselves. [`compare`] is the stream and its cases.
#![forbid(unsafe_code)]

pub mod board;
pub mod bytes;
pub mod compare;
pub mod dates;
pub mod frame;
pub mod hex;
pub mod numbers;
pub mod temperature;
