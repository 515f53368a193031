//! The sign layer: a board, what a frame does to it, and what it replies.

pub mod commands;
pub mod configuration;
pub mod files;
pub mod first_start;
pub mod fresh;
pub mod index;
pub mod port;
pub mod record;
pub mod register;
pub mod reply;
pub mod run;
pub mod settings;
pub mod soundness;
pub mod special;
pub mod unused;

use self::settings::Settings;

/// A board, sound or not: the settings and the memory that it is lent.
#[derive(Clone, Debug, Default, PartialEq, Eq)]
pub struct Board {
    pub settings: Settings,
    pub memory: Vec<u8>,
}
