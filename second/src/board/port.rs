//! The port driver's call, request 10: "Parity, framing and time-out bits come
//! from the port driver through a call".

use super::register::is_register;
use super::settings::Settings;
use crate::numbers::{Number, NOT_SOUND};

/// Notes the errors of the port in the register. "1 for a register whose fixed
/// bits are not as the table has them": the settings then stay as they were.
/// Nothing else of the settings is looked at.
pub fn port_errors(settings: &mut Settings, bits: u8) -> Result<(), Number> {
    if !is_register(settings.register) {
        return Err(NOT_SOUND);
    }
    *settings = settings.with_port_errors(bits);
    Ok(())
}
