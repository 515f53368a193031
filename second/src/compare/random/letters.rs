//! Small damages: hex digits in small letters, bytes beside the digits, and texts of
//! which one byte is spoiled.

use super::dice::Dice;

/// A byte beside 0 to 9, A to F or a to f, each in its turn.
pub fn beside(dice: &mut Dice, deck: &str) -> u8 {
    dice.turn(&format!("beside, {deck}"), b"/:@G`g")
}

/// An own type that is there in either case.
pub fn cased_type(dice: &mut Dice, deck: &str) -> u8 {
    dice.turn(deck, b"CDEUcdeu")
}

/// A letter in the other case.
pub fn other_case(letter: u8) -> u8 {
    letter ^ 0x20
}

/// Leaves hex digits in capitals, or makes all or some of them small letters. Request 4:
/// "A meter vendor writes hex digits a to f in lower case."
pub fn letter(dice: &mut Dice, digits: &mut [u8]) {
    let share = dice.turn("letters", &[0, 0, 100, 100, 50]);
    for digit in digits.iter_mut().filter(|digit| digit.is_ascii_hexdigit()) {
        if dice.chance(share) {
            digit.make_ascii_lowercase();
        }
    }
}

/// Spoils one byte: it is gone or there twice, one up or down, below 05H, or a byte beside
/// the digits, which a spoiled digit always is.
pub fn spoil(dice: &mut Dice, deck: &str, bytes: &mut Vec<u8>) {
    let ways = ["gone", "gone", "twice", "up", "down", "low", "beside"];
    let way = match deck.ends_with("digit") {
        true => "beside",
        false => dice.turn(&format!("spoiled, {deck}"), &ways),
    };
    let place = dice.within("place", 0..=bytes.len() as i32 - 1) as usize;
    let Some(&byte) = bytes.get(place) else {
        return;
    };
    let other = match way {
        "up" => byte.wrapping_add(1),
        "down" => byte.wrapping_sub(1),
        "low" => dice.within("low byte", 0..=4) as u8,
        _ => beside(dice, deck),
    };
    match way {
        "gone" => bytes.splice(place..=place, []).for_each(drop),
        "twice" => bytes.insert(place, byte),
        _ => bytes[place] = other,
    }
}
