//! Pseudo-random numbers (splitmix64), the same from the same seed on every
//! machine, and what is drawn with them: chances, numbers at the ends of their
//! ranges and just outside, and decks that give each card its share.

use std::collections::BTreeMap;
use std::ops::RangeInclusive;

const STEP: u64 = 0x9E37_79B9_7F4A_7C15;
const FIRST_FACTOR: u64 = 0xBF58_476D_1CE4_E5B9;
const SECOND_FACTOR: u64 = 0x94D0_49BB_1331_11EB;

pub struct Dice {
    state: u64,
    /// What is drawn now: each sort of case has decks of its own, so that no other takes
    /// its cards.
    pub scope: &'static str,
    /// The places that are still to be dealt of each deck, by its name and its length.
    decks: BTreeMap<(String, usize), Vec<usize>>,
}

impl Dice {
    pub fn new(seed: u64) -> Dice {
        Dice {
            state: seed,
            scope: "",
            decks: BTreeMap::new(),
        }
    }

    fn next(&mut self) -> u64 {
        self.state = self.state.wrapping_add(STEP);
        let mut mixed = self.state;
        mixed = (mixed ^ (mixed >> 30)).wrapping_mul(FIRST_FACTOR);
        mixed = (mixed ^ (mixed >> 27)).wrapping_mul(SECOND_FACTOR);
        mixed ^ (mixed >> 31)
    }

    /// A number below the bound; 0 where the bound is 0.
    pub fn below(&mut self, bound: usize) -> usize {
        match bound {
            0 => 0,
            _ => (self.next() % bound as u64) as usize,
        }
    }

    /// A number from `low` to `high`, both counted; `low` where there is none.
    pub fn between(&mut self, low: usize, high: usize) -> usize {
        low + self.below((high + 1).saturating_sub(low))
    }

    /// The same of signed numbers.
    fn signed(&mut self, low: i32, high: i32) -> i32 {
        low + self.below((high - low + 1).max(0) as usize) as i32
    }

    /// A byte from `low` to `high`, both counted.
    pub fn byte(&mut self, low: u8, high: u8) -> u8 {
        self.between(low.into(), high.into()) as u8
    }

    pub fn bytes(&mut self, length: usize, low: u8, high: u8) -> Vec<u8> {
        (0..length).map(|_| self.byte(low, high)).collect()
    }

    /// True in so many of a hundred throws.
    pub fn chance(&mut self, percent: usize) -> bool {
        self.below(100) < percent
    }

    /// One of some choices, of which there must be one at least.
    pub fn one_of<T: Copy>(&mut self, choices: &[T]) -> T {
        choices[self.below(choices.len())]
    }

    /// One of a list that may be empty.
    pub fn any<T: Clone>(&mut self, list: &[T]) -> Option<T> {
        list.get(self.below(list.len())).cloned()
    }

    /// A card of the table. The deck of this name holds each card as often as its
    /// weight says, is shuffled and dealt to its end, and is then taken up anew: so
    /// each card has its share whatever the seed.
    pub fn dealt<T: Copy>(&mut self, deck: &str, table: &[(usize, T)]) -> T {
        let deck = (format!("{}: {deck}", self.scope), table.len());
        let mut places = self.decks.remove(&deck).unwrap_or_default();
        if places.is_empty() {
            places = self.shuffled(table);
        }
        let place = places.pop().unwrap_or(0);
        self.decks.insert(deck, places);
        table[place].1
    }

    fn shuffled<T>(&mut self, table: &[(usize, T)]) -> Vec<usize> {
        let cards = table.iter().enumerate();
        let mut places: Vec<usize> = cards
            .flat_map(|(place, (weight, _))| vec![place; *weight])
            .collect();
        for last in (1..places.len()).rev() {
            places.swap(last, self.between(0, last));
        }
        places
    }

    /// One of the choices, each in its turn.
    pub fn turn<T: Copy>(&mut self, deck: &str, choices: &[T]) -> T {
        let table: Vec<(usize, T)> = choices.iter().map(|&choice| (1, choice)).collect();
        self.dealt(deck, &table)
    }

    /// One of the sorts of a deck that is told as "name: 2 sort, 1 other sort".
    pub fn sort(&mut self, deck: &'static str) -> &'static str {
        self.dealt(deck, &sorts(deck))
    }

    /// One of the texts of a deck that is told as "text|other text", each in its turn.
    pub fn text(&mut self, deck: &'static str) -> Vec<u8> {
        let texts: Vec<&str> = deck.split('|').collect();
        self.turn(deck, &texts).as_bytes().to_vec()
    }

    /// The damages that a case gets, of the sorts of a deck: of 16 cases so many have
    /// none, and so many have two, each two sorts in their turn but those of weight 1.
    pub fn damages(&mut self, none: usize, two: usize, deck: &'static str) -> Vec<&'static str> {
        let mut sorts = sorts(deck);
        sorts.retain(|(weight, _)| *weight > 1);
        let with_later = |(place, one): (usize, &(usize, &'static str))| {
            let (one, later) = (one.1, sorts[place + 1..].iter());
            later.map(move |other| [one, other.1]).collect::<Vec<_>>()
        };
        let pairs: Vec<_> = sorts.iter().enumerate().flat_map(with_later).collect();
        match self.dealt(
            &format!("how many, {deck}"),
            &[(none, 0), (16 - none - two, 1), (two, 2)],
        ) {
            0 => Vec::new(),
            1 => vec![self.sort(deck)],
            _ => self.turn(&format!("two, {deck}"), &pairs).to_vec(),
        }
    }

    /// A number of the range, at either end of it in half of the draws.
    pub fn within(&mut self, deck: &str, range: RangeInclusive<i32>) -> i32 {
        let (low, high) = range.into_inner();
        let any = self.signed(low, high);
        self.turn(&format!("in {deck}"), &[low, high, any, any])
    }

    /// A number of `all` that is not in the range: next to an end of the range, at
    /// an end of `all`, or any.
    pub fn outside(
        &mut self,
        deck: &str,
        range: RangeInclusive<i32>,
        all: RangeInclusive<i32>,
    ) -> i32 {
        let (low, high) = (*range.start(), *range.end());
        let (least, most) = (*all.start(), *all.end());
        let (below, above) = (self.signed(least, low - 1), self.signed(high + 1, most));
        let mut choices = vec![low - 1, high + 1, low - 1, high + 1];
        choices.extend([least, most, below, above]);
        choices.retain(|number| all.contains(number) && !range.contains(number));
        self.turn(&format!("out of {deck}"), &choices)
    }
}

/// The sorts of a deck with their weights.
fn sorts(deck: &'static str) -> Vec<(usize, &'static str)> {
    let (_, sorts) = deck.split_once(": ").unwrap_or_default();
    let parts = sorts.split(", ").filter_map(|sort| sort.split_once(' '));
    parts
        .filter_map(|(weight, name)| Some((weight.parse().ok()?, name)))
        .collect()
}
