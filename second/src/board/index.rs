//! Request 7: the index, kept in the settings record. "Keep, for each label 20H
//! to 7EH, where its record begins or that there is none, and answer from that."

/// "for each label 20H to 7EH": "0" and "?" have an entry too, though they are
/// no file's label.
pub const FIRST_LABEL: u8 = 0x20;
pub const LAST_LABEL: u8 = 0x7E;
/// How many labels that are.
pub const LABELS: usize = 95;
/// The entry that tells "that there is none". No record begins there, since
/// memory ends long before.
pub const NO_PLACE: u16 = 0xFFFF;

/// Where a record begins: its file's label and the place of its first byte in
/// memory.
#[derive(Clone, Copy, Debug, PartialEq, Eq)]
pub struct Begin {
    pub label: u8,
    pub place: usize,
}

/// An entry for each label, in the order of the labels: a place in memory, or
/// [`NO_PLACE`].
#[derive(Clone, Copy, Debug, PartialEq, Eq)]
pub struct Index {
    pub entries: [u16; LABELS],
}

/// "settings from 10 or 11 all zero", literally: every entry names place 0.
impl Default for Index {
    fn default() -> Index {
        Index {
            entries: [0; LABELS],
        }
    }
}

impl Index {
    /// The index of a board without files.
    pub fn empty() -> Index {
        Index {
            entries: [NO_PLACE; LABELS],
        }
    }

    /// The index of files that begin so, each with a label of its own.
    pub fn of(begins: &[Begin]) -> Index {
        begins.iter().fold(Index::empty(), |index, begin| {
            index.with(begin.label, entry_for(begin.place))
        })
    }

    /// The index with another entry for this label; the same where the byte is
    /// no label.
    pub fn with(mut self, label: u8, entry: u16) -> Index {
        if let Some(old) = at(label).and_then(|at| self.entries.get_mut(at)) {
            *old = entry;
        }
        self
    }

    /// The entry of this label; none where the byte is no label.
    pub fn entry(&self, label: u8) -> Option<u16> {
        self.entries.get(at(label)?).copied()
    }

    /// Where the record of this label begins; none where there is no such file.
    pub fn place_of(&self, label: u8) -> Option<usize> {
        self.entry(label)
            .filter(|&entry| entry != NO_PLACE)
            .map(usize::from)
    }

    /// Whether the index is true of files that begin so: the entry of each
    /// file's label is the place of that file's record, and the entry of each
    /// label that no file has is FFFFH. Two files of one label cannot both have
    /// their place there.
    pub fn is_true_of(&self, begins: &[Begin]) -> bool {
        let names_every_file = begins
            .iter()
            .all(|begin| self.place_of(begin.label) == Some(begin.place));
        let names_no_other = (FIRST_LABEL..=LAST_LABEL)
            .filter(|&label| begins.iter().all(|begin| begin.label != label))
            .all(|label| self.entry(label) == Some(NO_PLACE));
        names_every_file && names_no_other
    }
}

/// A place as an entry tells it. Every place of a board is below FFFFH.
fn entry_for(place: usize) -> u16 {
    u16::try_from(place).unwrap_or(NO_PLACE)
}

/// Where the entry of this label stands among the entries.
fn at(label: u8) -> Option<usize> {
    match label {
        FIRST_LABEL..=LAST_LABEL => Some(usize::from(label - FIRST_LABEL)),
        _ => None,
    }
}
