//! Lines that print `?`, each kind by itself.

use super::Script;
use crate::bits::BIT_WORDS;
use crate::damage::ROOM_WORDS;
use crate::drill;
use crate::fault;
use crate::say::{line, spoil};
use crate::text::MOST_BYTES;

impl Script {
    /// One line that prints `?`, or in a few cases one that just does not.
    pub(super) fn another_form(&mut self) {
        let text = match self.random.below(18) {
            0 => Vec::new(),
            1 => self.long(),
            2 => self.unknown_letter(),
            3 | 4 => self.miscounted(),
            5 => self.past_word(),
            6 | 7 => self.no_such_place(),
            8 | 9 => self.too_large(),
            10 | 11 => self.past_row(),
            12 => self.no_room(),
            13 | 14 => self.unused(),
            15 => return self.page_of_another_form(),
            16 => return self.text_of_another_form(),
            _ => {
                let known = self.known();
                spoil(&self.random, known)
            }
        };
        self.put(text);
    }

    /// A letter of the program, and how many numbers it has.
    fn form(&self) -> (u8, usize) {
        let forms: Vec<(u8, usize)> = drill::FORMS.into_iter().chain(fault::FORMS).collect();
        self.random.pick(&forms)
    }

    /// A line of the right form with small numbers.
    fn known(&self) -> Vec<u8> {
        let (letter, count) = self.form();
        self.small(letter, count)
    }

    /// A letter with so many small numbers.
    fn small(&self, letter: u8, count: usize) -> Vec<u8> {
        let numbers: Vec<u64> = (0..count).map(|_| self.random.below(3)).collect();
        line(letter as char, &numbers)
    }

    /// A line about 79 bytes long, by zeros before its last number or by anything after it.
    fn long(&self) -> Vec<u8> {
        let mut text = self.known();
        let length = MOST_BYTES + 1 + self.random.pick(&[0, 0, 0, 1, 30, 200]) as usize;
        let at = text.iter().rposition(|byte| *byte == b'\t').map_or(text.len(), |tab| tab + 1);
        while text.len() < length {
            text.insert(at, b'0');
        }
        text
    }

    /// A letter that no line has today: one of a later ticket, of the other case, or of two bytes.
    fn unknown_letter(&self) -> Vec<u8> {
        let letter = self.random.pick(b"dvouxcsegrtwmqkLZ09?\xff");
        let mut text = self.small(letter, self.random.below(3) as usize);
        if self.random.chance(1, 4) {
            text.insert(1, self.form().0);
        }
        text
    }

    /// A field missing, or one too many; up to more than any line has.
    fn miscounted(&self) -> Vec<u8> {
        let (letter, count) = self.form();
        let fewer = count.saturating_sub(1 + self.random.below(2) as usize);
        let more = count + 1 + self.random.pick(&[0, 0, 1, 5]) as usize;
        let other = if count > 0 && self.random.chance(1, 2) { fewer } else { more };
        self.small(letter, other)
    }

    /// A number past 2^64 − 1 in one of a line's fields.
    fn past_word(&self) -> Vec<u8> {
        let (letter, count) = self.form();
        let past = self.random.pick(&["18446744073709551616", "18446744073709551617", "36893488147419103232"]);
        let mut fields = vec!["0".to_string(); count.max(1)];
        let at = self.random.below(fields.len() as u64) as usize;
        fields[at] = past.into();
        format!("{}\t{}", letter as char, fields.join("\t")).into_bytes()
    }

    /// A field of the record that is no more or past the last, a worker past the eighth, a condition past the fourth, a
    /// lock past the sixteenth.
    fn no_such_place(&self) -> Vec<u8> {
        let past = self.random.pick(&[0, 0, 1, 249, 250, 65_536, u64::MAX - 9]);
        match self.random.below(5) {
            4 => line('O', &[16 + past, self.random.below(9)]),
            0 => line('B', &[7 + past, self.random.below(2)]),
            3 => line('B', &[3, self.random.pick(&[0, 1, self.n(), 65_535])]),
            1 => line('K', &[8 + past, self.random.below(2), 0, 0, 0]),
            _ => line('K', &[self.random.below(8), 4 + past, 0, 0, 0]),
        }
    }

    /// A number that its field is too narrow for.
    fn too_large(&self) -> Vec<u8> {
        let past = self.random.pick(&[0, 0, 1, 65_536, 1 << 32, u64::MAX - 65_536]);
        let (k, limit) = self.random.pick(&[(0, 4), (1, 65_536), (2, 256), (4, 65_536), (5, 3), (6, 2)]);
        match self.random.below(10) {
            8 | 9 => line('O', &[self.random.below(16), 9 + past]),
            0..=5 => line('B', &[k, limit + past]),
            6 => line('K', &[self.random.below(8), 2, 3 + past, 0, self.word()]),
            _ => line('K', &[self.random.below(8), 2, self.random.below(3), 65_536 + past, self.word()]),
        }
    }

    /// An index at a row's length or past it, or past the eighth word of bits.
    fn past_row(&self) -> Vec<u8> {
        let board = &self.board;
        let rows = [('M', board.memory.len()), ('N', board.cache.len()), ('Q', BIT_WORDS)];
        let (letter, length) = self.random.pick(&rows);
        let past = self.random.pick(&[0, 0, 0, 1, ROOM_WORDS, 65_536, 1 << 32, u64::MAX - ROOM_WORDS]);
        line(letter, &[length as u64 + past, self.random.below(2)])
    }

    /// A row longer than its room, the other as it is or in its room.
    fn no_room(&self) -> Vec<u8> {
        let board = &self.board;
        let lengths = [board.memory.len(), board.cache.len()].map(|length| length as u64);
        let mut lengths = self.random.pick(&[lengths, [0, 0], [16, 16]]);
        let at = self.random.below(2) as usize;
        lengths[at] = ROOM_WORDS + self.random.pick(&[1, 1, 2, 65_536, 1 << 32, u64::MAX - ROOM_WORDS]);
        line('W', &lengths)
    }

    /// A free or waiting worker, or one that is away, with a number other than 0 that it has no use for.
    fn unused(&self) -> Vec<u8> {
        let mut numbers = [self.random.below(8), self.random.pick(&[0, 1, 3]), 0, 0, 0];
        numbers[2 + self.random.below(3) as usize] = self.random.pick(&[1, 2, 65_536, u64::MAX]);
        line('K', &numbers)
    }
}
