//! Pages: boards whose marks and values are worth one, and text rows about the bytes that it needs.

use super::Script;
use crate::call::Call;
use crate::damage::Damage;
use crate::fault::MOST_ROOM;
use crate::line::{mark_at, record_at};
use crate::page::page_bytes;
use crate::say::line;

/// How the marks of a board are put.
#[derive(Clone, Copy)]
enum Marks {
    Equal(u64),
    Rising(u64),
    Any,
    Last,
}

impl Script {
    /// The bytes that a page of this board needs, of those that a text row may have.
    fn need(&self) -> u64 {
        page_bytes(self.lines()).min(MOST_ROOM)
    }

    /// A text row that is long enough: by nothing, by a byte or by much.
    pub(super) fn enough(&self) -> u64 {
        let need = self.need();
        let more = self.random.pick(&[need + 1, need + 67, need + 68, need + self.random.below(3000), MOST_ROOM]);
        self.random.pick(&[need, need, need, more]).min(MOST_ROOM)
    }

    /// A text row that is too short: by a byte, by a line or by all.
    pub(super) fn too_short(&self) -> u64 {
        let need = self.need();
        let fewer = self.random.pick(&[0, 1, 67, 68, need - 68, self.random.below(need)]);
        self.random.pick(&[need - 1, need - 1, fewer])
    }

    /// A page in a text row about the bytes that it needs.
    pub(super) fn page(&mut self) {
        let room = self.random.pick(&[self.enough(), self.enough(), self.too_short()]);
        self.call(Call::Page { room });
    }

    /// Marks and values put into the cache, then pages, some after a call or a damage more.
    pub(super) fn pages(&mut self) {
        self.ground(0);
        self.put_marks();
        self.page();
        for _ in 0..self.random.below(4) {
            match self.random.below(6) {
                5 => self.no_row_fits(),
                0 => self.odd_damage(),
                1 => self.any_call(),
                2 => self.page_of_another_form(),
                _ => self.put_value(self.random.below(self.cells().max(1))),
            }
            self.page();
        }
    }

    /// Rows that do not fit, and a text row that is too short as well, until the rows are put right.
    fn no_row_fits(&mut self) {
        let damage = self.lengths_fault();
        let repair = damage.repair(&self.board);
        self.damage(damage);
        self.call(Call::Page { room: self.too_short() });
        self.damage(repair);
    }

    /// A page that the board takes, of marks put there or as they are.
    pub(super) fn prepare_page(&mut self) -> Call {
        if self.random.chance(1, 3) {
            self.put_marks();
        }
        Call::Page { room: self.enough() }
    }

    /// Equal, rising, random or the last marks, of all cells or of some, and a value of some.
    fn put_marks(&mut self) {
        let marks = match self.random.below(4) {
            0 => Marks::Equal(self.random.pick(&[0, 1, self.random.digits()])),
            1 => Marks::Rising(self.random.pick(&[0, 9, self.random.digits() / 2])),
            2 => Marks::Last,
            _ => Marks::Any,
        };
        let cells = self.cells();
        let most = self.random.pick(&[2, 6, 12]).min(cells);
        let first = self.random.below(cells - most + 1);
        for cell in first..first + most {
            let word = match marks {
                Marks::Equal(mark) => mark,
                Marks::Rising(mark) => mark + cell,
                Marks::Any => self.random.pick(&[self.random.digits(), self.random.below(3)]),
                Marks::Last => self.random.pick(&[u64::MAX, u64::MAX, u64::MAX - 1, 1 << 63, 0]),
            };
            self.damage(Damage::Cache { at: mark_at(cell as usize) as u64, word });
            if self.random.chance(1, 3) {
                self.put_value(cell);
            }
        }
    }

    /// A record or a backup of 1 to 20 digits.
    fn put_value(&mut self, cell: u64) {
        let at = record_at(cell as usize) as u64 + self.random.below(2);
        self.damage(Damage::Cache { at, word: self.random.digits() });
    }

    /// A `p` with no room, with two, or with one over the most; seldom with the most itself.
    pub(super) fn page_of_another_form(&mut self) {
        let past = MOST_ROOM + self.random.pick(&[1, 1, 2, 65_536, 1 << 32, u64::MAX - MOST_ROOM]);
        let room = self.enough();
        let text = match self.random.below(8) {
            0 | 1 => line('p', &[]),
            2 | 3 => line('p', &[room, self.random.below(2)]),
            4 => line('p', &[MOST_ROOM]),
            _ => line('p', &[past]),
        };
        self.put(text);
    }
}
