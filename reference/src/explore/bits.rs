//! Where a line's bit is set, told by the machine's marks and by the cache's.

use super::check::{ensure, Finding};
use super::count::set_lines;
use crate::board::{Board, Phase};
use crate::line::{line_of, mark_at};
use crate::machine::Machine;

/// While no cut fell since the last taken start: none in a format or recovery; when running, of the marked cells.
pub fn check(board: &Board, machine: &Machine, cut: bool) -> Finding {
    let set = set_lines(&board.state);
    match board.state.phase {
        _ if cut => Ok(()),
        Phase::Running => of_marked_lines(&set, board, machine),
        _ => ensure(set.is_empty(), || format!("the bits of {set:?} are set in {:?}", board.state.phase)),
    }
}

/// Up to the release the lines with a marked cell; up to the epoch's store those with a mark that is the cache's epoch.
fn of_marked_lines(set: &[usize], board: &Board, machine: &Machine) -> Finding {
    let lines = (1..).zip(machine.marked_lines()).filter(|(_, marked)| *marked);
    let told: Vec<usize> = lines.map(|(line, _)| line).collect();
    ensure(set == told, || format!("the bits of {set:?} are set, the machine has marked cells in {told:?}"))?;
    if board.state.requested && usize::from(board.state.place) > set.len() {
        return Ok(());
    }
    let at_epoch = |cell: &usize| board.cache[mark_at(*cell)] == board.cache[0];
    let cells: Vec<usize> = (0..machine.values.len()).filter(at_epoch).collect();
    let mut told: Vec<usize> = cells.iter().map(|cell| line_of(*cell)).collect();
    told.dedup();
    ensure(set == told, || format!("the bits of {set:?} are set, marks at the epoch are in {told:?}"))?;
    let marked: Vec<usize> = (0..machine.values.len()).filter(|cell| machine.values[*cell].marked).collect();
    ensure(cells == marked, || format!("marks at the epoch are of {cells:?}, the machine's of {marked:?}"))
}
