//! The invariant of the design page, checked field by field after every event.

use super::check::{ensure, Finding};
use super::count::set_lines;
use crate::board::{Board, Condition, Phase, State, Store, UndoStep};
use crate::line::{backup_at, line_words, mark_at, record_at};
use crate::machine::{Machine, Unfinished, Value};

/// Record, backup and mark of one cell in one row.
struct View {
    record: u64,
    backup: u64,
    mark: u64,
}

/// A cell as a row shows it.
fn view(row: &[u64], cell: usize) -> View {
    View { record: row[record_at(cell)], backup: row[backup_at(cell)], mark: row[mark_at(cell)] }
}

/// Undo m x v: "mark = m gives backup = x; mark ≠ m gives record = x; mark ≤ m"
fn undo(epoch: u64, value: u64, view: &View) -> bool {
    let undone = if view.mark == epoch { view.backup } else { view.record };
    undone == value && view.mark <= epoch
}

/// The whole invariant; after a cut only memory is looked at.
pub fn check(board: &Board, machine: &Machine, cut: bool) -> Finding {
    memory_undone(board, machine)?;
    if cut {
        return Ok(());
    }
    let formatting_now = board.state.phase == Phase::Formatting;
    ensure(formatting_now || board.memory[0] != 0, || "recovering or running without an epoch in memory".into())?;
    match board.state.phase {
        Phase::Off => Err("off without a cut".into()),
        Phase::Formatting => formatting(board, machine),
        Phase::Recovering => recovering(board, machine),
        Phase::Running => running(board, machine),
    }
}

/// "memory's epoch is 0, or every memory view is Undo (memory's epoch) (checkpointed c)"
fn memory_undone(board: &Board, machine: &Machine) -> Finding {
    row_undone("memory", &board.memory, board, machine, board.memory[0] == 0)
}

/// Every view of a row is Undo at memory's epoch.
fn row_undone(name: &str, row: &[u64], board: &Board, machine: &Machine, excused: bool) -> Finding {
    let holds = |cell: usize, value: &Value| undo(board.memory[0], value.checkpointed, &view(row, cell));
    let wrong = machine.values.iter().enumerate().find(|(cell, value)| !excused && !holds(*cell, value));
    ensure(wrong.is_none(), || format!("{name}: {wrong:?} is not undone to its checkpointed value"))
}

/// "once the place is past 0 memory's epoch is 0; lines under the place are zeros"
fn formatting(board: &Board, machine: &Machine) -> Finding {
    ensure(board.state.place <= board.state.lines + 1, || "formatting past the last line".into())?;
    let done = 0..line_words(board.state.place as usize).start;
    let zeros = |row: &[u64]| row[done.clone()].iter().all(|word| *word == 0);
    let counted = machine.steps == board.state.place as u64 && machine.formatting == Some(board.state.lines as u64);
    ensure(counted && !board.state.requested, || "formatting, and the machine counts otherwise".into())?;
    ensure(board.state.place == 0 || board.memory[0] == 0, || "formatting with an epoch in memory".into())?;
    ensure(zeros(&board.memory) && zeros(&board.cache), || "a formatted line is not zeros".into())
}

/// "Recovering: cells under the place ...; ahead ...; at the place, one fact by which of the three steps is next"
fn recovering(board: &Board, machine: &Machine) -> Finding {
    let (state, epoch) = (&board.state, board.memory[0]);
    ensure(board.cache[0] == epoch, || "recovering with another epoch in the cache".into())?;
    row_undone("cache", &board.cache, board, machine, false)?;
    ensure(idle(state, machine), || "recovering with work noted".into())?;
    let place = state.place as usize;
    for cell in 0..machine.values.len() {
        let (cache, memory) = (view(&board.cache, cell), view(&board.memory, cell));
        let ahead = memory.mark != epoch || cache.mark == epoch;
        let holds = match (cell.cmp(&place), state.undo) {
            (std::cmp::Ordering::Less, _) => cache.mark != epoch && memory.mark != epoch,
            (std::cmp::Ordering::Greater, _) | (_, UndoStep::Record) => ahead,
            (_, UndoStep::Mark) => cache.mark == epoch && cache.record == cache.backup,
            (_, UndoStep::WriteBack) => cache.mark != epoch,
        };
        ensure(holds, || format!("recovering cell {place} {:?}: cell {cell} is wrong", state.undo))?;
    }
    ensure(place < machine.values.len(), || "recovering past the last cell".into())
}

/// No bit, no request, no unfinished update on either side, and in the machine all as checkpointed.
fn idle(state: &State, machine: &Machine) -> bool {
    let restored = |value: &Value| value.current == value.checkpointed && !value.marked;
    set_lines(state).is_empty()
        && !(state.requested || machine.requested)
        && state.worker.iter().all(|condition| *condition == Condition::Free)
        && machine.updates == [None; 8]
        && machine.values.iter().all(restored)
}

/// "Running: every cache view is Undo at memory's epoch too ...; record = current", the stage and the workers.
fn running(board: &Board, machine: &Machine) -> Finding {
    row_undone("cache", &board.cache, board, machine, false)?;
    for (cell, value) in machine.values.iter().enumerate() {
        ensure(board.cache[record_at(cell)] == value.current, || format!("cell {cell}'s record is not current"))?;
    }
    let state = &board.state;
    let steps = if machine.requested { machine.steps } else { 0 };
    ensure(state.requested == machine.requested, || "the request stands on one side only".into())?;
    ensure(state.place as u64 == steps, || format!("place {} after {steps} steps", state.place))?;
    let set = set_lines(state);
    let (n, place) = (set.len(), state.place as usize);
    ensure(machine.marked_lines().filter(|marked| *marked).count() == n, || {
        "the count of set bits is not that of the lines with a marked cell".into()
    })?;
    ensure(place <= n + 2, || "the place is past the release".into())?;
    marks_follow(board, machine)?;
    if place <= n {
        early(board, machine, &set)?;
    } else if board.cache[0] != board.memory[0] {
        ensure(place == n + 1, || "line 0 is not in memory at the release".into())?;
        gap(board, machine)?;
    } else {
        late(board, machine)?;
    }
    workers(board, machine)
}

/// Not on the design page, and needed: a mark of the cache's epoch in memory is in the cache too.
fn marks_follow(board: &Board, machine: &Machine) -> Finding {
    let epoch = board.cache[0];
    let holds = |cell: usize| board.memory[mark_at(cell)] != epoch || board.cache[mark_at(cell)] == epoch;
    let wrong = (0..machine.values.len()).find(|cell| !holds(*cell));
    ensure(wrong.is_none(), || format!("cell {wrong:?} is marked in memory alone"))
}

/// "early (epochs equal; machine's marked = mark equals epoch; ...)", of lines in place of entries
fn early(board: &Board, machine: &Machine, set: &[usize]) -> Finding {
    ensure(board.cache[0] == board.memory[0], || "early, and the epochs differ".into())?;
    for (cell, value) in machine.values.iter().enumerate() {
        let marked = board.cache[mark_at(cell)] == board.cache[0];
        ensure(marked == value.marked, || format!("cell {cell} marked {marked}, in the machine {}", value.marked))?;
    }
    for (before, line) in set.iter().enumerate() {
        let mut cells = (2 * line).saturating_sub(2)..2 * line;
        let marked = cells.clone().any(|cell| machine.values.get(cell).is_some_and(|value| value.marked));
        ensure(marked, || format!("line {line} is set and none of its cells is marked"))?;
        let written = cells.all(|cell| board.cache[record_at(cell)] == board.memory[record_at(cell)]);
        ensure(before >= board.state.place as usize || written, || format!("line {line} is not in memory"))?;
    }
    Ok(())
}

/// "gap (cache's epoch one ahead, all records equal)", at the place of line 0's write-back
fn gap(board: &Board, machine: &Machine) -> Finding {
    ensure(board.memory[0].checked_add(1) == Some(board.cache[0]), || "the cache's epoch is not one ahead".into())?;
    let equal = |cell: usize| board.cache[record_at(cell)] == board.memory[record_at(cell)];
    let wrong = (0..machine.values.len()).find(|cell| !equal(*cell));
    ensure(wrong.is_none(), || format!("between the epochs cell {wrong:?} differs in memory"))
}

/// "late (epochs equal again, current = checkpointed, no mark equals the epoch)"
fn late(board: &Board, machine: &Machine) -> Finding {
    for (cell, value) in machine.values.iter().enumerate() {
        ensure(value.current == value.checkpointed, || format!("cell {cell} is late and not checkpointed"))?;
        ensure(board.cache[mark_at(cell)] != board.cache[0], || format!("cell {cell} is late and marked"))?;
    }
    Ok(())
}

/// "each unfinished update matches the machine's ...; two ... have two cells; once the place is past 0 ..."
fn workers(board: &Board, machine: &Machine) -> Finding {
    let active = board.state.active_workers();
    for (worker, condition) in active.iter().enumerate() {
        let noted = unfinished(condition);
        ensure(noted == machine.updates[worker], || {
            format!("worker {worker} has {noted:?}, not the machine's update")
        })?;
        let Condition::Updating(update) = condition else {
            continue;
        };
        let seen = view(&board.cache, update.cell as usize);
        let marked = seen.mark == board.cache[0];
        let holds = match update.next {
            Store::Backup => !marked,
            Store::Mark => !marked && seen.backup == seen.record,
            Store::Record => marked,
        };
        ensure(holds, || format!("worker {worker} before the store of {:?}: its cell is wrong", update.next))?;
        let twice = active[..worker].iter().filter_map(unfinished).any(|other| other.cell == update.cell as u64);
        ensure(!twice, || format!("worker {worker}'s cell is being updated twice"))?;
    }
    let waiting = active.iter().all(|condition| matches!(condition, Condition::Waiting | Condition::Away));
    ensure(board.state.place == 0 || waiting, || "a checkpoint under way and a worker not waiting".into())?;
    let requested = board.state.requested;
    ensure(requested || !active.contains(&Condition::Waiting), || "a worker waits for no request".into())
}

/// A worker's update as the machine would note it.
fn unfinished(condition: &Condition) -> Option<Unfinished> {
    let Condition::Updating(update) = condition else {
        return None;
    };
    let left = match update.next {
        Store::Backup => 3,
        Store::Mark => 2,
        Store::Record => 1,
    };
    Some(Unfinished { cell: update.cell as u64, value: update.value, left })
}
