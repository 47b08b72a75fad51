//! Records and rows that no call would make: every call ends and answers as the table says.
#![deny(warnings)]

use reference::board::Board;
use reference::call::Call;
use reference::damage::Damage;
use reference::explore::answered;
use reference::explore::check::Checks;
use reference::fault::Fault;
use reference::program::answer;
use reference::record::FIELDS;

/// A board after these lines, blanks for tabs.
fn board(script: &str) -> Board {
    let mut board = Board::empty(None);
    for line in script.lines() {
        answer::<Fault>(&mut board, line.replace(' ', "\t").as_bytes()).unwrap();
    }
    board
}

/// Every call, with arguments within their limits and far past them.
fn calls() -> Vec<Call> {
    let numbers = [0, 1, 2, 3, 7, 8, 255, 256, 1023, 65_535, 65_536, u64::MAX];
    let mut calls = vec![Call::Recovery, Call::Step, Call::Request, Call::Count];
    for a in numbers {
        calls.extend([Call::Advance { worker: a }, Call::WriteBack { line: a }, Call::Read { cell: a }]);
        calls.push(Call::RestartPoint { worker: a, value: 5 });
        calls.extend([Call::GoAway { worker: a }, Call::ComeBack { worker: a }]);
        for lock in [0, 3, 15, 16, u64::MAX] {
            calls.extend([Call::Take { worker: a, lock }, Call::GiveBack { worker: a, lock }]);
        }
        for b in [0, 1, 3, 255, 65_535, u64::MAX] {
            calls.push(Call::Format { lines: a, workers: b });
            calls.push(Call::Update { worker: b, cell: a, value: 5 });
        }
    }
    calls.extend([0, 1, 68, 203, 204, 205, 339, 340, 69_563, 69_564, 69_700].map(|room| Call::Page { room }));
    calls
}

/// Every call on a copy of the board, held to the table and the rules once more.
fn try_all(board: &Board, calls: &[Call]) {
    for call in calls {
        let mut after = board.clone();
        let answer = after.perform(call);
        let held = answered(Checks { only: None }, call, board, &after, answer);
        assert!(held.is_ok(), "{held:?}, {:?}", board.state);
    }
}

/// Boards that are sound, in every phase.
fn sound_boards() -> Vec<Board> {
    let scripts = [
        "T",
        "F 1 1",
        "F 2 3\nH 0 3\nU 0 3 7\nA 0\nA 0\nP 1 4\nH 2 15",
        "F 2 3\nH 0 3\nU 0 3 7\nA 0\nA 0\nC\nO 3 8\nK 0 1 0 0 0\nK 1 1 0 0 0\nK 2 1 0 0 0",
        "F 4 8\nf 4 8\nS\nS",
        "F 2 2\nM 10 1\nM 13 1\nR\nS",
        "F 511 8",
        "F 2 3\nH 0 3\nU 0 3 7\nA 0\nA 0\nA 0\nV 0 3\na 0\na 2\nC\nP 1 4\nA 1\nA 1\nA 1\nS",
    ];
    scripts.map(board).into()
}

/// Every damage of one place with a number at an end of its range or about a limit.
fn damages() -> Vec<Damage> {
    let mut damages = Vec::new();
    let numbers = [0, 1, 2, 3, 4, 5, 8, 9, 254, 255, 510, 511, 512, 1022, 1023, 1024, 32_768, 65_534, 65_535];
    for k in FIELDS {
        damages.extend(numbers.map(|number| Damage::Field { k, number }));
    }
    for worker in [0, 1, 7] {
        damages.extend([1, 3].map(|condition| Damage::Worker { worker, numbers: [condition, 0, 0, 0] }));
        for (next, cell) in [(0, 0), (1, 1), (2, 3), (0, 1022), (1, 65_535), (2, 65_535), (1, 2)] {
            damages.push(Damage::Worker { worker, numbers: [2, next, cell, u64::MAX] });
        }
    }
    for length in [0, 1, 7, 8, 15, 16, 17, 24, 40, 4095, 4096, 4104] {
        damages.push(Damage::Lengths { memory: length, cache: length });
        damages.push(Damage::Lengths { memory: length, cache: 16 });
        damages.push(Damage::Lengths { memory: 24, cache: length });
    }
    for word in [0, 1, 255, 256, 65_536, u64::MAX] {
        damages.extend((0..8).chain([10, 13]).map(|at| Damage::Memory { at, word }));
        damages.push(Damage::Cache { at: 0, word });
        damages.push(Damage::Cache { at: 10, word });
    }
    for word in [0, 1, 2, 4, 6, 8, 16, 1 << 63, u64::MAX - 1, u64::MAX] {
        damages.extend([0, 1, 7].map(|at| Damage::Bits { at, word }));
    }
    for holder in [0, 1, 3, 8] {
        damages.extend([3, 15].map(|lock| Damage::Holder { lock, holder }));
    }
    damages
}

#[test]
fn one_place_damaged() {
    let calls = calls();
    for sound in sound_boards() {
        for damage in damages() {
            let mut board = sound.clone();
            if damage.apply(&mut board).is_ok() {
                try_all(&board, &calls);
            }
        }
    }
}

#[test]
fn two_places_damaged() {
    let calls = [
        Call::Step,
        Call::Advance { worker: 0 },
        Call::Advance { worker: 7 },
        Call::Update { worker: 0, cell: 3, value: 1 },
        Call::RestartPoint { worker: 1, value: 1 },
        Call::Request,
        Call::WriteBack { line: 2 },
        Call::Read { cell: 3 },
        Call::Page { room: 340 },
        Call::Count,
        Call::GoAway { worker: 0 },
        Call::ComeBack { worker: 0 },
        Call::ComeBack { worker: 7 },
        Call::Take { worker: 0, lock: 15 },
        Call::GiveBack { worker: 0, lock: 3 },
        Call::Recovery,
        Call::Format { lines: 2, workers: 3 },
    ];
    let damages = damages();
    let boards = sound_boards();
    for sound in boards[1..4].iter().chain(&boards[7..]) {
        for first in &damages {
            let mut once = sound.clone();
            let _ = first.apply(&mut once);
            for second in &damages {
                let mut board = once.clone();
                let _ = second.apply(&mut board);
                try_all(&board, &calls);
            }
        }
    }
}

#[test]
fn a_record_of_nothing_but_the_largest_numbers() {
    let mut lines = String::from("W 4104 4104\nB 1 65535\nB 2 255\nB 4 65535\nB 5 2\nB 6 1\n");
    (0..8).for_each(|at| lines.push_str(&format!("Q {at} 18446744073709551615\n")));
    (0..8).for_each(|worker| lines.push_str(&format!("K {worker} 2 2 65535 18446744073709551615\n")));
    for phase in 0..4 {
        let full = board(&format!("{lines}B 0 {phase}"));
        try_all(&full, &calls());
        assert_eq!(full.cause(&Call::Step), if phase == 0 { 2 } else { 3 });
        assert_eq!(full.cause(&Call::Recovery), 4);
    }
}

#[test]
fn every_damage_is_repaired() {
    for sound in sound_boards() {
        for damage in damages() {
            let shortens = matches!(damage, Damage::Lengths { .. });
            let mut board = sound.clone();
            let repair = damage.repair(&board);
            if damage.apply(&mut board).is_ok() && !shortens {
                repair.apply(&mut board).unwrap();
                assert_eq!(board, sound, "{damage:?}");
            }
        }
    }
}
