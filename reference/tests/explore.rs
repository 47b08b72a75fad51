//! The right board passes, and the exploration gets everywhere.
#![deny(warnings)]

use reference::drill;
use reference::explore::{exhaustive, explore, Options, Tally};
use reference::script::script;

#[test]
fn random_sequences_hold() {
    for seed in 0..4 {
        let tally = explore(&Options { seed, calls: 300_000, mistake: None, only: None }).expect("nothing is violated");
        assert!(tally.calls >= 300_000, "the last sequence's format is finished: {tally}");
        assert!(tally.answers.iter().all(|count| *count > 20), "every cause is met: {tally}");
        assert!(
            tally.recoveries > 1000 && tally.checkpoints > 1000 && tally.formats > 500 && tally.cuts > 1000,
            "{tally}"
        );
        assert!(tally.pages > 2000, "{tally}");
        assert!(tally.from_recovery > 400 && tally.sequences - tally.from_recovery > 400, "{tally}");
        assert_eq!(tally.foreign[0], tally.from_recovery, "{tally}");
        assert!([4, 5, 14].iter().all(|number| tally.foreign[*number] > 20), "{tally}");
        assert!(tally.marked > 100 && tally.edges.iter().all(|count| *count > 20), "{tally}");
        assert!(tally.pairs.iter().all(|count| *count > 500), "{tally}");
        let present = tally.checkpoints - tally.some_away - tally.all_away;
        assert!(present > 1000 && tally.some_away > 300 && tally.all_away > 300, "{tally}");
        assert!([0, 2, 3, 4, 6, 8].iter().all(|number| tally.going_away[*number] > 20), "{tally}");
        assert!([0, 2, 3, 4, 6, 8, 13].iter().all(|number| tally.coming_back[*number] > 20), "{tally}");
        assert!([0, 2, 3, 4].iter().all(|number| tally.counts[*number] > 100), "{tally}");
        locks_are_met(&tally);
        assert!(tally.foretold > 1000 && tally.in_pairs > 300, "{tally}");
        assert!(tally.in_words > 10 && tally.in_eighth > 0, "{tally}");
        assert!([0, 12, 20].iter().all(|number| tally.written[*number] > 100), "{tally}");
        assert!([0, 19, 20].iter().all(|number| tally.read[*number] > 100), "{tally}");
    }
}

/// Locks taken, given back and refused by each cause, updates under them, and starts on any board followed.
fn locks_are_met(tally: &Tally) {
    assert!([0, 2, 3, 4, 6, 8, 15, 16].iter().all(|number| tally.takes[*number] > 20), "{tally}");
    assert!([0, 2, 3, 4, 6, 8, 15, 16].iter().all(|number| tally.gives[*number] > 20), "{tally}");
    assert!([0, 2, 3, 4, 6, 7, 8, 16].iter().all(|number| tally.updates[*number] > 20), "{tally}");
    assert!([0, 2, 3, 4, 6, 8, 16].iter().all(|number| tally.restart_points[*number] > 20), "{tally}");
    assert!(tally.going_away[16] > 20 && tally.updates[9] > 5 && tally.restart_points[9] > 5, "{tally}");
    assert!(tally.updates[0] > 5000 && tally.takes[0] > 5000 && tally.gives[0] > 5000, "{tally}");
    assert!(tally.wild[0] > 100 && tally.wild[1] > 5000, "{tally}");
}

#[test]
fn every_state_of_the_smallest_board_holds() {
    let reached = exhaustive::exhaust(None, None).expect("nothing is violated");
    assert_eq!((reached.from_format, reached.states, reached.transitions), (150_240, 275_040, 2_069_998));
    assert_eq!((reached.taken_memories, reached.refused_memories), (464, 336));
}

/// Calls and answers that the drill gives to a script.
fn answers(text: &[u8]) -> Vec<(String, String)> {
    let mut output = Vec::new();
    drill::run(text, &mut output).unwrap();
    let lines = String::from_utf8(output).unwrap();
    let fields = |line: &str| line.split('\t').map(String::from).collect::<Vec<_>>();
    lines.lines().skip(1).map(fields).map(|fields| (fields[1].clone(), fields[2].clone())).collect()
}

#[test]
fn scripts_are_the_same_for_the_same_seed_and_mostly_good() {
    for (seed, size) in [(1, None), (2, None), (3, Some((511, 8))), (4, Some((1, 1)))] {
        let text = script(seed, 20_000, size);
        assert_eq!(text, script(seed, 20_000, size));
        let answers = answers(&text);
        assert_eq!(answers.len(), 20_000);
        let good = answers.iter().filter(|(_, answer)| answer == "0").count();
        let damaged = answers.iter().filter(|(_, answer)| answer == "?").count();
        assert!(good > 14_000 && damaged > 200, "{good} good, {damaged} damaged");
        assert_eq!(text.last() == Some(&b'\n'), seed % 2 == 0);
    }
}
