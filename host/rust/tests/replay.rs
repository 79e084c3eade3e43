//! Replays of run logs: the library against the plain program, the words that a replayed write leaves, and the command.
mod support;

use btt::{Answer, Arena, Geometry, OpenArena, Replay, MAX_BLOCKS, MAX_LOG, MAX_RECORDS};
use plain::{put_word, word};
use std::fs;
use support::both::Both;
use support::chance::Chance;
use support::logs::{cut, damage, start, step, well_formed, write};
use support::place::Place;
use support::raw::Raw;
use support::{arenas, made, GEOMETRY, ROOM, SIZES};

/// A replay on the arena of the worked cases, and the arena after it.
fn replayed(log: &[u8]) -> (Replay, Both) {
    replayed_on(GEOMETRY, log)
}

/// A replay on a fresh arena, and the arena after it.
fn replayed_on(geometry: Geometry, log: &[u8]) -> (Replay, Both) {
    let mut both = Both::new(&made(geometry));
    let replay = both.replay(log, &[9; 64], &[9; 300]).unwrap();
    (replay, both)
}

#[test]
fn logs_are_answered_alike() {
    let mut chance = Chance::new(61);
    let (mut answers, mut stops) = ([0; 22], 0);
    for _ in 0..600 {
        let arena = arenas::valid(&mut chance, 16);
        let figures = support::figures(&arena).unwrap();
        let mut log = well_formed(&mut chance, &figures);
        if chance.once_in(2) {
            damage(&mut chance, &mut log);
        }
        let room = figures.blocks as usize - usize::from(chance.once_in(8));
        let (work, told) = (chance.bytes(room), chance.pick(&[0, 1, 5, 200, MAX_RECORDS, MAX_RECORDS + 9]));
        let told = chance.bytes(told);
        let replay = Both::new(&arena).replay(&log, &work, &told).unwrap();
        stops += usize::from(replay.stopped.is_some());
        replay.answers.iter().for_each(|answer| answers[support::number(answer) as usize] += 1);
    }
    assert!([0, 9, 11, 12, 13, 14].into_iter().all(|number| answers[number] > 20), "every answer came: {answers:?}");
    assert!((100..500).contains(&stops), "bad records and none: {stops}");
}

#[test]
fn damaged_arenas_are_refused_alike() {
    let mut chance = Chance::new(62);
    let mut answers = [0; 19];
    let log = [write(0, 0, 132), cut(), start(1, 1), vec![0]].concat();
    for _ in 0..4000 {
        let mut arena = arenas::valid(&mut chance, 16);
        arenas::damage(&mut chance, &mut arena, 16);
        let replay = Both::new(&arena).replay(&log, &chance.bytes(ROOM), &chance.bytes(200));
        answers[support::number(&replay) as usize] += 1;
    }
    assert!([0, 1, 2, 3, 4, 6, 7, 8, 18].into_iter().all(|number| answers[number] > 5), "every answer came: {answers:?}");
}

#[test]
fn a_sloppy_arena_is_refused_and_left() {
    let pending = replayed(&write(2, 11, 132)).1.arena;
    for log in [vec![], [start(0, 7), step(0), cut()].concat(), cut().repeat(MAX_RECORDS + 1)] {
        // A word of a sector that the log does not name, the word of the pending lane's sector, and padding.
        for (at, value) in [(36_864 + 4 * 59, 1), (36_864 + 4 * 11, 11), (40_960 + 32, 1), (40_960 + 252, 1 << 31)] {
            let mut arena = pending.clone();
            put_word(&mut arena, at, value);
            let mut both = Both::new(&arena);
            assert_eq!(both.replay(&log, &[9; 70], &[9; 5]), Err(Answer::Sloppy));
            assert!(both.arena == arena, "nothing is mended and nothing ran");
        }
    }
}

/// A replay opens in layout 16 and in no other: what it writes opens there only, and an arena of the other layout is refused.
#[test]
fn a_replay_is_of_one_layout() {
    let (_, mut both) = replayed(&[write(2, 11, 132), cut(), write(2, 12, 5)].concat());
    assert_eq!((both.clone().open(32, &[0; 64]), both.open(16, &[0; 64])), (18, 0));
    let mut far = Both::new(&made(GEOMETRY));
    assert_eq!((far.open(32, &[0; 64]), far.write(2, 11, &[5; 512])), (0, 0));
    let before = far.arena.clone();
    assert_eq!(far.replay(&cut(), &[9; 64], &[9; 5]), Err(Answer::Sloppy));
    assert!(far.arena == before);
}

#[test]
fn each_word_is_of_the_step_that_stored_it() {
    for (size, all) in SIZES.into_iter().zip([133, 135, 137, 1029, 1031]) {
        for (steps, then, new) in [
            (all, vec![], true),
            (all - 1, cut(), true),
            (all - 2, cut(), false),
            (all - 1, vec![4, 0, 3], true),
            (0, cut(), false),
        ] {
            words_of_a_write(Geometry { size, sectors: 9, lanes: 2 }, steps, then, new);
        }
    }
}

/// A write of so many steps on lane 0 to sector 7, and something after it, must leave the words of its steps, or no word.
fn words_of_a_write(geometry: Geometry, steps: usize, then: Vec<u8>, new: bool) {
    let between = start(1, 60);
    let log = [step(0), start(0, 7), step(0).repeat(steps / 2), between, step(0).repeat(steps - steps / 2), then].concat();
    let (_, mut both) = replayed_on(geometry, &log);
    let mut sector = vec![9; geometry.size as usize];
    OpenArena::open(Arena::new(&mut both.arena).unwrap()).unwrap().read_sector(7, &mut sector).unwrap();
    for k in 0..sector.len() / 4 {
        let index = 2 + k + usize::from(k >= steps / 2);
        assert_eq!(word(&sector, 4 * k) as usize, if new { k + index } else { 0 }, "{geometry:?}, {steps} steps, word {k}");
    }
}

#[test]
fn records_are_answered_and_bad_ones_end_the_replay() {
    let log = [step(3), start(4, 7), start(0, 60), start(0, 7), start(0, 8), start(1, 7), step(0), cut(), step(0)].concat();
    let refused = [14, 11, 9, 0, 12, 13, 0, 0, 14].map(|number| Answer::from_number(number).map_or(Ok(()), Err));
    assert_eq!(replayed(&log).0, Replay { answers: refused.to_vec(), stopped: None });
    assert_eq!(replayed(&[]).0, Replay { answers: vec![], stopped: None });
    for whole in [start(1, 8), step(0), cut()] {
        for left in 1..whole.len() {
            let (replay, both) = replayed(&[write(0, 7, 133), whole[..left].to_vec()].concat());
            assert_eq!((replay.answers, replay.stopped), (vec![Ok(()); 134], Some(808)));
            assert!(both.arena == replayed(&write(0, 7, 133)).1.arena, "what ran before stays");
        }
        for (place, value) in [(0, whole[0] + 1), (0, 0), (1, 1), (2, 0), (2, 4), (3, 1)] {
            let mut bad = whole.clone();
            bad[place] = value;
            let (replay, _) = replayed(&[cut(), bad, cut()].concat());
            assert_eq!((replay.answers, replay.stopped), (vec![Ok(())], Some(4)));
        }
    }
}

#[test]
fn the_longest_log_runs_and_a_longer_one_does_not() {
    let log = cut().repeat(MAX_RECORDS);
    assert_eq!(log.len(), MAX_LOG);
    assert_eq!(replayed(&log).0, Replay { answers: vec![Ok(()); MAX_RECORDS], stopped: None });
    let pending = replayed(&write(2, 11, 132)).1.arena;
    let mut both = Both::new(&pending);
    let longer = both.replay(&[log, vec![0]].concat(), &[0; 64], &[]);
    assert_eq!(longer, Ok(Replay { answers: vec![], stopped: Some(0) }));
    assert!(both.arena != pending, "the opening's mending stays");
}

/// A replay's own table has room for every lane: lane 255 writes, lane 256 is not there.
#[test]
fn a_replay_has_a_record_for_each_of_256_lanes() {
    let mut both = Both::new(&made(Geometry { size: 512, sectors: 256, lanes: 256 }));
    let log = [start(256, 7), write(255, 7, 132), start(254, 7), step(256), cut(), step(255)].concat();
    let replay = both.replay(&log, &[9; 512], &[9; 300]).unwrap();
    let numbers: Vec<u32> = replay.answers.iter().map(support::number).collect();
    assert_eq!(numbers, [&[11][..], &[0; 133], &[13, 11, 0, 14]].concat());
    assert_eq!((replay.stopped, word(&both.arena, 266_268)), (None, 0xC000_01FF), "the cut's opening mends the map word");
}

#[test]
fn null_slices_are_empty_slices() {
    use std::ptr::{null, null_mut};
    let mut raw = Raw { arena: made(GEOMETRY), work: vec![9; 64], answers: vec![], numbers: (9, 9, 9) };
    let before = raw.arena.clone();
    let (_, records, stopped) = &mut raw.numbers;
    // SAFETY: every pointer is of a value above that nothing else uses, or null with length 0.
    unsafe {
        let (arena, length, work) = (raw.arena.as_mut_ptr(), raw.arena.len(), raw.work.as_mut_ptr());
        let (none, nothing) = (null_mut(), null());
        assert_eq!(btt::sys::btt_replay(none, 0, work, 64, nothing, 0, none, 0, records, stopped), 1);
        assert_eq!((*records, *stopped), (0, 0));
        (*records, *stopped) = (9, 9);
        assert_eq!(btt::sys::btt_replay(arena, length, none, 0, nothing, 0, none, 0, records, stopped), 5);
        assert_eq!((*records, *stopped), (0, 0));
        (*records, *stopped) = (9, 9);
        assert_eq!(btt::sys::btt_replay(arena, length, work, 64, nothing, 0, none, 0, records, stopped), 0);
        assert_eq!((*records, *stopped), (0, 0));
        assert_eq!(btt::sys::btt_replay(arena, length, work, 64, cut().as_ptr(), 4, none, 0, records, stopped), 0);
        assert_eq!((*records, *stopped), (1, 0));
    }
    assert!(raw.arena == before && raw.work == [0; 64]);
}

#[test]
fn the_command_tells_a_replay_and_changes_no_file() {
    let place = Place::new("replay");
    let mut chance = Chance::new(63);
    let mut ends = [0; 2];
    for _ in 0..60 {
        let mut arena = arenas::valid(&mut chance, 16);
        let mut log = well_formed(&mut chance, &support::figures(&arena).unwrap());
        match chance.below(3) {
            0 => damage(&mut chance, &mut log),
            1 => arenas::damage(&mut chance, &mut arena, 16),
            _ => {}
        }
        fs::write(place.path("image"), &arena).unwrap();
        fs::write(place.path("log"), &log).unwrap();
        let expected = plain::replay(&mut arena.clone(), &mut [0; MAX_BLOCKS], &log);
        let number = support::number(&expected);
        let lines = expected.map_or_else(|answer| format!("refused {}\n", answer.number()), |replay| replay.to_string());
        let (status, out, said) = place.refused("replay image log", &[]);
        assert_eq!((status, out), (i32::from(number != 0), lines));
        assert!(if number == 0 { said.is_empty() } else { said.starts_with(&format!("btt: refused {number}: ")) });
        assert!(fs::read(place.path("image")).unwrap() == arena && fs::read(place.path("log")).unwrap() == log);
        ends[usize::from(number != 0)] += 1;
    }
    assert!(ends[0] > 20 && ends[1] > 5, "{ends:?}");
    assert_eq!(place.names(), ["image", "log"]);
}

#[test]
fn the_command_takes_arenas_of_every_length_and_needs_both_files() {
    let place = Place::new("replays");
    place.done("make long --bytes 16M", &[]);
    fs::write(place.path("log"), [write(0, 32_483, 132), cut(), step(0), vec![4]].concat()).unwrap();
    let told = String::from_utf8(place.done("replay long log", &[])).unwrap();
    let lines: String = (0..134).map(|n| format!("{n} ok\n")).collect();
    assert_eq!(told, lines + "134 refused 14\nstopped 20 at 812\n");
    fs::write(place.path("none"), []).unwrap();
    assert_eq!(place.done("replay long none", &[]), b"");
    assert_eq!(place.refused("replay none log", &[]).1, "refused 1\n");
    fs::write(place.path("longer"), vec![0; 100_000]).unwrap();
    assert_eq!(place.done("replay long longer", &[]), b"stopped 20 at 0\n");
    for (line, name) in
        [("replay long nothing", "nothing"), ("replay nothing log", "nothing"), ("replay long .", "."), ("replay . log", ".")]
    {
        let (status, out, said) = place.refused(line, &[]);
        assert_eq!((status, out.as_str()), (3, ""), "{line}");
        assert!(said.starts_with(&format!("btt: {name}: ")), "{said}");
    }
    assert_eq!(place.redirected("replay long log", ">&-"), (3, "btt: standard output is closed\n".into()));
}
