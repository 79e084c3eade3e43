//! The two layouts of the flog: which bytes of a lane are its second half and which are padding, numbers that are no layout, and what
//! becomes of an arena that is opened in the one and in the other, by the command too.
mod support;

use btt::{AlignedBytes, Answer, Arena, Lane, Layout, OpenArena};
use plain::{put_word, seal};
use std::fs;
use support::both::Both;
use support::place::Place;
use support::{made, other, GEOMETRY, LAYOUTS, NO_LAYOUTS};

const MAP: usize = 36_864;
const FLOG: usize = 40_960;

/// What each byte of a lane's 64 is, in runs of 4: S, O, N and Q for the words of the first half, small letters for those of the second,
/// and a point for padding.
fn lane_bytes(layout: u32) -> &'static [u8; 16] {
    match layout {
        16 => b"SONQsonq........",
        _ => b"SONQ....sonq....",
    }
}

#[test]
fn each_byte_of_a_lane_is_of_a_half_or_padding() {
    for (layout, lane, at) in LAYOUTS.into_iter().flat_map(|layout| (0..256).map(move |i| (layout, i / 64, i % 64))) {
        let mut arena = made(GEOMETRY);
        arena[FLOG + 64 * lane + at] ^= 0xFF;
        let expected = match lane_bytes(layout)[at / 4] {
            b'.' => 18,
            // The older half is not judged, but for its sequence word.
            b's' | b'o' | b'n' => 0,
            _ => 6,
        };
        let mut both = Both::new(&arena);
        assert_eq!(both.cut_open(layout, &[7; 64], 0), expected, "byte {at} of lane {lane} in layout {layout}");
        assert_eq!(both.open(layout, &[7; 70]), expected);
    }
}

#[test]
fn a_layout_is_judged_before_all_else() {
    let arena = made(GEOMETRY);
    let faults: [(u32, &[(usize, u32)]); 10] = [
        (0, &[]),
        (2, &[(0, 0), (45_056, 0)]),
        (3, &[(72, 5)]),
        (4, &[(48, 1)]),
        (5, &[]),
        (6, &[(FLOG + 12, 4)]),
        (7, &[(MAP, 0xC000_0040)]),
        (18, &[(MAP, 1)]),
        (18, &[(FLOG + 48, 1)]),
        (8, &[(MAP, 0xC000_0001)]),
    ];
    for (number, words) in faults {
        let mut arena = arena.clone();
        words.iter().for_each(|(at, value)| put_word(&mut arena, *at, *value));
        if matches!(number, 3 | 4) {
            seal(&mut arena[..4096]);
        }
        every_number(&Both::new(&arena), if number == 5 { 63 } else { 64 }, number);
    }
    for length in [0, 1, 16_384, 49_151] {
        every_number(&Both::new(&arena[..length]), 64, 1);
    }
}

/// Openings in a layout must be answered so, and in no layout with 16, with nothing changed.
fn every_number(both: &Both, room: usize, number: u32) {
    for layout in LAYOUTS.into_iter().chain(NO_LAYOUTS) {
        let mut tried = both.clone();
        let expected = if LAYOUTS.contains(&layout) { number } else { 16 };
        for k in [0, 1, u32::MAX] {
            assert_eq!(tried.cut_open(layout, &vec![7; room], k), expected, "layout {layout}");
        }
        assert_eq!(tried.open(layout, &vec![7; room]), expected, "layout {layout}");
        assert!(tried.arena == both.arena);
    }
}

#[test]
fn a_made_arena_opens_in_both() {
    let mut both = Both::new(&made(GEOMETRY));
    let [near, far] = LAYOUTS.map(|layout| {
        assert_eq!(both.open(layout, &[0; 64]), 0);
        (both.handle, both.table.clone())
    });
    assert_eq!([near.0.layout, far.0.layout], [16, 32]);
    assert_eq!((btt::Handle { layout: 32, ..near.0 }, near.1), far);
}

/// A write on a fresh lane logs its second half: from its first word there that is not 0 on, the other layout is refused.
#[test]
fn a_logged_second_half_shuts_the_other_layout_out() {
    // Of sector 0 the numbers of the sector and of its old block are 0.
    for (layout, (sector, first)) in LAYOUTS.into_iter().flat_map(|layout| [(7, 129), (0, 131)].map(|row| (layout, row))) {
        let mut both = Both::new(&made(GEOMETRY));
        assert_eq!((both.open(layout, &[0; 64]), both.start(3, sector)), (0, 0));
        for stores in 1..=133 {
            assert_eq!(both.step(3, &[5; 512]), 0);
            let refused = if stores >= first { 18 } else { 0 };
            assert_eq!(both.cut_open(other(layout), &[0; 64], 0), refused, "after {stores} stores in layout {layout}");
            assert_eq!(both.cut_open(layout, &[0; 64], 0), 0);
        }
        // The next write is logged in the first half, which both have; the second half is there all the same.
        assert_eq!((both.write(3, sector, &[6; 512]), both.cut_open(other(layout), &[0; 64], 0)), (0, 18));
        assert_eq!(both.reopen(&[0; 64]), 0);
    }
}

/// In the other layout a lost lane and a bad map word are answered before the padding.
#[test]
fn other_faults_come_before_the_padding() {
    for layout in LAYOUTS {
        let mut both = Both::new(&made(GEOMETRY));
        assert_eq!((both.open(layout, &[0; 64]), both.write(0, 7, &[5; 512])), (0, 0));
        for (at, value, number) in
            [(FLOG + 64 + 12, 0, 6), (FLOG + 4, 64, 6), (MAP + 4, 0x4000_0040, 7), (MAP + 4, 0xC000_0002, 18)]
        {
            let mut both = both.clone();
            both.change(|arena| put_word(arena, at, value));
            assert_eq!(both.open(other(layout), &[0; 64]), number, "{value:#x} at {at} in layout {}", other(layout));
        }
    }
}

/// The wrapper's calls without a layout are those with the usual one.
#[test]
fn the_usual_layout_is_taken_where_none_is_told() {
    fn fresh() -> AlignedBytes {
        let mut memory = made(GEOMETRY);
        let mut arena = Arena::new(&mut memory).unwrap();
        let mut table = [Lane::default(); 4];
        let handle = arena.open(&mut [0; 64], &mut table).unwrap().handle;
        assert_eq!(handle.layout, 16);
        arena.start(&handle, &mut table, 1, 9).unwrap();
        (0..132).for_each(|_| arena.step(&handle, &mut table, 1, &[4; 512]).unwrap());
        memory
    }
    let (mut memory, mut told, mut tables) = (fresh(), fresh(), [[Lane::default(); 4]; 2]);
    let (mut arena, mut same) = (Arena::new(&mut memory).unwrap(), Arena::new(&mut told).unwrap());
    assert_eq!(arena.cut_open_in(Layout::Far, &mut [0; 64], &tables[0], 1), Err(Answer::Sloppy));
    assert_eq!(arena.cut_open(&mut [0; 64], &tables[0], 0), Ok(1));
    assert_eq!(same.cut_open_in(Layout::Near, &mut [0; 64], &tables[1], 0), Ok(1));
    assert_eq!(arena.open(&mut [0; 64], &mut tables[0]), same.open_in(Layout::Near, &mut [0; 64], &mut tables[1]));
    assert_eq!((arena.bytes(), tables[0]), (same.bytes(), tables[1]));
    let opened = OpenArena::open(arena).unwrap();
    assert_eq!((opened.layout(), opened.handle().layout), (Layout::Near, 16));
    assert_eq!(OpenArena::open_in(Layout::Near, same).unwrap().handle(), opened.handle());
    assert_eq!(OpenArena::open_in(Layout::Far, opened.into_parts().0).unwrap_err(), Answer::Sloppy);
}

/// What each command that opens an arena prints where the arena is refused with 18.
const REFUSED: [(&str, &str); 4] = [
    ("report arena", "refused 18\n"),
    ("dump arena", "length 49152\ninfo block at 0\nrefused 18\n"),
    ("read arena 5", ""),
    ("write arena 5", ""),
];

#[test]
fn an_arena_of_the_other_layout_is_refused_with_a_hint() {
    let place = Place::new("layouts");
    for (layout, told) in [(32, ""), (32, "--layout 16"), (16, "--layout 32")] {
        place.done("make arena --sectors 60 --force", &[]);
        for line in ["report arena", "dump arena", "read arena 5"] {
            assert_eq!(place.done(line, &[]), place.done(&format!("{line} --layout 32"), &[]), "a made arena is of both");
        }
        place.done(&format!("write arena 5 --layout {layout}"), &[3; 512]);
        let before = fs::read(place.path("arena")).unwrap();
        for (line, printed) in REFUSED {
            let (status, out, said) = place.refused(&format!("{line} {told}"), &[1; 512]);
            assert_eq!((status, out.as_str()), (1, printed), "{line} {told}");
            assert!(said.starts_with("btt: refused 18: the arena is sloppy: "), "{said}");
            assert!(said.ends_with(&format!("; it opens with --layout {layout}\n")), "{said}");
        }
        let mut damaged = before.clone();
        put_word(&mut damaged, 36_864, 1);
        fs::write(place.path("arena"), &damaged).unwrap();
        for (line, _) in REFUSED {
            let said = place.refused(&format!("{line} {told}"), &[1; 512]).2;
            assert!(said.starts_with("btt: refused 18: ") && !said.contains("--layout"), "it opens in neither: {said}");
        }
        fs::write(place.path("arena"), &before).unwrap();
        assert!(place.done(&format!("read arena 5 --layout {layout}"), &[]) == [3; 512]);
    }
    assert!(!place.refused("read arena 60", &[]).2.contains("--layout"), "no other refusal has the hint");
}
