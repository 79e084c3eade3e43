//! The command btt.
mod support;

use btt::{Geometry, Identifiers, Lane, Layout, MAX_BLOCKS, MAX_LANES};
use plain::{put_word, seal};
use std::fs;
use std::os::unix::fs::symlink;
use support::chance::Chance;
use support::place::Place;
use support::{arenas, made, number, GEOMETRY, LAYOUTS};

const MAKE: &str = "make arena --size 512 --sectors 60 --lanes 4";

/// The repository's own report on a fresh arena, and that arena.
const REPORT: &str = include_str!("../../../crates/report/stdout");
const FRESH: &[u8] = include_bytes!("../../../crates/report/stdin");

#[test]
fn a_made_file_is_the_arena_of_the_plain_program() {
    let place = Place::new("made");
    place.done(MAKE, &[]);
    assert!(fs::read(place.path("arena")).unwrap() == made(GEOMETRY)[..]);
    let own: Vec<u8> = (0..16).map(|i| i * 17).collect();
    place.done("make other --size=4096 --sectors=9 --lanes=2 --id 00112233445566778899aabbccddeeff --parent FF-00ffffffffffffffffffffffffffff", &[]);
    let mut parent = [0xFF; 16];
    parent[1] = 0;
    let geometry = Geometry { size: 4096, sectors: 9, lanes: 2 };
    let mut expected = vec![0; plain::made_figures(geometry).length as usize];
    plain::make(&mut expected, geometry, Identifiers { own: &own, parent: &parent }).unwrap();
    assert!(fs::read(place.path("other")).unwrap() == expected);
    assert_eq!(place.names(), ["arena", "other"], "nothing is left beside");
}

#[test]
fn the_most_sectors_that_fit_are_made() {
    let place = Place::new("fitting");
    for (options, size, sectors, lanes, length) in [
        ("--bytes 16M", 512, 32_484, 4, 16_777_216),
        ("--bytes 16M --size 520", 520, 28_895, 4, 16_777_216),
        ("--bytes 16M --size 4096", 4096, 4085, 4, 16_777_216),
        ("--bytes 16M --size=4104", 4104, 4022, 4, 16_777_216),
        ("--bytes 16M --lanes 16", 512, 32_472, 16, 16_777_216),
        ("--bytes 48K", 512, 60, 4, 49_152),
        ("--bytes 53247", 512, 60, 4, 49_152),
        ("--bytes 20K", 512, 4, 4, 20_480),
        ("--bytes 20480 --lanes 1", 512, 7, 1, 20_480),
        ("--bytes 48K --size 520", 520, 52, 4, 49_152),
        ("--bytes 24K --size 528", 528, 10, 4, 24_576),
        ("--bytes 24K --size 4096 --lanes 1", 4096, 1, 1, 24_576),
        ("--bytes 28K --size 4104 --lanes 1", 4104, 1, 1, 28_672),
        ("--sectors 60", 512, 60, 4, 49_152),
        ("--sectors 60 --size 528", 528, 60, 4, 53_248),
    ] {
        let said = place.done(&format!("make arena --force {options}"), &[]);
        let expected = format!("made arena: {sectors} sectors of {size} bytes, {lanes} lanes, {length} bytes in all\n");
        assert_eq!(String::from_utf8(said).unwrap(), expected, "{options}");
        assert!(fs::read(place.path("arena")).unwrap() == made(Geometry { size, sectors, lanes })[..]);
    }
    assert_eq!(place.names(), ["arena"]);
}

#[test]
fn figures_of_which_nothing_is_made_are_told() {
    let place = Place::new("unfitting");
    for (options, said) in [
        ("--bytes 0", "refused 1: no arena of 4 lanes and sectors of 512 bytes is made for 0 bytes, but for 20480 to 16777216"),
        (
            "--bytes 40K --size 4096",
            "refused 1: no arena of 4 lanes and sectors of 4096 bytes is made for 40960 bytes, but for 49152",
        ),
        (
            "--bytes 20K --size 520",
            "refused 1: no arena of 4 lanes and sectors of 520 bytes is made for 20480 bytes, but for 24576 to 16777216",
        ),
        ("--bytes 16777217", "refused 1: no arena of 4 lanes and sectors of 512 bytes is made for 16777217 bytes"),
        ("--bytes 16M --size 1024", "refused 3: there are no sectors of 1024 bytes, but of 512, 520, 528, 4096, 4104\n"),
        ("--bytes 16M --size 0", "refused 3: there are no sectors of 0 bytes, but of 512, 520, 528, 4096, 4104\n"),
        ("--bytes 1K --size 576", "refused 3: there are no sectors of 576 bytes, but of 512, 520, 528, 4096, 4104\n"),
        ("--sectors 60 --size 4160", "refused 3: there are no sectors of 4160 bytes, but of 512, 520, 528, 4096, 4104\n"),
        ("--bytes 16M --lanes 0", "refused 3: an arena has 1 to 256 lanes, not 0\n"),
        ("--sectors 3 --lanes 4", "refused 3: a figure is forbidden: sectors are of 512, 520, 528, 4,096 or 4,104 bytes, "),
    ] {
        let (status, out, found) = place.refused(&format!("make other {options}"), &[]);
        assert_eq!((status, out.as_str()), (1, ""), "{options}");
        assert!(found.starts_with(&format!("btt: {said}")), "{found}");
    }
    assert!(place.names().is_empty());
}

#[test]
fn of_several_makings_one_is_done() {
    let place = Place::new("several");
    let line = |id: u32| format!("make arena --bytes 16M --id {id:032x}");
    let children: Vec<_> = (0..4).map(|id| place.begin(&line(id), &[])).collect();
    let ends: Vec<_> = children.into_iter().map(|child| child.wait_with_output().unwrap().status.code()).collect();
    let done: Vec<usize> = (0..4).filter(|id| ends[*id] == Some(0)).collect();
    assert_eq!(done.len(), 1, "{ends:?}");
    assert_eq!(usize::from(fs::read(place.path("arena")).unwrap()[31]), done[0]);
    assert_eq!(place.names(), ["arena"]);
}

#[test]
fn only_a_regular_file_is_replaced() {
    let place = Place::new("regular");
    place.done(MAKE, &[]);
    symlink("arena", place.path("link")).unwrap();
    symlink("nowhere", place.path("dangling")).unwrap();
    fs::create_dir(place.path("folder")).unwrap();
    for name in ["link", "dangling", "folder"] {
        let line = format!("make {name} --bytes 20K");
        assert_eq!(place.refused(&line, &[]), (3, String::new(), format!("btt: {name} is there already\n")));
        let (status, _, said) = place.refused(&format!("{line} --force"), &[]);
        assert_eq!((status, said), (3, format!("btt: {name} is not a regular file, and nothing else is replaced\n")));
    }
    assert!(fs::read(place.path("arena")).unwrap() == made(GEOMETRY)[..]);
    assert_eq!(fs::read_link(place.path("link")).unwrap().to_str(), Some("arena"));
    assert_eq!(fs::read_link(place.path("dangling")).unwrap().to_str(), Some("nowhere"));
    assert_eq!(place.names(), ["arena", "dangling", "folder", "link"]);
    place.done("write link 5", &[5; 512]);
    assert!(place.done("read arena 5", &[]) == [5; 512], "a link is followed in reading and writing");
}

#[test]
fn long_and_odd_names_are_taken() {
    let place = Place::new("names");
    let longest = "n".repeat(255);
    for name in [longest.as_str(), "-dash", "--help", "--"] {
        place.done(&format!("make --bytes 48K -- {name}"), &[]);
        place.done(&format!("write -- {name} 5"), &[7; 512]);
        assert!(place.done(&format!("read -- {name} 5"), &[]) == [7; 512]);
    }
    assert_eq!(place.names(), ["--", "--help", "-dash", longest.as_str()]);
}

#[test]
fn output_that_cannot_be_written_is_told() {
    let place = Place::new("output");
    place.done(MAKE, &[]);
    for line in ["read arena 0", "report arena", "dump arena", "--help", "--version"] {
        assert_eq!(place.redirected(line, ">&-"), (3, "btt: standard output is closed\n".into()), "{line}");
        for to in ["> /dev/full", "1< /dev/null"] {
            let (status, said) = place.redirected(line, to);
            assert!(status == 3 && said.starts_with("btt: standard output: "), "{line} {to}: {said}");
        }
        assert_eq!(place.redirected(line, "> /dev/null"), (0, String::new()), "{line}");
        assert_eq!(place.redirected(line, "1<> /dev/null"), (0, String::new()), "{line}");
    }
    assert_eq!(place.redirected("make other --bytes 20K", ">&-").0, 3);
    assert_eq!(place.names(), ["arena"], "nothing is made where it could not be told");
    let (status, said) = place.redirected("make other --bytes 20K", "> /dev/full");
    assert!(status == 3 && said.starts_with("btt: other is made, but standard output: "), "{said}");
    assert_eq!(place.names(), ["arena", "other"]);
}

#[test]
fn making_is_refused_and_leaves_no_file() {
    let place = Place::new("unmade");
    for (line, number) in [
        ("make arena --size 500 --sectors 60 --lanes 4", 3),
        ("make arena --size 512 --sectors 3 --lanes 4", 3),
        ("make arena --size 512 --sectors 300 --lanes 257", 3),
        ("make arena --size 512 --sectors 4000000000 --lanes 4", 1),
        ("make arena --size 512 --sectors 60 --lanes 4 --id 00", 10),
    ] {
        let (status, out, said) = place.refused(line, &[]);
        assert_eq!((status, out.as_str()), (1, ""));
        assert!(said.starts_with(&format!("btt: refused {number}: ")), "{said}");
    }
    assert!(place.names().is_empty());
    place.done(MAKE, &[]);
    place.done("write arena 0", &[7; 512]);
    let before = fs::read(place.path("arena")).unwrap();
    let (status, _, said) = place.refused(MAKE, &[]);
    assert_eq!(status, 3);
    assert!(said.contains("--force"));
    assert!(fs::read(place.path("arena")).unwrap() == before);
    place.done(&format!("{MAKE} --force"), &[]);
    assert!(fs::read(place.path("arena")).unwrap() != before);
    assert_eq!(place.refused("make no/such/arena --size 512 --sectors 60 --lanes 4", &[]).0, 3);
}

#[test]
fn a_report_is_that_of_the_program() {
    let place = Place::new("report");
    place.done(MAKE, &[]);
    assert_eq!(place.done("report arena", &[]), REPORT.as_bytes());
    fs::write(place.path("fresh"), FRESH).unwrap();
    assert_eq!(place.done("report fresh", &[]), REPORT.as_bytes());
    let mut chance = Chance::new(41);
    let mut answers = [0; 19];
    for _ in 0..150 {
        let layout = arenas::layout(&mut chance);
        let mut arena = arenas::valid(&mut chance, layout);
        if chance.once_in(2) {
            arenas::damage(&mut chance, &mut arena, layout);
        }
        fs::write(place.path("arena"), &arena).unwrap();
        let (number, expected) = report(&arena, layout);
        answers[number as usize] += 1;
        let usual = layout == Layout::Near.bytes() && chance.once_in(2);
        let told = if usual { String::new() } else { format!("--layout {layout}") };
        let output = place.run(&format!("report arena {told}"), &[]);
        assert_eq!(String::from_utf8(output.stdout).unwrap(), expected);
        assert_eq!(output.status.code(), Some(i32::from(number != 0)));
        let said = String::from_utf8(output.stderr).unwrap();
        assert!(if number == 0 { said.is_empty() } else { said.starts_with(&format!("btt: refused {number}: ")) });
        assert!(fs::read(place.path("arena")).unwrap() == arena, "a report changes nothing");
    }
    assert!(answers.iter().filter(|count| **count > 0).count() > 4);
}

/// The report by the plain program.
fn report(arena: &[u8], layout: u32) -> (u32, String) {
    let mut table = [Lane::default(); MAX_LANES];
    let opened = plain::open(&mut arena.to_vec(), &mut [0; MAX_BLOCKS], layout, &mut table);
    let number = number(&opened);
    let Ok(opened) = opened else {
        return (number, format!("refused {number}\n"));
    };
    let handle = opened.handle;
    let mut text =
        format!("sector bytes {}\nsectors {}\nlanes {}\nmended {}\n", handle.size, handle.sectors, handle.lanes, opened.mended);
    for (lane, record) in table[..handle.lanes as usize].iter().enumerate() {
        text += &format!("lane {lane} free {} next {}\n", record.block, record.sequence);
    }
    (0, text + "opened\n")
}

#[test]
fn sectors_are_read_and_written() {
    let place = Place::new("sectors");
    for (size, sectors, layout, told) in [
        (512, 60, 16, ""),
        (512, 60, 32, "--layout 32"),
        (520, 60, 32, "--layout 32"),
        (528, 60, 16, ""),
        (4096, 7, 16, "--layout=16"),
        (4096, 7, 32, "--layout=32"),
        (4104, 7, 16, ""),
    ] {
        place.done(&format!("make arena --size {size} --sectors {sectors} --lanes 4 --force"), &[]);
        let mut expected = fs::read(place.path("arena")).unwrap();
        let mut chance = Chance::new(42);
        for _ in 0..7 {
            let sector = chance.below(sectors) as u32;
            let bytes = chance.bytes(size);
            assert!(place.done(&format!("write arena {sector} {told}"), &bytes).is_empty());
            assert!(place.done(&format!("read arena {sector} {told}"), &[]) == bytes);
            let mut table = [Lane::default(); 4];
            let handle = plain::open(&mut expected, &mut [0; 128], layout, &mut table).unwrap().handle;
            plain::write(&mut expected, &handle, &mut table, 0, sector, &bytes).unwrap();
            assert!(fs::read(place.path("arena")).unwrap() == expected, "the file has the stores of a write on lane 0");
        }
        for length in [size - 1, size + 1, size.next_multiple_of(64).max(size + 1)] {
            let (status, _, said) = place.refused(&format!("write arena 0 {told}"), &vec![1; length]);
            assert!(status == 1 && said.starts_with("btt: refused 10: "), "{length} bytes for a sector of {size}: {said}");
        }
        assert!(fs::read(place.path("arena")).unwrap() == expected);
    }
}

#[test]
fn refused_reads_and_writes_change_nothing() {
    let place = Place::new("refused");
    place.done(MAKE, &[]);
    let before = fs::read(place.path("arena")).unwrap();
    for (line, length, number) in [
        ("read arena 60", 0, 9),
        ("write arena 60", 512, 9),
        ("write arena 4294967295", 512, 9),
        ("write arena 59", 511, 10),
        ("write arena 59", 513, 10),
        ("write arena 59", 0, 10),
        ("write arena 59", 100_000, 10),
    ] {
        let (status, out, said) = place.refused(line, &vec![1; length]);
        assert_eq!((status, out.as_str()), (1, ""), "{line}");
        assert!(said.starts_with(&format!("btt: refused {number}: ")), "{said}");
        assert!(fs::read(place.path("arena")).unwrap() == before);
    }
    let mut bad = before.clone();
    put_word(&mut bad, 36_864, 0x4000_0000);
    fs::write(place.path("arena"), &bad).unwrap();
    assert!(place.refused("read arena 0", &[]).2.starts_with("btt: refused 15: "));
    place.done("write arena 0", &[4; 512]);
    assert!(place.done("read arena 0", &[]) == [4; 512]);
    fs::write(place.path("none"), vec![0; 49_152]).unwrap();
    fs::write(place.path("empty"), []).unwrap();
    fs::write(place.path("long"), vec![0; 16_777_217]).unwrap();
    for (name, number) in [("none", 2), ("empty", 1), ("long", 1)] {
        for line in ["read {} 0", "write {} 0", "report {}", "dump {}"] {
            let said = place.refused(&line.replace("{}", name), &[0; 512]).2;
            assert!(said.starts_with(&format!("btt: refused {number}: ")), "{said}");
        }
    }
    for line in ["report nothing", "read nothing 0", "write nothing 0", "dump .", "report ."] {
        assert_eq!(place.refused(line, &[]).0, 3, "{line}");
    }
}

#[test]
fn a_sloppy_arena_is_refused_and_left() {
    let place = Place::new("sloppy");
    let (mut arena, mut table) = (made(GEOMETRY), [Lane::default(); 4]);
    let handle = plain::open(&mut arena, &mut [0; 64], 16, &mut table).unwrap().handle;
    plain::start(&arena, &handle, &mut table, 2, 11).unwrap();
    (0..132).for_each(|_| plain::step(&mut arena, &handle, &mut table, 2, &[7; 512]).unwrap());
    fs::write(place.path("log"), []).unwrap();
    for (at, value) in [(36_864, 1), (36_864 + 4 * 59, 59), (40_960 + 32, 1), (40_960 + 252, 1 << 31)] {
        let mut sloppy = arena.clone();
        put_word(&mut sloppy, at, value);
        fs::write(place.path("arena"), &sloppy[..]).unwrap();
        for (line, told) in [
            ("report arena", "refused 18\n"),
            ("replay arena log", "refused 18\n"),
            ("dump arena", "length 49152\ninfo block at 0\nrefused 18\n"),
            ("read arena 5", ""),
            ("write arena 5", ""),
        ] {
            let (status, out, said) = place.refused(line, &[1; 512]);
            assert_eq!((status, out.as_str()), (1, told), "{line}");
            assert!(said.starts_with("btt: refused 18: the arena is sloppy: "), "{said}");
            assert!(fs::read(place.path("arena")).unwrap() == sloppy[..], "nothing is mended either");
        }
    }
}

#[test]
fn a_pending_lane_is_mended_in_the_file_only_by_a_write() {
    let place = Place::new("pending");
    for layout in LAYOUTS {
        let arena_in = format!("arena --layout {layout}");
        let (mut arena, mut table) = (made(GEOMETRY), [Lane::default(); 4]);
        let handle = plain::open(&mut arena, &mut [0; 64], layout, &mut table).unwrap().handle;
        for (lane, sector) in [(2, 11), (3, 12)] {
            plain::start(&arena, &handle, &mut table, lane, sector).unwrap();
            (0..132).for_each(|_| plain::step(&mut arena, &handle, &mut table, lane, &[lane as u8; 512]).unwrap());
        }
        fs::write(place.path("arena"), &arena[..]).unwrap();
        assert!(place.done(&format!("read {arena_in} 11"), &[]) == [2; 512]);
        assert!(String::from_utf8(place.done(&format!("report {arena_in}"), &[])).unwrap().contains("\nmended 2\n"));
        assert!(String::from_utf8(place.done(&format!("dump {arena_in}"), &[])).unwrap().contains("\nmended 2\n"));
        assert!(fs::read(place.path("arena")).unwrap() == arena[..]);
        place.done(&format!("write {arena_in} 12"), &[9; 512]);
        let handle = plain::open(&mut arena, &mut [0; 64], layout, &mut table).unwrap().handle;
        plain::write(&mut arena, &handle, &mut table, 0, 12, &[9; 512]).unwrap();
        assert!(fs::read(place.path("arena")).unwrap() == arena[..]);
    }
}

#[test]
fn a_dump_tells_everything() {
    let place = Place::new("dump");
    place.done("make arena --size 512 --sectors 5 --lanes 2", &[]);
    place.done("write arena 3", &[0; 512]);
    let mut arena = fs::read(place.path("arena")).unwrap();
    put_word(&mut arena, 8192, 0x4000_0000);
    put_word(&mut arena, 8196, 0x8000_0001);
    arena[0] = 0;
    fs::write(place.path("arena"), &arena).unwrap();
    let expected =
        "length 20480\ninfo block at 16384\nsector bytes 512\nsectors 5\nblock bytes 512\nblocks 7\nlanes 2\ndata at 4096\n\
        map at 8192\nflog at 12288\ncopy at 16384\nmended 0\nlane 0 idle free 3 half 0 next 3\nlane 1 idle free 6 half 1 next 2\n\
        sector 0 bad block 0\nsector 1 zeroes block 1\nsector 2 zeroes block 2\nsector 3 data block 5\nsector 4 zeroes block 4\n";
    assert_eq!(String::from_utf8(place.done("dump arena", &[])).unwrap(), expected);
    put_word(&mut arena, 16384 + 48, 1);
    seal(&mut arena[16384..]);
    fs::write(place.path("arena"), &arena).unwrap();
    let (status, out, said) = place.refused("dump arena", &[]);
    assert_eq!((status, out.as_str()), (1, "length 20480\ninfo block at 16384\nrefused 4\n"));
    assert!(said.starts_with("btt: refused 4: "));
    arena[16384] = 0;
    fs::write(place.path("arena"), &arena).unwrap();
    assert_eq!(place.refused("dump arena", &[]).1, "length 20480\ninfo block none\nrefused 2\n");
}

#[test]
fn help_and_usage() {
    let place = Place::new("help");
    let help = String::from_utf8(place.done("--help", &[])).unwrap();
    assert!(help.contains("btt make FILE --bytes B") && help.contains("the bytes of a sector: 512, 520, 528, 4096 or 4104;"));
    assert_eq!(place.done("--version", &[]), format!("btt {}\n", env!("CARGO_PKG_VERSION")).as_bytes());
    for line in [
        "",
        "frob",
        "read arena",
        "read arena seven",
        "read arena +5",
        "make arena --size 512",
        "report arena --size 512",
        "read arena 5 --layout 48",
        "make arena --sectors 60 --layout 32",
        "replay arena log --layout 16",
    ] {
        let (status, out, said) = place.refused(line, &[]);
        assert_eq!((status, out.as_str()), (2, ""), "{line}");
        assert!(said.starts_with("btt: ") && said.contains("--help"));
    }
}
