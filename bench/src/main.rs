//! The library through its C interface, plain Rust and a plain copy of the same bytes, timed side by side in one run.
mod arena;
mod calls;
mod library;
mod measure;
mod rows;

use arena::{fresh, longest, written};
use btt::SIZES;
use rows::Bench;
use std::fs;

/// The processor's name, where the system says it.
fn processor() -> String {
    let text = fs::read_to_string("/proc/cpuinfo").unwrap_or_default();
    let name = text.lines().find_map(|line| line.strip_prefix("model name")).unwrap_or("unknown");
    name.trim_start_matches([' ', '\t', ':']).to_string()
}

/// The bytes of a sector as they are shown: 4,096.
fn shown(size: u32) -> String {
    match (size / 1000, size % 1000) {
        (0, rest) => rest.to_string(),
        (thousands, rest) => format!("{thousands},{rest:03}"),
    }
}

/// Openings, of an arena as it is made and of one that is written all over.
fn openings(size: u32, lanes: u32) {
    let (geometry, size) = (longest(size, lanes), shown(size));
    let what = format!("opening, sectors of {size}, {lanes} lanes");
    rows::opening(&mut Bench::new(geometry, fresh(geometry)), &format!("{what}, none written"));
    rows::opening(&mut Bench::new(geometry, written(geometry)), &format!("{what}, all written"));
}

/// The calls with a handle; a call judges the record of every lane, so that the number of lanes tells.
fn calls(size: u32, lanes: u32, with_steps: bool) {
    let (geometry, size) = (longest(size, lanes), shown(size));
    let mut bench = Bench::new(geometry, written(geometry));
    rows::whole_writes(&mut bench, &format!("whole write of {size} bytes, {lanes} lanes"));
    if with_steps {
        rows::many_writes(&mut bench, &format!("100,000 whole writes of {size} bytes, {lanes} lanes"));
        rows::steps(&mut bench, &format!("one step of a write of {size} bytes, {lanes} lanes"));
    }
    rows::reads(&mut bench, &format!("read of {size} bytes, {lanes} lanes"));
}

fn main() {
    for ((size, _), lanes) in SIZES.into_iter().flat_map(|pair| [(pair, 4), (pair, 256)]) {
        Bench::new(longest(size, lanes), fresh(longest(size, lanes))).agree();
    }
    println!("{}. After every row library and plain Rust have left the same arenas, handles and tables.\n", processor());
    println!("| One operation | Library | Plain Rust | Copy | Library / plain | Library / copy |");
    println!("|---|---|---|---|---|---|");
    for size in [4096, 512] {
        [4, 256].into_iter().for_each(|lanes| openings(size, lanes));
        [4, 16, 256].into_iter().for_each(|lanes| calls(size, lanes, true));
    }
    // The rows in which blocks that are longer than a sector may tell.
    [4104, 520].into_iter().for_each(|size| calls(size, 4, false));
    let mut bench = Bench::new(longest(4096, 4), fresh(longest(4096, 4)));
    rows::info_blocks(&mut bench, "info block that counts, one block summed", true);
    rows::info_blocks(&mut bench, "info block that counts, two blocks summed", false);
    rows::block_sums("100,000 info blocks summed");
}
