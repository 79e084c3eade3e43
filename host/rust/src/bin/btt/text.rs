//! What is told of an arena.
use crate::lent;
use btt::{AlignedBytes, Answer, Handle, Layout, OpenArena};
use std::fmt::Write;

/// A text, and whether the arena was opened.
pub type Told = (String, Result<(), Answer>);

/// Adds a line. Writing to a string cannot fail.
macro_rules! line {
    ($text:expr, $($what:tt)*) => {{
        let _ = writeln!($text, $($what)*);
    }};
}

/// The report on an arena, as the program report of the repository gives it, for arenas of every length and of both layouts.
pub fn report(bytes: &mut AlignedBytes, layout: Layout) -> Told {
    let mut text = String::new();
    let outcome = OpenArena::open_in(layout, lent(bytes)).map(|opened| {
        let handle = opened.handle();
        line!(text, "sector bytes {}", handle.size);
        line!(text, "sectors {}", handle.sectors);
        line!(text, "lanes {}", handle.lanes);
        line!(text, "mended {}", opened.mended());
        for (lane, record) in opened.records().iter().enumerate() {
            line!(text, "lane {lane} free {} next {}", record.block, record.sequence);
        }
        line!(text, "opened");
    });
    refused(&mut text, outcome);
    (text, outcome)
}

/// What a run log answers on an arena, as the program replay of the repository gives it, for arenas of every length.
pub fn replay(bytes: &mut AlignedBytes, log: &[u8]) -> Told {
    let mut text = String::new();
    let outcome = lent(bytes).replay(log).map(|replay| text = replay.to_string());
    refused(&mut text, outcome);
    (text, outcome)
}

/// Adds the line of a refusal, if there was one.
fn refused(text: &mut String, outcome: Result<(), Answer>) {
    if let Err(answer) = outcome {
        line!(text, "refused {}", answer.number());
    }
}

/// Everything that there is to see of an arena but the sectors' bytes.
pub fn dump(bytes: &mut AlignedBytes, layout: Layout) -> Told {
    let mut text = String::new();
    line!(text, "length {}", bytes.len());
    let arena = lent(bytes);
    match arena.info_block() {
        Some(block) => line!(text, "info block at {}", block.as_ptr().addr() - arena.bytes().as_ptr().addr()),
        None => line!(text, "info block none"),
    }
    let outcome = OpenArena::open_in(layout, arena).map(|opened| {
        figures(&mut text, opened.handle());
        line!(text, "mended {}", opened.mended());
        lanes(&mut text, &opened);
        sectors(&mut text, &opened);
    });
    refused(&mut text, outcome);
    (text, outcome)
}

fn figures(text: &mut String, handle: &Handle) {
    line!(text, "sector bytes {}", handle.size);
    line!(text, "sectors {}", handle.sectors);
    line!(text, "block bytes {}", handle.internal);
    line!(text, "blocks {}", handle.blocks);
    line!(text, "lanes {}", handle.lanes);
    line!(text, "data at {}", handle.data);
    line!(text, "map at {}", handle.map);
    line!(text, "flog at {}", handle.flog);
    line!(text, "copy at {}", handle.copy);
}

fn lanes(text: &mut String, opened: &OpenArena) {
    for (lane, record) in opened.records().iter().enumerate() {
        line!(text, "lane {lane} idle free {} half {} next {}", record.block, record.half, record.sequence);
    }
}

fn sectors(text: &mut String, opened: &OpenArena) {
    let map = &opened.arena().bytes()[opened.handle().map as usize..];
    for (sector, word) in (0..opened.sectors()).zip(map.as_chunks().0) {
        let (state, block) = state(sector, u32::from_le_bytes(*word));
        line!(text, "sector {sector} {state} block {block}");
    }
}

/// What a map word says of its sector: how it reads, by bits 31 (Zero) and 30 (Error), and its block.
fn state(sector: u32, word: u32) -> (&'static str, u32) {
    let low = word & 0x3FFF_FFFF;
    match word >> 30 {
        0 => ("zeroes", sector),
        1 => ("bad", low),
        2 => ("zeroes", low),
        _ => ("data", low),
    }
}

#[cfg(test)]
mod tests {
    use super::state;

    #[test]
    fn map_words_are_read_as_the_table_says() {
        assert_eq!(state(7, 0x0000_0000), ("zeroes", 7));
        assert_eq!(state(7, 0x4000_0005), ("bad", 5));
        assert_eq!(state(7, 0x8000_0005), ("zeroes", 5));
        assert_eq!(state(7, 0xC000_0005), ("data", 5));
    }
}
