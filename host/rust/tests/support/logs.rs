//! Run logs: their records, and random ones, well formed and damaged.
use super::chance::Chance;
use btt::{Handle, MAX_LOG};

pub fn start(lane: u16, sector: u32) -> Vec<u8> {
    let ([a, b], [c, d, e, f]) = (lane.to_le_bytes(), sector.to_le_bytes());
    vec![10, 0, 1, 0, a, b, c, d, e, f]
}

pub fn step(lane: u16) -> Vec<u8> {
    let [a, b] = lane.to_le_bytes();
    vec![6, 0, 2, 0, a, b]
}

pub fn cut() -> Vec<u8> {
    vec![4, 0, 3, 0]
}

/// A start and so many steps.
pub fn write(lane: u16, sector: u32, steps: usize) -> Vec<u8> {
    [start(lane, sector), step(lane).repeat(steps)].concat()
}

/// A lane, now and then one that is not there.
fn a_lane(chance: &mut Chance, figures: &Handle) -> u16 {
    if chance.once_in(25) {
        return chance.pick(&[figures.lanes as u16, 16, 256, u16::MAX]);
    }
    chance.below(figures.lanes as usize) as u16
}

/// A sector, now and then one that is not there; few are used, so that lanes meet.
fn a_sector(chance: &mut Chance, figures: &Handle) -> u32 {
    match chance.below(20) {
        0 => chance.pick(&[figures.sectors, figures.sectors + 0x1_0000, 1 << 24, u32::MAX]),
        1..12 => chance.below(figures.sectors.min(6) as usize) as u32,
        _ => chance.below(figures.sectors as usize) as u32,
    }
}

/// Some records: a start and steps of it, other steps, a start alone, or a cut.
fn some_records(chance: &mut Chance, figures: &Handle) -> Vec<u8> {
    let words = figures.size as usize / 4;
    let steps = [1, 2, 30, words - 1, words, words + 3, words + 4, words + 4, words + 5, words + 5];
    let (lane, steps) = (a_lane(chance, figures), chance.pick(&steps));
    match chance.below(10) {
        0..5 => write(lane, a_sector(chance, figures), steps),
        5 => start(lane, a_sector(chance, figures)),
        6..9 => step(lane).repeat(steps),
        _ => cut(),
    }
}

/// Whole records, of at most the bytes that a log has.
pub fn well_formed(chance: &mut Chance, figures: &Handle) -> Vec<u8> {
    let (mut log, limit) = (Vec::new(), chance.pick(&[0, 50, 1000, 3000, MAX_LOG]));
    while log.len() < limit {
        log.extend(some_records(chance, figures));
    }
    let mut whole = 0;
    while whole < log.len() && whole + usize::from(log[whole]) <= MAX_LOG {
        whole += usize::from(log[whole]);
    }
    log.truncate(whole);
    log
}

/// Spoils a log: cuts it short, puts something into it or after it, changes a bit of it, or makes it too long.
pub fn damage(chance: &mut Chance, log: &mut Vec<u8>) {
    let place = chance.below(log.len() + 1);
    match chance.below(5) {
        0 => log.truncate(place),
        1 => {
            let header =
                [chance.pick(&[0, 1, 4, 5, 6, 10, 11]), chance.pick(&[0, 0, 1]), chance.below(5) as u8, chance.pick(&[0, 0, 1])];
            log.splice(place..place, header);
        }
        2 => log.extend(vec![0; 1 + chance.below(40)]),
        3 if place < log.len() => log[place] ^= 1 << chance.below(8),
        _ => log.extend(cut().repeat(MAX_LOG / 4)),
    }
}
