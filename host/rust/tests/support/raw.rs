//! Openings as C sees them, told any number as the layout; and a replay as C sees it, with everything that it is lent and the three
//! numbers that it gives.
use btt::sys::{btt_cut_open, btt_open, btt_replay};
use btt::{AlignedBytes, Answer, Handle, Lane, Opened, Replay};

/// The result that a number stands for.
#[track_caller]
fn result<T>(number: u32, accepted: T) -> Result<T, Answer> {
    let answer = Answer::from_number(number);
    assert!(number == 0 || answer.is_some(), "{number} is no answer");
    answer.map_or(Ok(accepted), Err)
}

/// Opens an arena; a refusal must give zeroes for a handle and no count, and leave the table.
#[track_caller]
pub fn open(arena: &mut AlignedBytes, work: &mut [u8], layout: u32, table: &mut [Lane]) -> Result<Opened, Answer> {
    let (mut handle, mut mended, before) = (Handle::from_bytes(&[0xA5; 64]), 9, table.to_vec());
    let (bytes, length, lent, room) = (arena.as_mut_ptr(), arena.len(), work.as_mut_ptr(), work.len());
    let (places, records) = (table.as_mut_ptr(), table.len());
    // SAFETY: the pointers are of slices with their lengths, a handle and a number, which lie apart; aligned bytes are the arena.
    let number = unsafe { btt_open(bytes, length, lent, room, layout, places, records, &raw mut handle, &raw mut mended) };
    assert!(number == 0 || (handle, mended) == (Handle::default(), 0), "what opening gives with {number}");
    assert!(number == 0 || table == before, "opening leaves the table with {number}");
    result(number, Opened { handle, mended })
}

/// An opening that stops after k stores; a refusal must give no count.
#[track_caller]
pub fn cut_open(arena: &mut AlignedBytes, work: &mut [u8], layout: u32, table: &[Lane], k: u32) -> Result<u32, Answer> {
    let mut mended = 9;
    let (bytes, length, lent, room) = (arena.as_mut_ptr(), arena.len(), work.as_mut_ptr(), work.len());
    // SAFETY: as in `open`.
    let number = unsafe { btt_cut_open(bytes, length, lent, room, layout, table.as_ptr(), table.len(), k, &raw mut mended) };
    assert!(number == 0 || mended == 0, "what a cut opening gives with {number}");
    result(number, mended)
}

/// The arena, the work buffer and the answers, and the number returned, the records run and the offset.
#[derive(Clone, PartialEq, Eq)]
pub struct Raw {
    pub arena: AlignedBytes,
    pub work: Vec<u8>,
    pub answers: Vec<u8>,
    pub numbers: (u32, u64, u64),
}

impl Raw {
    /// Replays a log on what is lent.
    pub fn replay(&mut self, log: &[u8]) {
        let Raw { arena, work, answers, numbers: (number, records, stopped) } = self;
        let (arena, length) = (arena.as_mut_ptr(), arena.len());
        let (lent, room) = (work.as_mut_ptr(), work.len());
        let (told, all) = (answers.as_mut_ptr(), answers.len());
        // SAFETY: the pointers are of slices with their lengths and of two numbers, which lie apart; aligned bytes are the arena.
        *number = unsafe { btt_replay(arena, length, lent, room, log.as_ptr(), log.len(), told, all, records, stopped) };
    }

    /// What it must be after a replay that the plain program answered so, leaving this arena and work buffer; the answers were these.
    pub fn expected(replay: &Result<Replay, Answer>, arena: Vec<u8>, work: Vec<u8>, answers: &[u8]) -> Raw {
        let (arena, mut answers) = (AlignedBytes::from(&arena[..]), answers.to_vec());
        let numbers = match replay {
            Err(answer) => (answer.number(), 0, 0),
            Ok(replay) => {
                for (place, answer) in answers.iter_mut().zip(&replay.answers) {
                    *place = answer.map_or_else(|answer| answer.number(), |()| 0) as u8;
                }
                (if replay.stopped.is_some() { 20 } else { 0 }, replay.answers.len() as u64, replay.stopped.unwrap_or(0))
            }
        };
        Raw { arena, work, answers, numbers }
    }
}
