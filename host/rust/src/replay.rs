//! The replay of a run log.
use crate::geometry::MAX_BLOCKS;
use crate::{sys, Answer, Arena};
use std::fmt;

/// The most bytes of a run log.
pub const MAX_LOG: usize = 8_192;

/// The most records of a run log: the shortest has 4 bytes.
pub const MAX_RECORDS: usize = MAX_LOG / 4;

/// What a replay did. As text it is a line for each record that ran, `N ok` or `N refused R`, and `stopped 20 at B` where a record ended it.
#[derive(Clone, Debug, PartialEq, Eq)]
pub struct Replay {
    /// What each record that ran was answered, in order.
    pub answers: Vec<Result<(), Answer>>,
    /// The byte offset at which the record begins that ended the replay, if one did: it is [`BadRecord`](Answer::BadRecord).
    pub stopped: Option<u64>,
}

impl fmt::Display for Replay {
    fn fmt(&self, f: &mut fmt::Formatter<'_>) -> fmt::Result {
        for (number, answer) in self.answers.iter().enumerate() {
            match answer {
                Ok(()) => writeln!(f, "{number} ok")?,
                Err(answer) => writeln!(f, "{number} refused {}", answer.number())?,
            }
        }
        match self.stopped {
            Some(offset) => writeln!(f, "stopped {} at {offset}", Answer::BadRecord.number()),
            None => Ok(()),
        }
    }
}

impl Arena<'_> {
    /// Replays a run log: opens the arena and runs the log's records in order, as the calls would be made.
    ///
    /// A log is at most [`MAX_LOG`] bytes of records, one after another, little-endian. Each begins with the length of the whole record
    /// (16 bits) and its kind (16 bits):
    ///
    /// - kind 1, length 10: a start on a lane (16 bits) to a sector (32 bits);
    /// - kind 2, length 6: a step on a lane (16 bits), which lends a sector buffer whose word k is k plus the record's number;
    /// - kind 3, length 4: a power cut and a new opening.
    ///
    /// Records are numbered from 0, all of them and on across kind 3. A refused record has its answer and does not end the replay. One
    /// that is short, has another length than its kind, or is of another kind ends it, and so does, at offset 0, a log that is longer;
    /// what ran before stays in the arena.
    ///
    /// Every opening is in the usual layout, [`Layout::Near`](crate::Layout::Near). It lends a work buffer that serves every arena, and the
    /// library has a table of its own. Answers 1 to 4, 6, 7, 18 and 8 as the opening does, and nothing ran then.
    ///
    /// ```
    /// use btt::{AlignedBytes, Answer, Arena, Geometry, Identifiers};
    ///
    /// # let mut memory = AlignedBytes::zeroed(49_152);
    /// let mut arena = Arena::new(&mut memory).unwrap();
    /// arena.make(Geometry { size: 512, sectors: 60, lanes: 4 }, Identifiers::ZEROES)?;
    ///
    /// // A start on lane 0 to sector 60, which is not there; an opening; and a record that is short.
    /// let replay = arena.replay(&[10, 0, 1, 0, 0, 0, 60, 0, 0, 0, 4, 0, 3, 0, 6, 0, 2])?;
    /// assert_eq!(replay.answers, [Err(Answer::NoSuchSector), Ok(())]);
    /// assert_eq!(replay.stopped, Some(14));
    /// assert_eq!(replay.to_string(), "0 refused 9\n1 ok\nstopped 20 at 14\n");
    /// # Ok::<(), Answer>(())
    /// ```
    pub fn replay(&mut self, log: &[u8]) -> Result<Replay, Answer> {
        let (mut work, mut answers) = (vec![0; MAX_BLOCKS], vec![0; MAX_RECORDS]);
        let (mut records, mut stopped) = (0, 0);
        let length = self.bytes().len();
        // SAFETY: the pointers are of four slices with their lengths and of two numbers; all but the log are borrowed alone or this
        // function's own, so all lie apart; the arena's address was looked at by `new`.
        let number = unsafe {
            sys::btt_replay(
                self.address(),
                length,
                work.as_mut_ptr(),
                work.len(),
                log.as_ptr(),
                log.len(),
                answers.as_mut_ptr(),
                answers.len(),
                &raw mut records,
                &raw mut stopped,
            )
        };
        let stopped = match Answer::outcome(number) {
            Ok(()) => None,
            Err(Answer::BadRecord) => Some(stopped),
            Err(answer) => return Err(answer),
        };
        let answers = answers[..records as usize].iter().map(|number| Answer::outcome(u32::from(*number))).collect();
        Ok(Replay { answers, stopped })
    }
}

#[cfg(test)]
mod tests {
    use super::*;

    #[test]
    fn a_replay_is_told_line_by_line() {
        let mut replay = Replay { answers: vec![], stopped: None };
        assert_eq!(replay.to_string(), "");
        replay.answers = vec![Ok(()), Err(Answer::LaneIdle), Err(Answer::BadHandle), Ok(())];
        assert_eq!(replay.to_string(), "0 ok\n1 refused 14\n2 refused 16\n3 ok\n");
        replay = Replay { answers: vec![Ok(())], stopped: Some(0) };
        assert_eq!(replay.to_string(), "0 ok\nstopped 20 at 0\n");
    }
}
