//! One arena of a block translation table in plain Rust: what a programmer would write from docs/FORMAT.md without proofs.
//!
//! The tests of host/rust try the library against it, and bench times the library beside it. Its calls take the same arguments, make
//! the same checks in the same order and leave the same bytes as the library's. With the library's wrapper it shares the types that
//! stand at the boundary, and no code: a handle, the record of a lane, the answers, and what a replay did.
//!
//! No call is inlined, so that a loop that times it pays for a call, as with the library.
mod bytes;
mod format;
mod making;
mod opening;
mod replay;
mod running;

pub use bytes::{long, put_long, put_word, word};
pub use format::{counting, figures_of, info_block_of, length_allowed, seal};
pub use making::{made_figures, make};
pub use opening::{cut_open, info_block, open};
pub use replay::replay;
pub use running::{lane, next_store, read, start, step, write};

use btt::Answer;

/// The answer, unless the condition holds.
fn require(condition: bool, answer: Answer) -> Result<(), Answer> {
    if condition {
        Ok(())
    } else {
        Err(answer)
    }
}
