//! What can go wrong, and the exit status that tells it.
use btt::{Answer, Layout, MAX_LANES, SIZES};
use std::fmt;
use std::process::ExitCode;

/// Why the command did not do what it was asked.
#[derive(Debug)]
pub enum Problem {
    /// The library refused.
    Refused(Answer),
    /// The library refused to open an arena that opens in this other layout.
    OtherLayout(Answer, Layout),
    /// The library refused to make an arena, for it has no sectors of so many bytes.
    Size(u32),
    /// The library refused to make an arena, for none has so many lanes.
    Lanes(u32),
    /// No arena is made for so many bytes: the library would refuse every length with 1.
    Room(String),
    /// The command line is not understood.
    Usage(String),
    /// A file cannot be read or written.
    File(String),
}

impl Problem {
    pub fn exit_code(&self) -> ExitCode {
        ExitCode::from(match self {
            Problem::Refused(_) | Problem::OtherLayout(..) | Problem::Size(_) | Problem::Lanes(_) | Problem::Room(_) => 1,
            Problem::Usage(_) => 2,
            Problem::File(_) => 3,
        })
    }
}

impl From<Answer> for Problem {
    fn from(answer: Answer) -> Problem {
        Problem::Refused(answer)
    }
}

impl fmt::Display for Problem {
    fn fmt(&self, f: &mut fmt::Formatter<'_>) -> fmt::Result {
        match self {
            Problem::Refused(answer) => write!(f, "refused {}: {answer}", answer.number()),
            Problem::OtherLayout(answer, layout) => {
                write!(f, "refused {}: {answer}; it opens with --layout {}", answer.number(), layout.bytes())
            }
            Problem::Size(size) => {
                let sizes = SIZES.map(|pair| pair.0.to_string()).join(", ");
                write!(f, "refused {}: there are no sectors of {size} bytes, but of {sizes}", Answer::ForbiddenFigure.number())
            }
            Problem::Lanes(lanes) => {
                write!(f, "refused {}: an arena has 1 to {MAX_LANES} lanes, not {lanes}", Answer::ForbiddenFigure.number())
            }
            Problem::Room(message) => write!(f, "refused {}: {message}", Answer::WrongLength.number()),
            Problem::Usage(message) => write!(f, "{message}\nbtt --help tells how it is used"),
            Problem::File(message) => f.write_str(message),
        }
    }
}
