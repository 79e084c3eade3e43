//! The command line.
use crate::problem::Problem;
use btt::{Layout, ID_SIZE};
use std::collections::HashMap;
use std::ffi::OsString;

pub const HELP: &str = "\
btt: sectors that a power cut cannot tear, in a file that holds one arena of a block translation table

  btt make FILE --bytes B      makes an arena with the most sectors that fit into B bytes, such as 49152, 64K or 16M,
                               which is the most, and says what it made
  btt make FILE --sectors E    makes an arena of just E sectors
      --size S                 the bytes of a sector: 512, 520, 528, 4096 or 4104; 512 if not given
      --lanes N                how many writes can be in flight at once, 1 to 256 and at most the sectors; 4 if not given
      --id HEX, --parent HEX   identifiers of 32 hexadecimal digits; zeroes if not given
      --force                  replaces a file that is there, if it is a regular one: no symbolic link, no device
                               (without it the file system must have hard links)
  btt report FILE              what opening finds: the figures, the lanes mended, each lane's free block and next sequence
  btt dump FILE                more of it: where the parts are, each lane's record, each sector's state and block
  btt read FILE N              writes sector N to standard output
  btt write FILE N             writes sector N from standard input, just S bytes; killed at any moment, it leaves the
                               sector as it was or as it is to be, whole
      --layout L               for report, dump, read and write: the byte, 16 or 32, at which each lane of the arena keeps
                               the second half of its flog pair; 16 if not given
  btt replay IMAGE LOG         opens the arena of a file and runs a log of starts, steps and power cuts on it, in layout 16;
                               a line for each record that ran, N ok or N refused R, and stopped 20 at B where a record
                               is bad
  btt --help, btt --version

After -- every word is a plain one, so that a file's name may begin with a dash.
report, dump, read and replay do not change a file: what opening mends and a log stores they do in memory.
Exit status: 0 done; 1 refused, with the number of the answer and what it means on standard error; 2 the command
line is not understood; 3 a file, or standard output, cannot be read or written.
";

/// What is asked.
#[derive(Debug, PartialEq)]
pub enum Command {
    Help,
    Version,
    Make(Make),
    Report,
    Dump,
    Read { sector: u32 },
    Write { sector: u32 },
    Replay { log: OsString },
}

/// The arena that make is asked for.
#[derive(Debug, PartialEq)]
pub struct Make {
    pub size: u32,
    pub lanes: u32,
    pub room: Room,
    pub own: Vec<u8>,
    pub parent: Vec<u8>,
    pub force: bool,
}

/// How many sectors it is to have.
#[derive(Debug, PartialEq)]
pub enum Room {
    /// So many.
    Sectors(u32),
    /// The most that fit into so many bytes.
    Bytes(u64),
}

/// What make takes where it is not told.
const SIZE: u32 = 512;
const LANES: u32 = 4;

#[derive(Debug, PartialEq)]
pub struct Arguments {
    pub command: Command,
    pub file: OsString,
    /// The layout of the arena in the file, for the commands that are told it.
    pub layout: Layout,
}

/// The words of a command line: those that stand alone, and the options with their values.
struct Words {
    plain: Vec<OsString>,
    options: HashMap<String, String>,
    force: bool,
}

/// The options with a value: those of make, and those of the commands that open an arena in the layout that they are told.
const MAKING: [&str; 6] = ["--bytes", "--size", "--sectors", "--lanes", "--id", "--parent"];
const OPENING: [&str; 1] = ["--layout"];

pub fn parse(given: impl Iterator<Item = OsString>) -> Result<Arguments, Problem> {
    let given: Vec<OsString> = given.collect();
    let options = || given.iter().take_while(|word| *word != "--");
    let has = |names: [&str; 2]| options().any(|word| names.iter().any(|name| word == name));
    if has(["--help", "-h"]) {
        return Ok(Arguments { command: Command::Help, file: OsString::new(), layout: Layout::default() });
    }
    if has(["--version", "-V"]) {
        return Ok(Arguments { command: Command::Version, file: OsString::new(), layout: Layout::default() });
    }
    let words = sorted(given)?;
    let name = words.plain.first().map(|name| name.to_string_lossy().into_owned());
    let command = match name.as_deref() {
        Some("make") => words.with(&[&MAKING[..], &["--force"]].concat())?.only(2)?.making()?,
        Some("report") => words.with(&OPENING)?.only(2).map(|_| Command::Report)?,
        Some("dump") => words.with(&OPENING)?.only(2).map(|_| Command::Dump)?,
        Some("read") => Command::Read { sector: words.with(&OPENING)?.only(3)?.sector()? },
        Some("write") => Command::Write { sector: words.with(&OPENING)?.only(3)?.sector()? },
        Some("replay") => Command::Replay { log: words.with(&[])?.only(3)?.plain[2].clone() },
        Some(other) => return Err(Problem::Usage(format!("{other} is no command"))),
        None => return Err(Problem::Usage("no command is given".into())),
    };
    let (file, layout) = (words.plain[1].clone(), words.layout()?);
    Ok(Arguments { command, file, layout })
}

/// Sorts the words of a command line.
fn sorted(given: Vec<OsString>) -> Result<Words, Problem> {
    let mut words = Words { plain: Vec::new(), options: HashMap::new(), force: false };
    let mut given = given.into_iter();
    while let Some(word) = given.next() {
        let option = match word.to_str() {
            Some("--") => {
                words.plain.extend(given);
                break;
            }
            Some("--force") => {
                words.force = true;
                continue;
            }
            Some(text) if text.starts_with('-') => text.to_string(),
            _ => {
                words.plain.push(word);
                continue;
            }
        };
        let (name, value) = match option.split_once('=') {
            Some((name, value)) => (name.to_string(), Some(value.into())),
            None => (option, given.next()),
        };
        if ![&MAKING[..], &OPENING].concat().contains(&name.as_str()) {
            return Err(Problem::Usage(format!("{name} is no option")));
        }
        let value = value.and_then(|value: OsString| value.into_string().ok());
        let value = value.ok_or_else(|| Problem::Usage(format!("{name} needs a value")))?;
        if words.options.insert(name.clone(), value).is_some() {
            return Err(Problem::Usage(format!("{name} is given twice")));
        }
    }
    Ok(words)
}

impl Words {
    /// The words, if they are so many.
    fn only(&self, count: usize) -> Result<&Words, Problem> {
        match self.plain.len() {
            found if found < count => Err(Problem::Usage(format!("{} needs more words", self.plain[0].to_string_lossy()))),
            found if found > count => {
                Err(Problem::Usage(format!("{} is one word too many", self.plain[count].to_string_lossy())))
            }
            _ => Ok(self),
        }
    }

    /// The words, if they have no other options than these.
    fn with(&self, options: &[&str]) -> Result<&Words, Problem> {
        let force = self.force.then_some("--force");
        match self.options.keys().map(String::as_str).chain(force).find(|name| !options.contains(name)) {
            Some(other) => Err(Problem::Usage(format!("{} takes no {other}", self.plain[0].to_string_lossy()))),
            None => Ok(self),
        }
    }

    /// The layout that is told, or the usual one.
    fn layout(&self) -> Result<Layout, Problem> {
        let Some(text) = self.options.get("--layout") else {
            return Ok(Layout::default());
        };
        let told = number("--layout", text).ok().and_then(|bytes| Layout::try_from(bytes).ok());
        told.ok_or_else(|| Problem::Usage(format!("--layout is 16 or 32, not {text}")))
    }

    fn making(&self) -> Result<Command, Problem> {
        let option = |name| self.options.get(name).map(String::as_str);
        let room = match (option("--sectors"), option("--bytes")) {
            (Some(text), None) => Room::Sectors(number("--sectors", text)?),
            (None, Some(text)) => Room::Bytes(bytes("--bytes", text)?),
            _ => return Err(Problem::Usage("make needs --bytes or --sectors, one of them".into())),
        };
        let figure = |name, otherwise| option(name).map_or(Ok(otherwise), |text| number(name, text));
        Ok(Command::Make(Make {
            size: figure("--size", SIZE)?,
            lanes: figure("--lanes", LANES)?,
            room,
            own: self.identifier("--id")?,
            parent: self.identifier("--parent")?,
            force: self.force,
        }))
    }

    fn sector(&self) -> Result<u32, Problem> {
        number("the sector", &self.plain[2].to_string_lossy())
    }

    /// The bytes of an identifier; the library judges how many there are.
    fn identifier(&self, name: &str) -> Result<Vec<u8>, Problem> {
        let Some(text) = self.options.get(name) else {
            return Ok(vec![0; ID_SIZE]);
        };
        let digits: Option<Vec<u8>> =
            text.chars().filter(|c| *c != '-').map(|c| c.to_digit(16).map(|digit| digit as u8)).collect();
        let digits = digits.filter(|digits| digits.len() % 2 == 0);
        let digits = digits.ok_or_else(|| Problem::Usage(format!("{name} needs pairs of hexadecimal digits, not {text}")))?;
        Ok(digits.chunks_exact(2).map(|pair| pair[0] << 4 | pair[1]).collect())
    }
}

/// A number of digits alone.
fn number(name: &str, text: &str) -> Result<u32, Problem> {
    let value = if text.bytes().all(|byte| byte.is_ascii_digit()) { text.parse().ok() } else { None };
    value.ok_or_else(|| Problem::Usage(format!("{name} is a number from 0 to {}, not {text}", u32::MAX)))
}

/// A number of bytes, with K or M for 1,024 or 1,048,576 of them.
fn bytes(name: &str, text: &str) -> Result<u64, Problem> {
    let (digits, unit) = match text.strip_suffix(['K', 'M']) {
        Some(digits) if text.ends_with('K') => (digits, 1 << 10),
        Some(digits) => (digits, 1 << 20),
        None => (text, 1),
    };
    let count = number(name, digits)
        .map_err(|_| Problem::Usage(format!("{name} is a number, with K or M after it or not, not {text}")))?;
    Ok(u64::from(count) * unit)
}

#[cfg(test)]
mod tests {
    use super::*;

    fn parsed(line: &str) -> Result<Arguments, Problem> {
        parse(line.split_whitespace().map(OsString::from))
    }

    fn make(line: &str) -> Make {
        match parsed(line).unwrap().command {
            Command::Make(make) => make,
            other => panic!("{line}: {other:?}"),
        }
    }

    #[test]
    fn commands_are_understood() {
        assert_eq!(parsed("read a 7").unwrap().command, Command::Read { sector: 7 });
        assert_eq!(parsed("write a 7").unwrap().command, Command::Write { sector: 7 });
        assert_eq!(parsed("report a").unwrap().command, Command::Report);
        assert_eq!(parsed("dump a").unwrap().command, Command::Dump);
        assert_eq!(parsed("replay a b").unwrap().command, Command::Replay { log: "b".into() });
        assert_eq!(parsed("read --help").unwrap().command, Command::Help);
        assert_eq!(parsed("-V").unwrap().command, Command::Version);
    }

    #[test]
    fn a_layout_is_taken_where_an_arena_is_opened() {
        for line in ["report a", "dump a", "read a 7", "write a 7"] {
            let layout = |option: &str| parsed(&format!("{line} {option}")).map(|told| told.layout);
            assert_eq!(layout("").unwrap(), Layout::Near);
            assert_eq!(layout("--layout 16").unwrap(), Layout::Near);
            assert_eq!(layout("--layout 32").unwrap(), Layout::Far);
            assert_eq!(layout("--layout=32").unwrap(), Layout::Far);
            for other in ["0", "15", "17", "31", "33", "64", "4294967295", "4294967312", "+16", "-16", "0x20", "far", ""] {
                let said = layout(&format!("--layout={other}")).unwrap_err().to_string();
                assert!(said.starts_with(&format!("--layout is 16 or 32, not {other}\n")), "{said}");
            }
            assert!(layout("--layout").is_err() && layout("--layout 16 --layout 16").is_err());
        }
        for line in ["make a --bytes 48K --layout 32", "make a --layout=16 --bytes 48K", "replay a b --layout 16"] {
            let said = parsed(line).unwrap_err().to_string();
            assert!(said.contains(" takes no --layout\n"), "{said}");
        }
    }

    #[test]
    fn makings_are_understood() {
        let own: Vec<u8> = (0..16).map(|i| i * 17).collect();
        let told = make("make a --size 4104 --sectors=60 --lanes 2 --id 00112233-4455-6677-8899-aabbccddeeFF --force");
        assert_eq!(told, Make { size: 4104, lanes: 2, room: Room::Sectors(60), own, parent: vec![0; 16], force: true });
        let zeroes = || vec![0; 16];
        for (text, bytes) in
            [("49152", 49_152), ("48K", 49_152), ("16M", 16_777_216), ("0", 0), ("4294967295M", 0xFFFF_FFFF << 20)]
        {
            let told = make(&format!("make a --bytes {text}"));
            let room = Room::Bytes(bytes);
            assert_eq!(told, Make { size: 512, lanes: 4, room, own: zeroes(), parent: zeroes(), force: false });
        }
    }

    #[test]
    fn after_two_dashes_words_are_plain() {
        let read = parsed("read -- --help 7").unwrap();
        assert_eq!((read.file, read.command), ("--help".into(), Command::Read { sector: 7 }));
        let made = parsed("make --bytes 48K -- --").unwrap();
        assert!(made.file == "--" && matches!(made.command, Command::Make(_)));
    }

    #[test]
    fn other_lines_are_not() {
        let lines = "|reed a|report|report a b|read a|read a x|read a -1|read a +5|read a 4294967296|write a 1 2|write a +1\
            |dump a --size 512|make a|make a --size 512 --lanes 4|make a --bytes 1M --sectors 60|make a --sectors 60 --lanes\
            |make a --sectors 60 --size 512 --size 512|make a --sectors 60 --id 0|make a --sectors 60 --id xx|report a --force|make a --sectors 60 --force=1\
            |make a b --sectors 60|make a --sectors 60 --other 1|make a --sectors +60|make a --sectors 60 --size +512\
            |make a --bytes|make a --bytes M|make a --bytes 1G|make a --bytes +1M|make a --bytes 1.5M|make a --bytes 4294967296|--|-- --help\
            |read -- a 7 --force|report -|replay|replay a|replay a b c|replay a b --force|replay a b --size 512";
        for line in lines.split('|') {
            assert!(matches!(parsed(line), Err(Problem::Usage(_))), "{line}");
        }
    }
}
