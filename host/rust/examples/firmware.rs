//! A firmware update that is staged block by block, with the power cut at every single store in turn.
//!
//! One sector records the version being staged and the next block. If that record is torn, an update resumes with the version of one
//! write and the block of another. On a block translation table it never is; on bare sectors, overwritten in place, it is.
//!
//!     cargo run --release --manifest-path host/rust/Cargo.toml --example firmware
use btt::{AlignedBytes, Answer, Arena, Geometry, Identifiers, OpenArena};
use std::error::Error;
use std::fs::{self, File, OpenOptions};
use std::os::unix::fs::FileExt;
use std::process::{self, ExitCode};
use std::{env, fmt, io};

const SIZE: usize = 512;
/// The image's blocks; block b is in sector b + 1, and sector 0 is the record.
const BLOCKS: u32 = 8;
const SECTORS: u32 = BLOCKS + 1;
const OLD: u32 = 1;
const NEW: u32 = 2;

type Sector = [u8; SIZE];

/// The end of a run of stores.
enum Stop {
    PowerCut,
    Failed(Box<dyn Error>),
}

impl fmt::Display for Stop {
    fn fmt(&self, f: &mut fmt::Formatter<'_>) -> fmt::Result {
        match self {
            Stop::PowerCut => f.write_str("the power was cut where it should not be"),
            Stop::Failed(error) => error.fmt(f),
        }
    }
}

impl From<Answer> for Stop {
    fn from(answer: Answer) -> Stop {
        Stop::Failed(answer.into())
    }
}

impl From<io::Error> for Stop {
    fn from(error: io::Error) -> Stop {
        Stop::Failed(error.into())
    }
}

/// Power for so many stores.
struct Power(usize);

impl Power {
    const ENOUGH: usize = usize::MAX;

    /// Tells whether there is power for a store, or for another one.
    fn left(&self) -> Result<(), Stop> {
        if self.0 == 0 {
            Err(Stop::PowerCut)
        } else {
            Ok(())
        }
    }

    fn stored(&mut self) -> Result<(), Stop> {
        self.0 -= 1;
        self.left()
    }
}

/// A row of sectors that the updater stages its image on.
trait Disk {
    fn read(&self, sector: u32) -> Result<Sector, Stop>;
    fn write(&mut self, sector: u32, bytes: &Sector) -> Result<(), Stop>;
}

/// Sectors on the table. The bytes are the module's; where a file stands for the module, each store goes to it as well.
struct Table<'a> {
    opened: OpenArena<'a>,
    file: Option<&'a File>,
    power: Power,
}

impl<'a> Table<'a> {
    fn open(module: &'a mut AlignedBytes, power: usize) -> Result<Table<'a>, Stop> {
        let arena = Arena::new(module).map_err(|error| Stop::Failed(error.into()))?;
        Ok(Table { opened: OpenArena::open(arena)?, file: None, power: Power(power) })
    }
}

impl Disk for Table<'_> {
    fn read(&self, sector: u32) -> Result<Sector, Stop> {
        let mut bytes = [0; SIZE];
        self.opened.read_sector(sector, &mut bytes)?;
        Ok(bytes)
    }

    fn write(&mut self, sector: u32, bytes: &Sector) -> Result<(), Stop> {
        self.power.left()?;
        self.opened.write_sector_by_steps(sector, bytes, |store| {
            if let Some(file) = self.file {
                file.write_all_at(&store.word, store.offset)?;
            }
            self.power.stored()
        })
    }
}

/// Sectors without a table, overwritten in place word by word.
struct Bare<'a> {
    module: &'a mut [u8],
    power: Power,
}

impl Disk for Bare<'_> {
    fn read(&self, sector: u32) -> Result<Sector, Stop> {
        let mut bytes = [0; SIZE];
        bytes.copy_from_slice(&self.module[sector as usize * SIZE..][..SIZE]);
        Ok(bytes)
    }

    fn write(&mut self, sector: u32, bytes: &Sector) -> Result<(), Stop> {
        self.power.left()?;
        let place = &mut self.module[sector as usize * SIZE..][..SIZE];
        for (to, from) in place.chunks_mut(4).zip(bytes.chunks(4)) {
            to.copy_from_slice(from);
            self.power.stored()?;
        }
        Ok(())
    }
}

/// What the record sector says: the version that is staged, and the block that comes next.
#[derive(Clone, Copy, PartialEq)]
struct Record {
    version: u32,
    next: u32,
}

impl Record {
    /// Version and block at the start of the sector, and a check over it at its end.
    fn sector(self) -> Sector {
        let mut sector = [0; SIZE];
        sector[..4].copy_from_slice(&self.version.to_le_bytes());
        sector[4..8].copy_from_slice(&self.next.to_le_bytes());
        let check = Record::check(&sector);
        sector[SIZE - 4..].copy_from_slice(&check.to_le_bytes());
        sector
    }

    fn check(sector: &Sector) -> u32 {
        sector[..SIZE - 4].iter().fold(0x811C_9DC5, |sum, byte| (sum ^ u32::from(*byte)).wrapping_mul(0x0100_0193))
    }

    /// What a record sector says, whether its check agrees or not.
    fn unchecked(sector: &Sector) -> Record {
        let word = |at: usize| u32::from_le_bytes([sector[at], sector[at + 1], sector[at + 2], sector[at + 3]]);
        Record { version: word(0), next: word(4) }
    }

    /// The record on a disk, or none if it is torn.
    fn read(disk: &impl Disk) -> Result<Option<Record>, Stop> {
        let sector = disk.read(0)?;
        let record = Record::unchecked(&sector);
        Ok((record.sector() == sector).then_some(record))
    }
}

/// A block of the image of a version.
fn image(version: u32, block: u32) -> Sector {
    let mut sector = [version as u8 * 16 + block as u8; SIZE];
    sector[..4].copy_from_slice(&version.to_le_bytes());
    sector
}

/// Stages a version, or goes on with it where the record says.
fn update(disk: &mut impl Disk, version: u32) -> Result<(), Stop> {
    let mut record = Record::read(disk)?.filter(|record| record.version == version);
    if record.is_none() {
        record = Some(Record { version, next: 0 });
        disk.write(0, &Record { version, next: 0 }.sector())?;
    }
    for block in record.map_or(0, |record| record.next)..BLOCKS {
        disk.write(block + 1, &image(version, block))?;
        disk.write(0, &Record { version, next: block + 1 }.sector())?;
    }
    Ok(())
}

/// Whether version and block belong together: the record is whole, and every block before the next is of its version.
fn together(disk: &impl Disk) -> Result<bool, Stop> {
    let Some(record) = Record::read(disk)? else {
        return Ok(false);
    };
    let mut good = record.version == NEW || record == Record { version: OLD, next: BLOCKS };
    for block in 0..record.next {
        good &= disk.read(block + 1)? == image(record.version, block);
    }
    Ok(good)
}

/// Whether the new image is there whole.
fn complete(disk: &impl Disk) -> Result<bool, Stop> {
    Ok(Record::read(disk)? == Some(Record { version: NEW, next: BLOCKS }) && together(disk)?)
}

/// What came of the cuts.
#[derive(Default)]
struct Tally {
    cuts: usize,
    torn: usize,
    complete: usize,
}

/// Runs an update until the power is cut; tells whether it came to its end.
fn cut(disk: &mut impl Disk) -> Result<bool, Stop> {
    match update(disk, NEW) {
        Ok(()) => Ok(true),
        Err(Stop::PowerCut) => Ok(false),
        Err(failed) => Err(failed),
    }
}

/// A module with a fresh arena that has the old version staged.
fn staged() -> Result<AlignedBytes, Stop> {
    let geometry = Geometry { size: SIZE as u32, sectors: SECTORS, lanes: 1 };
    let mut module = AlignedBytes::zeroed(geometry.made_length().unwrap_or(0) as usize);
    Arena::new(&mut module).map_err(|error| Stop::Failed(error.into()))?.make(geometry, Identifiers::ZEROES)?;
    update(&mut Table::open(&mut module, Power::ENOUGH)?, OLD)?;
    Ok(module)
}

/// Cuts the update at every store, each time from the start; opens the arena again, and resumes.
fn with_table(start: &AlignedBytes) -> Result<Tally, Stop> {
    let mut tally = Tally::default();
    loop {
        let mut module = start.clone();
        if cut(&mut Table::open(&mut module, tally.cuts)?)? {
            return Ok(tally);
        }
        tally.cuts += 1;
        let mut disk = Table::open(&mut module, Power::ENOUGH)?;
        tally.torn += usize::from(!together(&disk)?);
        update(&mut disk, NEW)?;
        tally.complete += usize::from(complete(&disk)?);
    }
}

/// The same on a file, with one update that is cut again and again.
fn with_table_on_a_file(start: &AlignedBytes, file: &File) -> Result<Tally, Stop> {
    let mut tally = Tally::default();
    file.write_all_at(start, 0)?;
    let mut done = false;
    while !done {
        let mut found = vec![0; start.len()];
        file.read_exact_at(&mut found, 0)?;
        let mut module = AlignedBytes::from(&found[..]);
        let mut disk = Table::open(&mut module, 280 + 7 * tally.cuts)?;
        // What opening mended is stored in the file too; with one lane that is one word at most.
        for (at, word) in disk.opened.arena().bytes().chunks(4).enumerate() {
            if *word != found[4 * at..][..4] {
                file.write_all_at(word, 4 * at as u64)?;
            }
        }
        disk.file = Some(file);
        tally.torn += usize::from(!together(&disk)?);
        done = cut(&mut disk)?;
        tally.cuts += usize::from(!done);
        tally.complete = usize::from(complete(&disk)?);
    }
    Ok(tally)
}

/// The same update on bare sectors; the first torn record is kept.
fn without_table() -> Result<(Tally, Option<Record>), Stop> {
    let mut start = [0; SIZE * SECTORS as usize];
    update(&mut Bare { module: &mut start, power: Power(Power::ENOUGH) }, OLD)?;
    let (mut tally, mut first) = (Tally::default(), None);
    loop {
        let mut module = start;
        let mut disk = Bare { module: &mut module, power: Power(tally.cuts) };
        if cut(&mut disk)? {
            return Ok((tally, first));
        }
        tally.cuts += 1;
        if !together(&disk)? {
            tally.torn += 1;
            first = first.or(Some(Record::unchecked(&disk.read(0)?)));
        }
    }
}

fn run() -> Result<bool, Stop> {
    println!(
        "Version {NEW} of an image of {BLOCKS} blocks is staged over version {OLD}; a record sector has version and next block."
    );
    let start = staged()?;
    let memory = with_table(&start)?;
    println!(
        "with the table     {} cuts, one at each store: {} torn records, {} of {} updates resumed to the whole image",
        memory.cuts, memory.torn, memory.complete, memory.cuts
    );
    let path = env::temp_dir().join(format!("btt-firmware-{}", process::id()));
    let file = OpenOptions::new().read(true).write(true).create_new(true).open(&path)?;
    let on_file = with_table_on_a_file(&start, &file);
    fs::remove_file(&path)?;
    let on_file = on_file?;
    let whole = if on_file.complete == 1 { "the whole image" } else { "not the whole image" };
    println!("  and on a file    {} cuts of one update: {} torn records, resumed to {whole}", on_file.cuts, on_file.torn);
    let (bare, first) = without_table()?;
    println!("without the table  {} cuts, one at each store: {} torn records", bare.cuts, bare.torn);
    if let Some(Record { version, next }) = first {
        println!("  such as          version {version} of the new write with next block {next} of the old");
    }
    let kept = memory.torn + on_file.torn == 0 && memory.complete == memory.cuts && on_file.complete == 1;
    Ok(kept && bare.torn > 0)
}

fn main() -> ExitCode {
    match run() {
        Ok(true) => ExitCode::SUCCESS,
        Ok(false) => {
            eprintln!("this is not as promised: a record torn or an image not whole with the table, or nothing torn without");
            ExitCode::FAILURE
        }
        Err(stop) => {
            eprintln!("the example could not be run: {stop}");
            ExitCode::FAILURE
        }
    }
}

#[cfg(test)]
mod tests {
    #[test]
    fn it_is_as_promised() {
        assert!(matches!(super::run(), Ok(true)));
    }
}
