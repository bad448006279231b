//! `psp follow`: the listing of a file while it arrives.

use crate::accepted;
use crate::arguments::{Arguments, Known};
use crate::failure::Failure;
use crate::growing::Growing;
use crate::growth::{self, Look, Step};
use crate::lines;
use crate::name;
use crate::output::{self, Progress};
use crate::psp::ffi::{ACCEPTED, ENDS_TOO_SOON, ENTRY_NUMBERS, OVER_LIMIT, TABLE_FULL};
use crate::psp::{self, Listed};
use crate::saved;
use crate::working::Working;
use std::ffi::{OsStr, OsString};
use std::io::Write;
use std::thread;
use std::time::{Duration, Instant};

pub const HELP: &str = "\
psp follow FILE [--idle SECONDS]

Lists what has arrived of a file and prints each further entry as the file grows, in the lines of
psp list; the answer line comes last. It ends when the answer is a refusal that more bytes cannot
change, or when nothing has changed for SECONDS (10 unless given). A beginning that is a whole file
already is told as complete so far. Where zeros stand at a refusal's place, the file may have got
its length before its content, and it is followed on.

Before the end the whole file is read again, and the answer is that of the file as it then stands.
If bytes that were read have changed, this is said, and entries that no longer stand are printed
again, from the first such index on. FILE is a file, not - and no pipe.
";

const POLL: Duration = Duration::from_millis(200);

/// Entries of the first table.
const FIRST_ROOM: usize = 64;

pub fn run(words: &[OsString]) -> Result<(), Failure> {
    let arguments = Arguments::parse(words, &[Known::Valued("--idle")])?;
    let [file] = arguments.operands("follow FILE [--idle SECONDS]")?;
    if file == "-" {
        return Err(Failure::Use("follow wants a file and not -".to_string()));
    }
    let idle = match arguments.option("--idle") {
        Some(typed) => idle(typed)?,
        None => Duration::from_secs(10),
    };
    let mut file = opened(&file)?;
    let mut listing = Listing::of(&file.bytes)?;
    let mut changed = Instant::now();
    loop {
        let step = listing.step(changed.elapsed(), idle);
        let look = match step {
            Step::Enlarge => {
                listing.enlarge(&file.bytes)?;
                continue;
            }
            Step::Wait => {
                thread::sleep(POLL.min(idle));
                file.look(listing.hole)?
            }
            Step::End => file.again(listing.hole)?,
        };
        if look != Look::Same {
            changed = Instant::now();
            listing.again(&file.bytes, look)?;
        }
        if step == Step::End {
            if growth::stands(look, listing.step(Duration::ZERO, idle)) {
                return listing.end(&file);
            }
            thread::sleep(POLL);
        }
    }
}

/// The artwork, which a saved table is not.
fn opened(path: &OsStr) -> Result<Growing, Failure> {
    let file = Growing::open(path)?;
    match saved::is(&file.bytes) {
        true => Err(saved::needs_artwork(path, "follow")),
        false => Ok(file),
    }
}

fn idle(typed: &OsStr) -> Result<Duration, Failure> {
    let wrong = || Failure::Use(format!("--idle {} is no time to wait", name::file(typed)));
    growth::seconds(&typed.to_string_lossy()).ok_or_else(wrong)
}

/// The listing of what has come, and what of it was printed.
struct Listing {
    table: Vec<u32>,
    printed: Vec<u32>,
    answer: Listed,
    /// Where zeros begin at the refusal's place that may be filled yet.
    hole: Option<usize>,
    hole_was_told: bool,
    progress: Progress,
}

impl Listing {
    fn of(input: &[u8]) -> Result<Listing, Failure> {
        let mut table = accepted::zeros(FIRST_ROOM * ENTRY_NUMBERS)?;
        let mut listing = Listing {
            answer: listed(input, &mut table),
            table,
            printed: Vec::new(),
            hole: None,
            hole_was_told: false,
            progress: Progress::new(),
        };
        listing.print(input, Look::Grown)?;
        Ok(listing)
    }

    /// What to do next, when nothing has changed for a while.
    fn step(&self, quiet: Duration, idle: Duration) -> Step {
        growth::step(self.answer.number, self.hole.is_some(), quiet, idle)
    }

    fn again(&mut self, input: &[u8], look: Look) -> Result<(), Failure> {
        self.progress.clear();
        if let Look::Changed(place) = look {
            output::say(&format!(
                "the file was changed at {} after it was read; it is listed again",
                place
            ));
        }
        self.answer = listed(input, &mut self.table);
        self.print(input, look)
    }

    /// Lists again in twice the room.
    fn enlarge(&mut self, input: &[u8]) -> Result<(), Failure> {
        let numbers = self.table.len().saturating_mul(2);
        // The smaller one goes first: a table may have more bytes than its file.
        self.table = Vec::new();
        self.table = accepted::zeros(numbers)?;
        self.again(input, Look::Grown)
    }

    /// Prints the entries that are new, at once.
    fn print(&mut self, input: &[u8], look: Look) -> Result<(), Failure> {
        self.hole = match self.answer.number {
            ACCEPTED | OVER_LIMIT | ENDS_TOO_SOON | TABLE_FULL => None,
            number => growth::hole(input, number, self.answer.place),
        };
        // Over the limit nothing is listed; what was printed is the listing of the beginning.
        if self.answer.number == OVER_LIMIT {
            return Ok(());
        }
        let numbers = self.answer.count.saturating_mul(ENTRY_NUMBERS);
        let listed = self.table.get(..numbers).unwrap_or(&self.table);
        let stand = growth::standing(&self.printed, listed);
        if stand < self.printed.len() {
            taken_back(stand, look)?;
            self.printed.truncate(stand);
        }
        let new = listed.get(stand..).unwrap_or(&[]);
        self.progress.clear();
        let mut out = output::standard();
        for (index, entry) in (stand / ENTRY_NUMBERS..).zip(lines::entries(new)) {
            writeln!(out, "{}", lines::entry_line(index, &entry))?;
        }
        out.flush()?;
        self.printed.extend_from_slice(new);
        self.tell(input.len());
        Ok(())
    }

    fn tell(&mut self, length: usize) {
        let so_far = format!("{} bytes, {} entries", length, self.answer.count);
        if self.answer.number == ACCEPTED {
            output::say(&format!("complete so far: {}", so_far));
        }
        if let (Some(place), false) = (self.hole, self.hole_was_told) {
            self.hole_was_told = true;
            output::say(&format!(
                "zeros stand from {} on; they may be filled yet, and the file is followed on",
                place
            ));
        }
        self.progress.show(&so_far);
    }

    /// Prints the answer, which is final.
    fn end(&self, file: &Growing) -> Result<(), Failure> {
        self.progress.clear();
        let mut out = output::standard();
        writeln!(out, "{}", lines::answer_line(&self.answer))?;
        out.flush()?;
        match self.answer.number {
            ACCEPTED => Ok(()),
            _ => {
                let (table, size) = (&self.printed, Some(file.size()));
                Err(accepted::refused(&self.answer, table, &file.bytes, size))
            }
        }
    }
}

fn listed(input: &[u8], table: &mut [u32]) -> Listed {
    let _working = Working::listing(input);
    psp::list(input, table)
}

/// By the proof more input takes no entry back; were it otherwise, nobody may rely on them. Only a
/// file whose beginning has changed has other entries.
fn taken_back(stand: usize, look: Look) -> Result<(), Failure> {
    if matches!(look, Look::Same | Look::Grown) {
        return Err(Failure::Unreadable("an entry was taken back".to_string()));
    }
    output::say(&format!(
        "entries from {} on no longer stand as printed",
        stand / ENTRY_NUMBERS
    ));
    Ok(())
}
