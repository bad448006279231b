//! The command `psp`: Paint Shop Pro 3.0 files for a support desk, read by the proved library.

mod accepted;
mod alphas;
mod answer;
mod arguments;
mod artwork;
mod asked;
mod beginning;
mod blocks;
mod buffer;
mod collect;
mod collection;
mod columns;
mod compare;
mod csv;
mod destination;
mod dialect;
mod difference;
mod encoding;
mod export;
mod facts;
mod failure;
mod fields;
mod follow;
mod found;
mod growing;
mod growth;
mod heading;
mod held;
mod holder;
mod identity;
mod judged;
mod layers;
mod lengths;
mod lines;
mod list;
mod memory;
mod name;
mod named;
mod number;
mod output;
mod palette;
mod parent;
mod pencil;
mod placing;
mod plane;
mod restored;
mod save;
mod saved;
mod shape;
mod sheet;
mod steps;
mod table;
mod tested;
mod typed;
mod wanted;
mod widen;
mod words;
mod working;

extern crate psp as library;

/// The library with document 01's numbers, which the command prints; modules say `crate::psp`, as
/// they do in pure.rs.
mod psp {
    pub use library::ffi;
    pub use library::numbers::*;
    pub use library::refusal;
}

use failure::Failure;
use std::ffi::OsString;
use std::io::Write;
use std::process::ExitCode;

const HELP: &str = "\
psp list FILE                                    the blocks, in document 01's lines
psp steps FILE [--until K]                       why there are these blocks, byte by byte
psp layers FILE [--border | --csv | --json]      the layers, the bottom one first
psp alphas FILE [--border | --csv | --json]      the selection and the alpha channels
psp facts FILE [LAYER | selection | alpha RANK]  every field of the image and of these, or of one
psp palette FILE                                 the palette, or the ramp of a grey image
psp plane FILE LAYER BITMAP CHANNEL -o OUT.pgm   one plane of a layer as a picture
psp plane FILE selection -o OUT.pgm              that of the selection
psp plane FILE alpha RANK -o OUT.pgm             that of an alpha channel
psp compare FILE TYPED                           a table typed by hand against the file's
psp compare --all FOLDER                         each X.psp against the X.csv beside it
psp follow FILE [--idle SECONDS]                 the listing while the file arrives
psp save FILE -o TABLE                           the table as a file, for a job without its artwork
psp COMMAND --help                               more on a command
psp --version

FILE may be - for standard input, except in follow. list, layers, alphas and compare take a saved
table as FILE too, and know it by its content. The status is 0 if the file is accepted, 1 if it is
refused, differs or lacks what was asked for, 2 for wrong use or a file that cannot be read or
written. Work of more than a second is told of on standard error, if that is a terminal.
";

const VERSION: &str = "0.9.0";

struct Command {
    help: &'static str,
    run: fn(&[OsString]) -> Result<(), Failure>,
}

fn main() -> ExitCode {
    let words: Vec<OsString> = std::env::args_os().skip(1).collect();
    let failure = match dispatch(&words) {
        Ok(()) => return ExitCode::SUCCESS,
        Err(failure) => failure,
    };
    if let Some(sentence) = failure.sentence() {
        output::say(&sentence);
    }
    ExitCode::from(failure.status())
}

fn dispatch(words: &[OsString]) -> Result<(), Failure> {
    let (word, rest) = match words.split_first() {
        Some(split) => split,
        None => return Err(Failure::Use("no command; see psp --help".to_string())),
    };
    let first = word.to_string_lossy();
    match first.as_ref() {
        "--help" | "-h" | "help" => return print(HELP),
        "--version" => return print(&version()),
        _ => {}
    }
    let unknown = || Failure::Use(format!("there is no command {}", name::file(word)));
    let command = command(&first).ok_or_else(unknown)?;
    if rest.iter().any(|word| word == "--help" || word == "-h") {
        return print(command.help);
    }
    (command.run)(rest)
}

fn command(name: &str) -> Option<Command> {
    let (help, run): (_, fn(&[OsString]) -> _) = match name {
        "list" => (list::HELP, list::run),
        "steps" => (steps::HELP, steps::run),
        "layers" => (layers::HELP, layers::run),
        "alphas" => (alphas::HELP, alphas::run),
        "facts" => (facts::HELP, facts::run),
        "palette" => (palette::HELP, palette::run),
        "plane" => (plane::HELP, plane::run),
        "compare" => (compare::HELP, compare::run),
        "follow" => (follow::HELP, follow::run),
        "save" => (save::HELP, save::run),
        _ => return None,
    };
    Some(Command { help, run })
}

/// The command's own version, and that of the library which is linked.
fn version() -> String {
    format!(
        "psp {}, library {}, for Paint Shop Pro files of format 3.0\n",
        VERSION,
        library::version()
    )
}

fn print(text: &str) -> Result<(), Failure> {
    let mut out = output::standard();
    out.write_all(text.as_bytes())?;
    out.flush()?;
    Ok(())
}
