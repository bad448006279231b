//! The stack that a listing touches, and the memory that it takes beside the input and the table.

use crate::files::{self, Among, GREY_ENTRIES};
use crate::growth;
use crate::listings::{MEBIBYTES, PLACES};
use crate::sides::{Lister, ENTRY_NUMBERS};
use std::fs;

pub fn report() {
    println!(
        "| Empty blocks | MiB | Entries | Stack touched, KiB: library | then reference \
         | Memory taken, KiB: library | reference |"
    );
    println!("|---|--:|--:|--:|--:|--:|--:|");
    for (among, name) in PLACES {
        for mebibytes in MEBIBYTES {
            row(among, name, mebibytes);
        }
    }
}

/// Up to the longest input, of the library alone.
pub fn longest() {
    println!("| Empty blocks | MiB | Entries | Stack touched, KiB | Memory taken, KiB |");
    println!("|---|--:|--:|--:|--:|");
    for (among, name) in PLACES {
        for mebibytes in growth::MEBIBYTES {
            let (entries, [(stack, memory)]) = taken(among, mebibytes, [Lister::Library]);
            println!("| {name} | {mebibytes} | {entries} | {stack} | {memory} |");
        }
    }
}

fn row(among: Among, name: &str, mebibytes: usize) {
    let (entries, [library, reference]) =
        taken(among, mebibytes, [Lister::Library, Lister::Reference]);
    println!(
        "| {name} | {mebibytes} | {entries} | {} | {} | {} | {} |",
        library.0, reference.0, library.1, reference.1
    );
}

/// The entries of a file, and what some listers take for it, one after another: stack and memory.
fn taken<const COUNT: usize>(
    among: Among,
    mebibytes: usize,
    listers: [Lister; COUNT],
) -> (usize, [(usize, usize); COUNT]) {
    let (file, blocks) = files::with_empty_blocks(among, mebibytes << 20);
    let entries = GREY_ENTRIES + blocks;
    // Not zeros, so that the table's pages are there before the listing.
    let mut table = vec![u32::MAX; entries * ENTRY_NUMBERS];
    let taken = listers.map(|lister| {
        let before = peak_from_now();
        assert_eq!(lister.list(&file, &mut table), (0, file.len(), entries));
        (stack(), peak() - before)
    });
    (entries, taken)
}

/// KiB of the main stack that the process has touched so far.
fn stack() -> usize {
    kibibytes("/proc/self/smaps", "[stack]", "Rss:")
}

/// KiB of memory at their highest since the last call of `peak_from_now`.
fn peak() -> usize {
    kibibytes("/proc/self/status", "", "VmHWM:")
}

/// Forgets what was taken before.
fn peak_from_now() -> usize {
    fs::write("/proc/self/clear_refs", "5").expect("Linux's count of memory");
    peak()
}

/// A figure of the process: the first of that name, behind the first line with that end.
fn kibibytes(path: &str, behind: &str, name: &str) -> usize {
    let text = fs::read_to_string(path).expect("Linux's figures of a process");
    text.lines()
        .skip_while(|line| !line.ends_with(behind))
        .find_map(|line| line.strip_prefix(name))
        .and_then(|rest| rest.split_whitespace().next())
        .and_then(|number| number.parse().ok())
        .expect("a figure")
}
