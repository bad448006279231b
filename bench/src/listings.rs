//! Listing a file of many layers, and files that are nearly all empty blocks, with a table and by a
//! count alone.

use crate::clock::Clock;
use crate::files::{self, Among, GREY_ENTRIES};
use crate::measure::{counted, rounds, Spread};
use crate::sides::{Lister, ENTRY_NUMBERS};

pub const LAYERS: u16 = 64;

/// Sides of planes that fill 60 MiB in so many layers.
pub const FILLING: u32 = 442;

/// Image, bank, and each layer with its five channels.
const LAYERED_ENTRIES: usize = 2 + LAYERS as usize * 6;

/// One listing of so few entries is too short to be measured.
const REPEATED: usize = 1_000;

/// Bytes of a file of empty blocks whose table stays in a cache, so that it is not the memory that is
/// measured. Its instructions are counted too.
const CACHED: usize = 1 << 20;

/// The times that it is listed at one look at the clock.
const REPEATED_CACHED: usize = 16;

pub const MEBIBYTES: [usize; 3] = [16, 32, 64];

pub const PLACES: [(Among, &str); 4] = [
    (Among::MainAfterBank, "main, after the bank"),
    (Among::MainBeforeBank, "main, before the bank"),
    (Among::Bank, "in the bank"),
    (Among::Layer, "in a layer"),
];

const CREATORS: (Among, &str) = (Among::Creators, "creators, after the bank");

/// A file, and the entries that its listing must give.
struct Listed {
    file: Vec<u8>,
    entries: usize,
}

impl Listed {
    fn layers(side: u32) -> Listed {
        Listed {
            file: files::layered(LAYERS, side),
            entries: LAYERED_ENTRIES,
        }
    }

    fn blocks(among: Among, length: usize) -> Listed {
        let (file, blocks) = files::with_empty_blocks(among, length);
        let entries = GREY_ENTRIES + blocks;
        Listed { file, entries }
    }

    /// A file whose instructions are counted, by its word.
    fn counted(word: &str) -> Listed {
        match word {
            "layers" => Listed::layers(1),
            "after" => Listed::blocks(Among::MainAfterBank, CACHED),
            "before" => Listed::blocks(Among::MainBeforeBank, CACHED),
            "bank" => Listed::blocks(Among::Bank, CACHED),
            "layer" => Listed::blocks(Among::Layer, CACHED),
            "creators" => Listed::blocks(Among::Creators, CACHED),
            _ => panic!("FILE is layers, after, before, bank, layer or creators"),
        }
    }
}

pub fn report(clock: &Clock) {
    println!(
        "| File | MiB | Entries | Library, {0} an entry | growth | Walker, {0} | Walker / library \
         | Reference / library | Count alone: library, {0} | Walker, {0} | Walker / library |",
        clock.ones()
    );
    println!("|---|--:|--:|--:|--:|--:|--:|--:|--:|--:|--:|");
    let name = format!("{LAYERS} layers of five channels");
    rows(clock, &name, &[Listed::layers(1)], REPEATED);
    let name = format!("{LAYERS} layers, filled by their channels");
    rows(clock, &name, &[Listed::layers(FILLING)], REPEATED);
    for (among, name) in PLACES.into_iter().chain([CREATORS]) {
        let name = format!("empty blocks: {name}");
        let cached = [Listed::blocks(among, CACHED)];
        rows(clock, &name, &cached, REPEATED_CACHED);
        let listed = MEBIBYTES.map(|mebibytes| Listed::blocks(among, mebibytes << 20));
        rows(clock, &name, &listed, 1);
    }
    println!();
}

/// One kind of file at some lengths. Growth is what an entry costs beside what it costs in the
/// shortest; it must stay at 1.
fn rows(clock: &Clock, name: &str, listed: &[Listed], times: usize) {
    let costs = list(clock, listed, times);
    let shortest = costs[0][0].median;
    for (Listed { file, entries }, costs) in listed.iter().zip(costs) {
        let [library, walker, reference, count, walker_count] = costs.map(|cost| cost.median);
        println!(
            "| {name} | {} | {entries} | {library:.2} | {:.2} | {walker:.2} | {:.2} | {:.2} \
             | {count:.2} | {walker_count:.2} | {:.2} |",
            mebibytes(file),
            library / shortest,
            walker / library,
            reference / library,
            walker_count / count
        );
    }
}

/// A whole number, or the first digits of a small one.
fn mebibytes(file: &[u8]) -> String {
    let mebibytes = file.len() as f64 / f64::from(1 << 20);
    match mebibytes < 0.5 {
        true => format!("{mebibytes:.2}"),
        false => format!("{mebibytes:.0}"),
    }
}

/// What an entry costs each lister when it lists a file so many times, into a table that just has
/// room for it.
fn list(clock: &Clock, listed: &[Listed], times: usize) -> Vec<[Spread; Lister::ALL.len()]> {
    check(listed);
    let mut table = table_for(listed);
    let costs = rounds(clock, listed.len(), |at, lister| {
        let lister = Lister::ALL[lister];
        let Listed { file, entries } = &listed[at];
        let table = &mut table[..entries * ENTRY_NUMBERS];
        if !lister.is_count() {
            table.fill(0);
        }
        let (cost, ()) = counted(clock, || {
            for _ in 0..times {
                assert_eq!(lister.list(file, table), (0, file.len(), *entries));
            }
        });
        cost
    });
    let each = |(costs, listed): ([Spread; 5], &Listed)| {
        costs.map(|cost| cost.each(listed.entries * times))
    };
    costs.into_iter().zip(listed).map(each).collect()
}

/// All give the same answer, and the same table, number by number.
fn check(listed: &[Listed]) {
    let mut ours = table_for(listed);
    let mut theirs = table_for(listed);
    for Listed { file, entries } in listed {
        let used = entries * ENTRY_NUMBERS;
        let answer = (0, file.len(), *entries);
        assert_eq!(Lister::Library.list(file, &mut ours[..used]), answer);
        for lister in Lister::ALL {
            assert_eq!(lister.list(file, &mut theirs[..used]), answer);
            assert!(ours[..used] == theirs[..used], "the tables differ");
        }
    }
}

/// A table with room for the longest.
fn table_for(listed: &[Listed]) -> Vec<u32> {
    let most = listed.iter().map(|listed| listed.entries).max();
    vec![0; most.unwrap_or(0) * ENTRY_NUMBERS]
}

/// One lister lists a file so many times.
pub fn repeat(lister: &str, file: &str, times: &str) {
    let lister = Lister::ALL
        .into_iter()
        .find(|known| known.name() == lister)
        .expect("LISTER is library, walker, reference, library-count or walker-count");
    let Listed { file, entries } = Listed::counted(file);
    let mut table = vec![0; entries * ENTRY_NUMBERS];
    for _ in 0..times.parse().expect("TIMES is a number") {
        let answer = lister.list(&file, &mut table);
        assert_eq!(answer, (0, file.len(), entries));
    }
}

/// The entries of a file whose instructions are counted.
pub fn entries(file: &str) -> usize {
    Listed::counted(file).entries
}
