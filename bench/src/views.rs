//! What views cost, and an entry asked for, beside one listing into a table: each lists the whole
//! input again. Facts and names at the places of a table do not.

use crate::clock::Clock;
use crate::files::{self, HEADER};
use crate::library::numbers as library;
use crate::listings::{FILLING, LAYERS};
use crate::measure::{counted, turns};
use crate::sides::ENTRY_NUMBERS;

const MEBIBYTES: usize = 60;

/// What is done with a file. The first is what all else is measured by.
const WORKS: usize = 5;

/// A file, the times that its listing is repeated at one look at the clock, and the rounds.
struct Viewed {
    name: &'static str,
    file: Vec<u8>,
    times: usize,
    rounds: usize,
}

/// An ordinary file, and a hostile one, whose views take a second and more.
pub fn report(clock: &Clock) {
    println!(
        "| Views of {LAYERS} layers, {MEBIBYTES} MiB | Entries | One listing, {0} | Its count alone \
         | The last entry | Facts and names, one by one | Listed once, then at their places |",
        clock.millions()
    );
    println!("|---|--:|--:|--:|--:|--:|--:|");
    row(clock, &ordinary(clock));
    row(clock, &hostile(clock));
    println!();
}

fn ordinary(clock: &Clock) -> Viewed {
    Viewed {
        name: "filled by their channels",
        file: files::layered(LAYERS, FILLING),
        times: 100,
        rounds: clock.rounds(),
    }
}

fn hostile(clock: &Clock) -> Viewed {
    let mut file = files::layered(LAYERS, 1);
    let blocks = ((MEBIBYTES << 20) - file.len()) / HEADER;
    file.extend(files::empty_blocks(blocks));
    Viewed {
        name: "filled by empty blocks",
        file,
        times: 1,
        rounds: clock.rounds().min(5),
    }
}

/// The listing's cost, and all others as multiples of it.
fn row(clock: &Clock, viewed: &Viewed) {
    let Viewed {
        name,
        file,
        times,
        rounds,
    } = viewed;
    let entries = library::count(file, usize::MAX).count;
    let mut table = vec![0; entries * ENTRY_NUMBERS];
    let costs = turns::<WORKS>(*rounds, 1, |_, work| {
        table.fill(0);
        let (cost, ()) = counted(clock, || {
            for _ in 0..*times {
                do_work(work, file, &mut table);
            }
        });
        cost
    });
    let [listing, count, last, views, places] = costs[0].map(|cost| cost.median / *times as f64);
    println!(
        "| {name} | {entries} | {:.3} | {:.2} | {:.2} | {:.1} | {:.2} |",
        listing / 1e6,
        count / listing,
        last / listing,
        views / listing,
        places / listing
    );
}

fn do_work(work: usize, file: &[u8], table: &mut [u32]) {
    let entries = table.len() / ENTRY_NUMBERS;
    match work {
        0 => {
            let listed = library::list(file, table);
            assert_eq!((listed.number, listed.count), (0, entries));
        }
        1 => {
            let listed = library::count(file, entries);
            assert_eq!((listed.number, listed.count), (0, entries));
        }
        2 => {
            let asked = library::entry_at(file, entries, entries - 1);
            let end = asked.entry.place + asked.entry.owned;
            assert_eq!((asked.found, end as usize), (1, file.len()));
        }
        3 => one_by_one(file, entries),
        _ => at_places(file, table),
    }
}

/// The facts and the name of every layer, each by a view of its own.
fn one_by_one(file: &[u8], room: usize) {
    for k in 0..u32::from(LAYERS) {
        let facts = library::layer_facts(file, room, k);
        let name = library::name(file, room, k);
        assert_eq!((facts.number, name.number), (0, 0));
    }
}

/// The same, by one listing and a look at the place of each layer in its table.
fn at_places(file: &[u8], table: &mut [u32]) {
    let listed = library::list(file, table);
    assert_eq!(listed.number, 0);
    let mut layers = 0;
    for entry in table.chunks_exact(ENTRY_NUMBERS) {
        if entry[..2] == [4, 0] {
            let place = entry[3] as usize;
            let facts = library::layer_at(file, place);
            let name = library::name_at(file, place);
            assert_eq!((facts.number, name.number), (0, 0));
            layers += 1;
        }
    }
    assert_eq!(layers, LAYERS);
}
