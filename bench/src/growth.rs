//! Listings of empty blocks up to the longest input. The library alone: the reference takes as much
//! memory for its entries as the table has, and there is not always room for both.

use crate::clock::Clock;
use crate::files::{self, Among, GREY_ENTRIES};
use crate::listings::PLACES;
use crate::measure::{counted, turns};
use crate::sides::{Lister, ENTRY_NUMBERS};

pub const MEBIBYTES: [usize; 3] = [256, 512, 1_024];

/// A round takes some seconds, and so long a listing differs little from the next.
const ROUNDS: usize = 7;

pub fn report(clock: &Clock) {
    println!(
        "| Empty blocks | MiB | Blocks | Library, {} | Library, {1} a block | from | to | growth |",
        clock.millions(),
        clock.ones()
    );
    println!("|---|--:|--:|--:|--:|--:|--:|--:|");
    for (among, name) in PLACES {
        growth(clock, among, name);
    }
}

/// One kind of file at three lengths, with the quartiles of a block's cost. Growth is what a block
/// costs beside what it costs in the shortest; it must stay at 1.
fn growth(clock: &Clock, among: Among, name: &str) {
    let listed = MEBIBYTES.map(|mebibytes| files::with_empty_blocks(among, mebibytes << 20));
    let most = listed.iter().map(|(_, blocks)| *blocks).max().unwrap_or(0);
    let mut table = vec![0; (GREY_ENTRIES + most) * ENTRY_NUMBERS];
    let rounds = clock.rounds().min(ROUNDS);
    let costs = turns(rounds, listed.len(), |at, _| {
        let (file, blocks) = &listed[at];
        let table = &mut table[..(GREY_ENTRIES + blocks) * ENTRY_NUMBERS];
        table.fill(0);
        let (cost, answer) = counted(clock, || Lister::Library.list(file, table));
        assert_eq!(answer, (0, file.len(), GREY_ENTRIES + blocks));
        check(file.len(), table);
        cost
    });
    let block = |at: usize| {
        let [cost] = costs[at];
        cost.each(listed[at].1)
    };
    for (at, [cost]) in costs.iter().enumerate() {
        println!(
            "| {name} | {} | {} | {:.1} | {:.1} | {:.1} | {:.1} | {:.2} |",
            MEBIBYTES[at],
            listed[at].1,
            cost.median / 1e6,
            block(at).median,
            block(at).low,
            block(at).high,
            block(at).median / block(0).median
        );
    }
}

/// The entries follow one another from the first block to the end of the file.
fn check(length: usize, table: &[u32]) {
    let mut place = 36;
    for entry in table.chunks_exact(ENTRY_NUMBERS) {
        assert_eq!(entry[3], place, "an entry's place");
        place += entry[4];
    }
    assert_eq!(place as usize, length, "36 and all bytes owned");
}
