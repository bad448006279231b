//! Packing a plane.

use crate::clock::Clock;
use crate::measure::{counted, interleaved, Costs};
use crate::packing;
use crate::pictures::{self, Picture, SIDE};
use crate::reference::psp as reference;

pub fn report(clock: &Clock) {
    packing::check();
    println!(
        "| Plane | Room for | Bytes stored | Library, {0} | Peer, {0} | Peer / library |",
        clock.millions()
    );
    println!("|---|---|--:|--:|--:|--:|");
    for Picture { name, plane } in pictures::all(SIDE) {
        let packed = reference::planes::packed_form(&plane);
        let most = plane.len() + (plane.len() + 126) / 127;
        for (form, room) in [("any form", most), ("its own", packed.len())] {
            let costs = pack(clock, &plane, &packed, room);
            println!(
                "| {name} | {form} | {} | {:.2} | {:.2} | {:.2} |",
                packed.len(),
                costs.library / 1e6,
                costs.peer / 1e6,
                costs.ratio()
            );
        }
    }
    println!();
}

/// Packs into so much room, cleared before.
fn pack(clock: &Clock, plane: &[u8], packed: &[u8], room: usize) -> Costs {
    let mut left = packed.to_vec();
    left.resize(room, 0);
    let mut dest = vec![0; room];
    let mut costs = interleaved(clock, 1, |_, side| {
        dest.fill(0);
        let (cost, got) = counted(clock, || side.pack(plane, &mut dest));
        assert_eq!(got, (0, packed.len(), packed.len()));
        assert!(dest == left);
        cost
    });
    costs.remove(0)
}
