//! Placing a plane on a canvas of its size, beside Rust that copies row by row.

use crate::clock::Clock;
use crate::library::numbers::{self as library, Rect};
use crate::measure::{counted, rounds};
use crate::pictures;

const SIDES: [u32; 4] = [64, 256, 1_024, 4_096];

/// Takes the side of canvas and plane, the canvas and the plane.
type Placer = fn(u32, &mut [u8], &[u8]);

const PLACERS: [Placer; 2] = [place_by_library, copy_rows];

fn place_by_library(side: u32, canvas: &mut [u8], plane: &[u8]) {
    let all = Rect {
        left: 0,
        top: 0,
        right: side as i32,
        bottom: side as i32,
    };
    assert_eq!(library::place(side, side, canvas, all, plane, side), 0);
}

fn copy_rows(side: u32, canvas: &mut [u8], plane: &[u8]) {
    let side = side as usize;
    for (to, from) in canvas.chunks_exact_mut(side).zip(plane.chunks_exact(side)) {
        to.copy_from_slice(from);
    }
}

pub fn report(clock: &Clock) {
    println!(
        "| Placing | Library, {0} | Rows copied, {0} | Rows copied / library |",
        clock.thousands()
    );
    println!("|--:|--:|--:|--:|");
    for side in SIDES {
        let plane = pictures::noisy(side).plane;
        let times = (1usize << 20).div_ceil(plane.len());
        let mut canvas = vec![0; plane.len()];
        let costs = rounds(clock, 1, |_, placer| {
            canvas.fill(0);
            let (cost, ()) = counted(clock, || {
                for _ in 0..times {
                    PLACERS[placer](side, &mut canvas, &plane);
                }
            });
            assert!(canvas == plane);
            cost
        });
        let [library, rows] = costs[0].map(|cost| cost.each(times).median);
        println!(
            "| {side} | {:.3} | {:.3} | {:.2} |",
            library / 1e3,
            rows / 1e3,
            rows / library
        );
    }
    println!();
}
