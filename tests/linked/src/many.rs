//! Entries asked for behind very many blocks, on a stack too small to grow with them.

use std::io;
use std::thread;

use reference::answers::{asked, Answer};
use reference::cases::many;
use reference::compare::Comparison;
use reference::library::{Library, Reference};

use crate::linked::Linked;

/// Bytes of stack, less than three for each entry.
const STACK: usize = 64 << 10;

/// The last entry of each input, in rooms that it fills and that are full before it;
/// and one past it.
pub fn compare(comparison: &mut Comparison) -> io::Result<()> {
    for input in many::inputs() {
        let count = Reference.count(&input, usize::MAX).2 as usize;
        let last = count - 1;
        for (room, k) in [
            (usize::MAX, last),
            (count, last),
            (last, last),
            (usize::MAX, count),
            (usize::MAX, usize::MAX),
        ] {
            let got = on_small_stack(|| asked(&Linked, room, k, &input))?;
            let expected = asked(&Reference, room, k, &input);
            comparison.hold(b'Q', &expected, &got.line)?;
        }
    }
    Ok(())
}

/// A stack that overflows ends the process.
fn on_small_stack(ask: impl FnOnce() -> Answer + Send) -> io::Result<Answer> {
    thread::scope(|scope| {
        let small = thread::Builder::new().stack_size(STACK);
        let asked = small.spawn_scoped(scope, ask)?.join();
        asked.map_err(|_| io::Error::new(io::ErrorKind::Other, "no answer"))
    })
}
