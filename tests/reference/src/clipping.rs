//! Clipping in any order, as checks of any library: what its intersection owes
//! to order, grouping and pixels, and what a plane touches that is placed once
//! and again.

use crate::case::Placing;
use crate::library::Library;
use crate::psp::rectangle::{rows, Rectangle};

/// Hands each check to `check`, by its name and whether it holds.
pub fn each(library: &dyn Library, check: &mut dyn FnMut(&str, bool)) {
    pairs(library, check);
    triples(library, check);
    lists(library, check);
    places(library, check);
}

/// Every rectangle with its corners among these, out of order ones included.
fn rectangles(corners: &[i32]) -> Vec<Rectangle> {
    let mut all = Vec::new();
    for &left in corners {
        for &top in corners {
            for &right in corners {
                for &bottom in corners {
                    all.push(Rectangle::new(left, top, right, bottom));
                }
            }
        }
    }
    all
}

fn has(rectangle: &Rectangle, x: i32, y: i32) -> bool {
    (rectangle.left..rectangle.right).contains(&x) && (rectangle.top..rectangle.bottom).contains(&y)
}

fn has_pixels(rectangle: &Rectangle) -> bool {
    rectangle.left < rectangle.right && rectangle.top < rectangle.bottom
}

/// Order, one rectangle twice, inside both, and the pixels at and beside every
/// corner.
fn pairs(library: &dyn Library, check: &mut dyn FnMut(&str, bool)) {
    let corners = [i32::MIN, -1, 0, 2, i32::MAX];
    let pixels = [i32::MIN, -2, -1, 0, 1, 2, i32::MAX - 1, i32::MAX];
    let all = rectangles(&corners);
    for one in &all {
        let kept = if has_pixels(one) {
            *one
        } else {
            Rectangle::default()
        };
        check("one with itself", library.intersect(*one, *one) == kept);
        for other in &all {
            let shared = library.intersect(*one, *other);
            check("order", library.intersect(*other, *one) == shared);
            let inside = shared.lies_inside(one) && shared.lies_inside(other);
            check("inside both", inside || !has_pixels(&shared));
            let same = |x, y| has(&shared, x, y) == (has(one, x, y) && has(other, x, y));
            let same = pixels.iter().all(|&x| pixels.iter().all(|&y| same(x, y)));
            check("the pixels of both", same);
        }
    }
}

fn triples(library: &dyn Library, check: &mut dyn FnMut(&str, bool)) {
    let all = rectangles(&[-1, 0, 2]);
    for a in &all {
        for b in &all {
            let first = library.intersect(*a, *b);
            for c in &all {
                let last = library.intersect(*b, *c);
                let same = library.intersect(first, *c) == library.intersect(*a, last);
                check("grouping", same);
            }
        }
    }
}

/// Lists of four in every order and grouping.
fn lists(library: &dyn Library, check: &mut dyn FnMut(&str, bool)) {
    let members = [
        Rectangle::new(0, 0, 9, 9),
        Rectangle::new(-3, 2, 7, 20),
        Rectangle::new(4, -8, 8, 5),
        Rectangle::new(7, 0, 9, 9),
        Rectangle::new(6, 4, 5, 3),
        Rectangle::new(i32::MIN, i32::MIN, i32::MAX, i32::MAX),
    ];
    for code in 0..members.len().pow(4) {
        let member = |place: u32| members[code / members.len().pow(place) % members.len()];
        let list: Vec<Rectangle> = (0..4).map(member).collect();
        let in_turn = list[1..]
            .iter()
            .fold(list[0], |shared, next| library.intersect(shared, *next));
        for order in orders(&list) {
            let same = groupings(library, &order)
                .iter()
                .all(|shared| *shared == in_turn);
            check("any order and grouping", same);
        }
    }
}

fn orders(list: &[Rectangle]) -> Vec<Vec<Rectangle>> {
    if list.is_empty() {
        return vec![Vec::new()];
    }
    let mut all = Vec::new();
    for at in 0..list.len() {
        let mut rest = list.to_vec();
        let first = rest.remove(at);
        for mut order in orders(&rest) {
            order.push(first);
            all.push(order);
        }
    }
    all
}

/// What every grouping of a list comes to.
fn groupings(library: &dyn Library, list: &[Rectangle]) -> Vec<Rectangle> {
    if let [alone] = list {
        return vec![*alone];
    }
    let mut all = Vec::new();
    for split in 1..list.len() {
        for left in groupings(library, &list[..split]) {
            for right in groupings(library, &list[split..]) {
                all.push(library.intersect(left, right));
            }
        }
    }
    all
}

/// Planes with either row, on, across and off a canvas of 3 by 2.
fn places(library: &dyn Library, check: &mut dyn FnMut(&str, bool)) {
    let frame = Rectangle::new(0, 0, 3, 2);
    for rectangle in rectangles(&[-2, -1, 0, 1, 2, 3, 4]) {
        if rectangle.left > rectangle.right || rectangle.top > rectangle.bottom {
            continue;
        }
        let width = rectangle.width() as u64;
        let shared = library.intersect(rectangle, frame);
        for row in rows(width, 8) {
            let placing = Placing {
                width: 3,
                height: 2,
                rectangle,
                row: row as u32,
            };
            let plane: Vec<u8> = (0..row * rectangle.height() as u64)
                .map(|at| 100 + at as u8)
                .collect();
            let own: Vec<u8> = (1..=6).collect();
            let mut canvas = own.clone();
            let answer = library.place(&placing, &mut canvas, &plane);
            check("placed", answer == 0);
            let exact = (0..6).all(|at| {
                let (x, y) = (at % 3, at / 3);
                let byte = if has(&shared, x, y) {
                    plane[((y - rectangle.top) as u64 * row) as usize
                        + (x - rectangle.left) as usize]
                } else {
                    own[at as usize]
                };
                canvas[at as usize] == byte
            });
            check("touches what it shares with the canvas", exact);
            let mut again = canvas.clone();
            let second = library.place(&placing, &mut again, &plane);
            check("placed again", (second, again) == (answer, canvas));
        }
    }
}
