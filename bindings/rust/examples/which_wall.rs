//! Which wall made a 2: support staff see that a reader's area A overlaps a room B, and ask which wall of the plan is to
//! blame.
//!
//!     cargo run --example which_wall
//!
//! The plan is samples/which_wall.plan, drawn in samples/which_wall.svg: two squares, each corner and each crossing a record.

use misonkandi::{CoordPos, Dimensions, IntersectionMatrix, Traced};

const PLAN: &[u8] = include_bytes!("../../../samples/which_wall.plan");

/// What each record of the plan is, in its order.
const RECORDS: [&str; 10] = [
    "A's lower left corner",
    "A's lower right corner",
    "the room's lower right corner",
    "the room's upper right corner",
    "the room's lower wall where it enters A",
    "A's upper right corner, in the room",
    "the room's lower left corner, in A",
    "the room's left wall where it enters A",
    "A's upper left corner",
    "the room's upper left corner",
];

const PARTS: [(CoordPos, &str); 3] = [
    (CoordPos::Inside, "inside"),
    (CoordPos::OnBoundary, "boundary"),
    (CoordPos::Outside, "outside"),
];

fn main() {
    let mut traced = Traced::new(IntersectionMatrix::empty_disjoint());
    let floor = traced.pour_floor(PLAN);
    assert_eq!((floor.refusal, floor.records), (None, 10));
    println!("{} after {} records", traced.matrix(), traced.records());
    for (a, in_a) in PARTS {
        for (b, in_b) in PARTS {
            if traced.matrix().get(a, b) == Dimensions::TwoDimensional {
                println!("A's {in_a} and the room's {in_b}: {}", made(&traced, a, b));
            }
        }
    }
}

/// What made the cell a 2.
fn made(traced: &Traced, a: CoordPos, b: CoordPos) -> String {
    match traced.made_by(a, b) {
        0 => "2 from the start".to_owned(),
        k => format!("2 since record {k}, {}", RECORDS[k as usize - 1]),
    }
}
