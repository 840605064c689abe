//! A gateway loop: it keeps one room's matrix, pours plan records into it, and stops asking as soon as the answer is for
//! good.
//!
//!     cargo run --example gateway_loop              the records below, as messages and as one block
//!     cargo run --example gateway_loop - < FILE     a floor from standard input, in pieces of sixteen bytes
//!
//! A is the gateway's cover area, B the room. The four questions stand for what the gateway does with a reading; a question
//! that no further record can change is answered once and not asked again. When all are answered, the records that are
//! left needn't be read.

use std::env;
use std::io::{self, Read};

use misonkandi::{
    CoordPos, EdgeEnd, Floor, IntersectionMatrix, Label, Pieces, Predicate, Record, Refusal, Sides,
};

/// How many bytes the gateway's radio brings at once.
const PIECE: u64 = 16;

/// The questions of this gateway, and what it does at a yes.
const QUESTIONS: [(Predicate, &str); 4] = [
    (Predicate::Intersects, "readings may belong to the room"),
    (Predicate::Within, "every reading belongs to the room"),
    (
        Predicate::Touches,
        "a wall stands between: drop the readings",
    ),
    (
        Predicate::Overlaps,
        "some readings belong to the room: ask for the tag's place",
    ),
];

/// What is kept of a room.
struct Room {
    matrix: IntersectionMatrix,
    open: Vec<(Predicate, &'static str)>,
}

impl Room {
    fn new() -> Room {
        Room {
            matrix: IntersectionMatrix::empty_disjoint(),
            open: QUESTIONS.to_vec(),
        }
    }

    /// Pours one record, or says why not; then the matrix is as it was.
    fn pour(&mut self, bytes: &[u8]) {
        match self.matrix.pour_record(bytes) {
            Ok(used) => println!("{used} bytes used, the matrix is {}", self.matrix),
            Err(refusal) => println!("{refusal}; the matrix stays {}", self.matrix),
        }
        self.ask();
    }

    /// Takes what has come of a floor so far.
    fn take(&mut self, floor: &Floor) {
        self.matrix = floor.matrix();
        let (records, used) = (floor.records, floor.used);
        println!(
            "records accepted: {records}, bytes used: {used}, the matrix is {}",
            self.matrix
        );
        self.ask();
    }

    /// Asks the open questions, and keeps those that are still open.
    fn ask(&mut self) {
        let matrix = self.matrix;
        self.open.retain(|&(question, deed)| {
            let Some(yes) = for_good(&matrix, question) else {
                return true;
            };
            match yes {
                true => println!("    {question}: yes, for good: {deed}"),
                false => println!("    {question}: no, for good"),
            }
            false
        });
    }

    /// No record is left: what is still open is answered as the matrix stands.
    fn close(&self) {
        for &(question, deed) in &self.open {
            match self.matrix.ask(question) {
                true => println!("    {question}: yes, as it stands: {deed}"),
                false => println!("    {question}: no, as it stands"),
            }
        }
    }
}

/// The answer, if no further record can change it.
fn for_good(matrix: &IntersectionMatrix, question: Predicate) -> Option<bool> {
    matrix.verdict(question).for_good()
}

/// Messages that came one by one: one that is refused is dropped, and the next is read.
fn messages(room: &mut Room, records: &[(&str, Vec<u8>)]) {
    for (place, (what, record)) in records.iter().enumerate() {
        if room.open.is_empty() {
            println!(
                "all questions are answered: {} records needn't be read",
                records.len() - place
            );
            return;
        }
        print!("{what}: ");
        room.pour(record);
    }
}

/// A floor in one block, and so in one call. A refused record ends it, since nobody knows where the next one begins;
/// those before it stay.
fn block(room: &mut Room, bytes: &[u8]) {
    print!("one block of {} bytes: ", bytes.len());
    let floor = room.matrix.pour_floor(bytes);
    room.take(&floor);
    tell_refusal(&floor);
}

fn tell_refusal(floor: &Floor) {
    if let Some(refusal) = floor.refusal {
        println!("record at {}: {refusal}", floor.used);
    }
}

/// A floor that comes in pieces, which end anywhere: nothing is gathered, and reading stops when no question is open.
fn pieces(room: &mut Room, mut from: impl Read) -> io::Result<()> {
    let mut pieces = Pieces::new(room.matrix);
    loop {
        let mut bytes = Vec::new();
        from.by_ref().take(PIECE).read_to_end(&mut bytes)?;
        if bytes.is_empty() {
            tell_refusal(&pieces.finish());
            return Ok(());
        }
        print!("{} bytes came: ", bytes.len());
        let pushed = pieces.push(&bytes);
        room.take(&pieces.finish());
        if pushed.is_err() {
            tell_refusal(&pieces.finish());
            return Ok(());
        }
        if room.open.is_empty() {
            println!("all questions are answered: the rest needn't be read");
            return Ok(());
        }
    }
}

fn main() -> io::Result<()> {
    let mut room = Room::new();
    println!("start: the matrix is {}", room.matrix);
    if env::args().nth(1).as_deref() == Some("-") {
        pieces(&mut room, io::stdin().lock())?;
    } else {
        let mut records = built_in().expect("good records");
        let floor = records.iter().flat_map(|(_, record)| record.clone());
        let floor = floor.collect::<Vec<_>>();
        let torn = records[2].1[..40].to_vec();
        records.insert(1, ("a message torn off on the way", torn));
        messages(&mut room, &records);
        room = Room::new();
        block(&mut room, &floor);
    }
    room.close();
    Ok(())
}

const I: Option<CoordPos> = Some(CoordPos::Inside);
const B: Option<CoordPos> = Some(CoordPos::OnBoundary);
const E: Option<CoordPos> = Some(CoordPos::Outside);

/// An end of a wall: its direction, and for A and for B what lies on it, to its left, to its right.
fn end(dx: i32, dy: i32, a: [Option<CoordPos>; 3], b: [Option<CoordPos>; 3]) -> EdgeEnd {
    let half = |[on, left, right]: [Option<CoordPos>; 3]| Sides { on, left, right };
    let label = Label {
        area: true,
        a: half(a),
        b: half(b),
    };
    EdgeEnd { dx, dy, label }
}

/// The record of a node: where it lies against A and B, and so against their areas, and the walls that end there.
fn node(on: [CoordPos; 2], ends: &[EdgeEnd]) -> Result<Vec<u8>, Refusal> {
    Ok(Record::node(on, on.map(Some), ends)?.to_vec())
}

/// A floor's records, as they came in.
fn built_in() -> Result<Vec<(&'static str, Vec<u8>)>, Refusal> {
    use CoordPos::{OnBoundary, Outside};
    let none = [None; 3];
    // Where the two outlines cross: A's runs north and south, B's east and west.
    let crossing = [
        end(2, 0, none, [B, I, E]),
        end(0, 2, [B, I, E], none),
        end(-2, 0, none, [B, E, I]),
        end(0, -2, [B, E, I], none),
    ];
    let crossed = node([OnBoundary; 2], &crossing)?;
    Ok(vec![
        (
            "a corner of the cover area, outside the room",
            node([OnBoundary, Outside], &[])?,
        ),
        (
            "a corner of the room, on the cover area's outline",
            node([OnBoundary; 2], &[])?,
        ),
        ("where the outlines cross", crossed.clone()),
        (
            "a corner of the room, outside the cover area",
            node([Outside, OnBoundary], &[])?,
        ),
        ("the other crossing", crossed),
    ])
}
