//! Component records: every line of include/test/records.txt, by `Component::read` and over slices, a walk over a
//! composite, and what can be done with a matrix that was read.

use migthumo::{ffi, Component, Matrix3, Refusal, Vector2, Vector3};
use std::collections::HashSet;
use Refusal::{NotWhole, OutputLength, PointNumbers, RecordEnds, ScaleFlags, Singular};

/// The expected outcomes, written out.
const TABLE: &str = include_str!("../../../include/test/records.txt");

/// An answer of the table, its refusal, and the words of that.
const SAYS: [(&str, Refusal, &str); 3] = [
    ("20", RecordEnds, "refusal 20: the bytes end inside the record"),
    ("21", ScaleFlags, "refusal 21: more than one of the scale flags 0x0008, 0x0040 and 0x0080 is set"),
    ("22", PointNumbers, "refusal 22: the offsets are point numbers: flag 0x0002 is clear"),
];

/// How many bytes stand before and after those of a line. They are 0: taken for flags they are point numbers, and taken
/// for the rest of a record they are numbers.
const AROUND: usize = 20;

/// A line of the table: the bytes in their room, how many they are, the place, and what is to come out.
struct Line {
    name: &'static str,
    room: Vec<u8>,
    length: usize,
    at: usize,
    outcome: Result<Component, Refusal>,
}

impl Line {
    /// So many of the bytes.
    fn bytes(&self, length: usize) -> &[u8] {
        &self.room[AROUND..AROUND + length]
    }

    /// What is to come out where so many of the bytes are handed in: 20, unless they hold the flags of a record that is
    /// refused for them, or a whole record.
    fn cut(&self, length: usize) -> Result<Component, Refusal> {
        let needed = match self.outcome {
            Ok(component) => component.after,
            Err(_) => self.at.saturating_add(2),
        };
        if length < needed && length < self.length {
            return Err(RecordEnds);
        }
        self.outcome
    }
}

/// The bytes that are written so: two digits each, or - for none.
fn of_digits(text: &str) -> Vec<u8> {
    if text == "-" {
        return vec![];
    }
    assert!(text.len() % 2 == 0 && text.bytes().all(|digit| digit.is_ascii_hexdigit()), "'{text}' is no bytes");
    (0..text.len()).step_by(2).map(|i| u8::from_str_radix(&text[i..i + 2], 16).unwrap()).collect()
}

/// The component that is written so.
fn component(words: &[&str]) -> Component {
    let [flags, index, after, numbers @ ..] = words else { panic!("{words:?} is no component") };
    let flags = flags.strip_prefix("0x").expect("flags are hexadecimal");
    let numbers: Vec<i32> = numbers.iter().map(|number| number.parse().expect("a whole number")).collect();
    let [dx, dy, scales @ ..] = &numbers[..] else { panic!("{words:?} has no offsets") };
    // The divisor is a power of two, so the fraction is exact.
    let scales: Vec<f64> = scales.iter().map(|&scale| f64::from(scale) / 16384.0).collect();
    let [xscale, scale01, scale10, yscale] = scales[..] else { panic!("{words:?} has not four scales") };
    Component {
        flags: u16::from_str_radix(flags, 16).expect("flags are hexadecimal"),
        index: index.parse().expect("an index is a number"),
        after: after.parse().expect("a place is a number"),
        matrix: Matrix3::new(xscale, scale01, 0.0, scale10, yscale, 0.0, f64::from(*dx), f64::from(*dy), 1.0),
    }
}

/// The line that is written so.
fn line(text: &'static str) -> Line {
    let words: Vec<&str> = text.split(' ').collect();
    let [name, at, digits, answer, rest @ ..] = &words[..] else { panic!("'{text}' is no line") };
    let outcome = match (SAYS.iter().find(|says| says.0 == *answer), rest) {
        (Some((_, refusal, _)), []) => Err(*refusal),
        (None, rest) if *answer == "0" => Ok(component(rest)),
        _ => panic!("'{text}' has no outcome that is known"),
    };
    let bytes = of_digits(digits);
    let room = [&[0; AROUND], &bytes[..], &[0; AROUND]].concat();
    Line { name, room, length: bytes.len(), at: at.parse().expect("a place is a number"), outcome }
}

/// The lines of the table, some of each outcome, each with a name of its own.
fn lines() -> Vec<Line> {
    let lines: Vec<Line> = TABLE.lines().filter(|text| !text.starts_with('#')).map(line).collect();
    assert!(lines.iter().any(|line| line.outcome.is_ok()));
    for (_, refusal, _) in SAYS {
        assert!(lines.iter().any(|line| line.outcome == Err(refusal)), "the table has no line for {refusal}");
    }
    assert_eq!(lines.iter().map(|line| line.name).collect::<HashSet<_>>().len(), lines.len());
    lines
}

/// The bits of a matrix, column by column.
fn bits(m: Matrix3) -> [u64; 9] {
    AsRef::<[f64; 9]>::as_ref(&m).map(f64::to_bits)
}

/// What a component holds, its matrix by its bits.
fn told(component: Component) -> (u16, u16, usize, [u64; 9]) {
    (component.flags, component.index, component.after, bits(component.matrix))
}

#[test]
fn by_its_own_name() {
    for line in lines() {
        for length in 0..=line.length {
            let outcome = Component::read(line.bytes(length), line.at);
            assert_eq!(outcome.map(told), line.cut(length).map(told), "{}, {length} bytes", line.name);
        }
    }
}

/// The program that is proved reads a copy of the table.
#[test]
fn the_table_is_that_of_the_program() {
    assert!(TABLE == include_str!("../../../crates/records/stdin"), "the two copies of the table differ");
}

/// What an output holds before a call, every bit set: the largest number, and a NaN.
const BEFORE: (usize, u64) = (usize::MAX, u64::MAX);

/// Calls over slices, with outputs of these lengths in larger rooms: what comes back, and what the rooms hold then.
fn call(bytes: &[u8], at: usize, heads: usize, numbers: usize) -> (Result<(), Refusal>, [usize; 4], [u64; 10]) {
    let (mut head, mut m) = ([BEFORE.0; 4], [f64::from_bits(BEFORE.1); 10]);
    let outcome = ffi::read_component(bytes, at, &mut head[..heads], &mut m[..numbers]);
    (outcome, head, m.map(f64::to_bits))
}

/// What such a call is to do.
fn wanted(outcome: Result<Component, Refusal>) -> (Result<(), Refusal>, [usize; 4], [u64; 10]) {
    let (mut head, mut m) = ([BEFORE.0; 4], [BEFORE.1; 10]);
    if let Ok(component) = outcome {
        head[..3].copy_from_slice(&[component.flags.into(), component.index.into(), component.after]);
        m[..9].copy_from_slice(&bits(component.matrix));
    }
    (outcome.map(drop), head, m)
}

#[test]
fn over_slices() {
    for line in lines() {
        for length in 0..=line.length {
            let call = call(line.bytes(length), line.at, 3, 9);
            assert_eq!(call, wanted(line.cut(length)), "{}, {length} bytes", line.name);
        }
    }
}

#[test]
fn the_lengths_of_the_outputs_come_first() {
    for line in lines() {
        for (heads, numbers) in (0..=4).flat_map(|heads| (0..=10).map(move |numbers| (heads, numbers))) {
            let outcome = if (heads, numbers) == (3, 9) { line.outcome } else { Err(OutputLength) };
            let call = call(line.bytes(line.length), line.at, heads, numbers);
            assert_eq!(call, wanted(outcome), "{}, outputs of {heads} and {numbers}", line.name);
        }
    }
}

#[test]
fn what_a_refusal_says() {
    for line in lines() {
        if let Err(refusal) = Component::read(line.bytes(line.length), line.at) {
            let (answer, _, words) = SAYS.into_iter().find(|says| line.outcome == Err(says.1)).unwrap();
            assert_eq!((refusal.answer().to_string().as_str(), refusal.to_string().as_str()), (answer, words));
            assert_eq!((refusal.number(), refusal.place()), (refusal.answer(), None));
        }
    }
}

/// Half the size, 10 to the right and 16 down; another follows.
const HALF: [u8; 10] = [0x00, 0x2b, 0x00, 0x41, 0x00, 0x0a, 0xff, 0xf0, 0x20, 0x00];

/// A quarter turn, 3 to the right and 4 down; instructions follow, and no other.
const TURN: [u8; 14] = [0x01, 0x82, 0x00, 0x42, 0x03, 0xfc, 0x00, 0x00, 0x40, 0x00, 0xc0, 0x00, 0x00, 0x00];

/// The matrix of a record.
fn matrix(record: &[u8]) -> Matrix3 {
    Component::read(record, 0).unwrap().matrix
}

#[test]
fn a_record_at_any_place() {
    let want = Component::read(&HALF, 0).unwrap();
    for at in [1, 2, 255, 256, 257, 65535, 65536, 70000] {
        let bytes = [&vec![0xff; at][..], &HALF, &[0xff; 3]].concat();
        assert_eq!(Component::read(&bytes, at), Ok(Component { after: at + 10, ..want }));
        assert_eq!(Component::read(&bytes[..at + 9], at), Err(RecordEnds));
    }
}

/// The components of a composite, from after its header on.
fn walk(glyph: &[u8]) -> Result<Vec<Component>, Refusal> {
    let (mut components, mut at, mut more) = (vec![], 10, true);
    while more {
        let component = Component::read(glyph, at)?;
        components.push(component);
        (at, more) = (component.after, component.flags & 0x0020 != 0);
    }
    Ok(components)
}

#[test]
fn a_composite() {
    let header = [0xff, 0xff, 0, 0, 0, 0, 0x02, 0x58, 0x03, 0x20];
    let base = [0x02, 0x22, 0x00, 0x24, 0x00, 0x00];
    // After the last record stand the instructions: how many bytes, and then these.
    let glyph = [&header[..], &base, &HALF, &TURN, &[0, 2, 0xb0, 0x01]].concat();
    let components = walk(&glyph).unwrap();
    let places = components.iter().map(|component| (component.flags, component.index, component.after));
    assert_eq!(places.collect::<Vec<_>>(), [(0x0222, 36, 16), (0x002b, 65, 26), (0x0182, 66, 40)]);
    let matrices: Vec<Matrix3> = components.iter().map(|component| component.matrix).collect();
    assert_eq!(matrices, [Matrix3::identity(), matrix(&HALF), matrix(&TURN)]);

    // Cut inside a record, or after one that says that another follows, it can't be read to its end.
    for length in 0..40 {
        assert_eq!(walk(&glyph[..length]), Err(RecordEnds));
    }
    assert_eq!(walk(&glyph[..40]), Ok(components));
    assert_eq!(walk(&[&header[..], &base, &[0x00, 0x00]].concat()), Err(PointNumbers));
    assert_eq!(walk(&[&header[..], &base, &[0xff, 0xff]].concat()), Err(ScaleFlags));
}

#[test]
fn what_is_borrowed_through_it() {
    let point = Vector3::new(100.0, 200.0, 1.0);
    assert_eq!(matrix(&HALF) * point, Vector3::new(60.0, 84.0, 1.0));
    assert_eq!(matrix(&TURN) * point, Vector3::new(-197.0, 96.0, 1.0));
    let mut moved = [0.0; 2];
    matrix(&TURN).move_points(&[100.0, 200.0], &mut moved).unwrap();
    assert_eq!(moved, [-197.0, 96.0]);
}

#[test]
fn the_way_back() {
    let point = Vector3::new(100.0, 200.0, 1.0);
    // Whole entries up to 1024: it is proved that it comes back.
    for record in [&TURN[..], &[0x00, 0x02, 0x00, 0x00, 0x80, 0x7f]] {
        let m = matrix(record);
        assert_eq!(m.undoable(), Ok(true));
        assert_eq!(m.invert().unwrap() * (m * point), point);
    }

    // A half is not whole, so nothing is said of it. In sixty-fourths it is.
    assert_eq!(matrix(&HALF).undoable(), Err(NotWhole));
    let mut held = matrix(&HALF) * 64.0;
    held.z.z = 1.0;
    assert_eq!(held, Matrix3::new(32.0, 0.0, 0.0, 0.0, 32.0, 0.0, 640.0, -1024.0, 1.0));
    assert_eq!(held.undoable(), Ok(true));
    assert_eq!(held.invert().unwrap() * (held * point), point);

    // Nor is it said of an offset above 1024. A scale of 0 is flat.
    assert_eq!(matrix(&[0x00, 0x03, 0x00, 0x00, 0x04, 0x00, 0x00, 0x00]).undoable(), Ok(true));
    let far = matrix(&[0x00, 0x03, 0x00, 0x00, 0x04, 0x01, 0x00, 0x00]);
    assert_eq!((far, far.undoable()), (Matrix3::from_translation(Vector2::new(1025.0, 0.0)), Err(NotWhole)));
    let flat = matrix(&[0x00, 0x0a, 0x00, 0x00, 0x00, 0x00, 0x00, 0x00]);
    assert_eq!((flat.undoable(), flat.invert()), (Ok(false), Err(Singular)));
}

#[test]
fn numbers_and_words_of_its_refusals() {
    for (text, refusal, words) in SAYS {
        let number: u32 = text.parse().unwrap();
        assert_eq!((refusal.answer(), refusal.number(), refusal.place()), (number, number, None));
        assert_eq!((Refusal::from_answer(number), u32::from(refusal)), (Some(refusal), number));
        assert_eq!(Refusal::try_from(number), Ok(refusal));
        let error: Box<dyn std::error::Error> = Box::new(refusal);
        assert_eq!(error.to_string(), words);
    }
    // The numbers beside them, and these with a place that they don't have, are answers of no refusal.
    for answer in [19, 23, 276, 277, 278] {
        assert_eq!(Refusal::from_answer(answer), None);
        assert_eq!(Refusal::try_from(answer).unwrap_err().answer(), answer);
    }
}
