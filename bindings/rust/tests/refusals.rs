//! Every refusal with its number, its place and its words, the order in which causes are tested, and that nothing is
//! written.

use migthumo::{ffi, Matrix2, Matrix3, Matrix4, Place, Refusal, UnknownAnswer, VERSION};
use std::collections::HashSet;
use Place::{First, Second};
use Refusal::{Column, InputLength, NotWhole, Order, OutputLength, Row, Singular, Unknown};

/// What an output holds before a call.
const BEFORE: f64 = 7.5;

/// More numbers than any matrix has.
const ONES: [f64; 25] = [1.0; 25];

/// What a call answers that may write to an output of this length, which it must leave as it was.
fn refused(length: usize, call: impl FnOnce(&mut [f64]) -> Result<(), Refusal>) -> Refusal {
    let mut out = vec![BEFORE; length];
    let refusal = call(&mut out).expect_err("a refusal");
    assert!(out.iter().all(|&number| number == BEFORE), "written to, though refused with {refusal}");
    refusal
}

/// Every refusal that the crate knows: what is answered, its number, its place, its words.
const KNOWN: [(Refusal, u32, u32, Option<Place>, &str); 9] = [
    (Singular, 2, 2, None, "refusal 2: the determinant compares equal to zero"),
    (InputLength, 3, 3, None, "refusal 3: an input slice has the wrong length"),
    (OutputLength, 4, 4, None, "refusal 4: the output slice has the wrong length"),
    (Order, 5, 5, None, "refusal 5: the order is not one that the operation takes"),
    (NotWhole, 6, 6, None, "refusal 6: an entry is not a whole number of magnitude at most 1024"),
    (Column(First), 11, 11, Some(First), "refusal 11: the first column number is not below the order"),
    (Row(First), 12, 12, Some(First), "refusal 12: the first row number is not below the order"),
    (Column(Second), 267, 11, Some(Second), "refusal 11: the second column number is not below the order"),
    (Row(Second), 268, 12, Some(Second), "refusal 12: the second row number is not below the order"),
];

/// Answers that are none of theirs: 0; 1, which stood for any column or row up to version 1; known numbers with a place
/// that they don't have; and others.
const OTHERS: [u32; 14] = [0, 1, 7, 10, 13, 255, 256, 257, 258, 262, 523, 524, 1 << 16, u32::MAX];

#[test]
fn numbers_places_and_words() {
    for (refusal, answer, number, place, words) in KNOWN {
        assert_eq!((refusal.answer(), refusal.number(), refusal.place()), (answer, number, place));
        let error: Box<dyn std::error::Error> = Box::new(refusal);
        assert_eq!(error.to_string(), words);
    }
    assert_eq!([First, Second].map(|place| place.to_string()), ["first", "second"]);
}

#[test]
fn answers_both_ways() {
    for (refusal, answer, ..) in KNOWN {
        assert_eq!((Refusal::from_answer(answer), u32::from(refusal)), (Some(refusal), answer));
        assert_eq!(Refusal::try_from(answer), Ok(refusal));
    }
    for answer in OTHERS {
        assert_eq!(Refusal::from_answer(answer), None);
        let error: UnknownAnswer = Refusal::try_from(answer).unwrap_err();
        assert_eq!(error.answer(), answer);
        let error: Box<dyn std::error::Error> = Box::new(error);
        assert_eq!(error.to_string(), format!("{answer} is not the answer of a refusal: 2 to 6, 11, 12, 267 or 268"));
    }
}

#[test]
fn an_answer_that_is_not_known_is_a_value() {
    for answer in OTHERS {
        let unknown = Unknown(answer);
        assert_eq!((unknown.answer(), u32::from(unknown)), (answer, answer));
        assert_eq!((unknown.number(), unknown.place()), (answer & 255, None));
        assert_eq!(unknown.to_string(), format!("refusal {answer}: its cause is not known to this crate"));
    }
    assert_ne!(Unknown(2), Singular);
}

#[test]
fn no_two_refusals_read_alike() {
    let known = KNOWN.map(|(refusal, ..)| refusal);
    let all: HashSet<Refusal> = known.into_iter().chain((0..1024).map(Unknown)).collect();
    let texts: HashSet<String> = all.iter().map(Refusal::to_string).collect();
    assert_eq!((all.len(), texts.len()), (9 + 1024, 9 + 1024));
}

#[test]
fn the_version_is_the_one_that_was_built_for() {
    assert_eq!((ffi::version(), VERSION), (2, 2));
}

/// A function of one matrix over slices.
type OfOne = fn(usize, &[f64], &mut [f64]) -> Result<(), Refusal>;

/// Those functions, each with the count of numbers that it writes for the order 3. The rows and columns that they name
/// are not below it.
const OF_ONE: [(OfOne, usize); 13] = [
    (ffi::determinant, 1),
    (ffi::invert, 9),
    (ffi::transpose, 9),
    (ffi::negate, 9),
    (ffi::diagonal, 3),
    (|order, m, out| ffi::row(order, 9, m, out), 3),
    (|order, m, out| ffi::swap_rows(order, 9, 9, m, out), 9),
    (|order, m, out| ffi::swap_columns(order, 9, 9, m, out), 9),
    (|order, m, out| ffi::swap_elements(order, 9, 9, 9, 9, m, out), 9),
    (|order, m, out| ffi::scale(order, 2.0, m, out), 9),
    (|order, m, out| ffi::divide(order, 2.0, m, out), 9),
    (|order, m, out| ffi::scale_by(order, m, 2.0, out), 9),
    (|order, m, out| ffi::divide_by(order, m, 2.0, out), 9),
];

#[test]
fn order_then_input_then_output() {
    for (call, length) in OF_ONE {
        for order in [0, 1, 5, usize::MAX] {
            assert_eq!(refused(2, |out| call(order, &ONES[..8], out)), Order);
        }
        for count in [0, 4, 8, 10, 16] {
            assert_eq!(refused(2, |out| call(3, &ONES[..count], out)), InputLength);
        }
        for wrong in [length - 1, length + 1] {
            assert_eq!(refused(wrong, |out| call(3, &ONES[..9], out)), OutputLength);
        }
    }
}

/// A function of two matrices over slices.
type OfTwo = fn(usize, &[f64], &[f64], &mut [f64]) -> Result<(), Refusal>;

#[test]
fn each_of_two_inputs_is_tested() {
    for call in [ffi::product as OfTwo, ffi::add, ffi::subtract] {
        assert_eq!(refused(4, |out| call(1, &ONES[..4], &ONES[..4], out)), Order);
        assert_eq!(refused(4, |out| call(2, &ONES[..3], &ONES[..4], out)), InputLength);
        assert_eq!(refused(4, |out| call(2, &ONES[..4], &ONES[..5], out)), InputLength);
        assert_eq!(refused(5, |out| call(2, &ONES[..4], &ONES[..4], out)), OutputLength);
    }
}

#[test]
fn lengths_before_places_and_zeros() {
    assert_eq!(refused(3, |out| ffi::row(2, 5, &ONES[..4], out)), OutputLength);
    assert_eq!(refused(2, |out| ffi::row(2, 2, &ONES[..4], out)), Row(First));
    assert_eq!(refused(3, |out| ffi::invert(2, &ONES[..4], out)), OutputLength);
    assert_eq!(refused(4, |out| ffi::invert(2, &ONES[..4], out)), Singular);
}

#[test]
fn swaps_by_value() {
    for order in 2..=4 {
        let (m, length) = (&ONES[..order * order], order * order);
        assert_eq!(refused(length, |out| ffi::swap_rows(order, 0, order, m, out)), Row(Second));
        assert_eq!(refused(length, |out| ffi::swap_rows(order, order, 0, m, out)), Row(First));
        assert_eq!(refused(length, |out| ffi::swap_columns(order, usize::MAX, usize::MAX, m, out)), Column(First));
        for (refusal, ac, ar, bc, br) in [
            (Column(First), order, 0, 0, 0),
            (Row(First), 0, order, 0, 0),
            (Column(Second), 0, 0, order, 0),
            (Row(Second), 0, 0, 0, order),
        ] {
            assert_eq!(refused(length, |out| ffi::swap_elements(order, ac, ar, bc, br, m, out)), refusal);
        }
        assert_eq!(refused(length + 1, |out| ffi::swap_rows(order, 0, order, m, out)), OutputLength);
        assert_eq!(refused(length, |out| ffi::swap_columns(order, 0, order, &m[1..], out)), InputLength);
        assert_eq!(refused(length, |out| ffi::swap_elements(5, 9, 9, 9, 9, m, out)), Order);
    }
}

/// The swaps and the row of one order, at places that are not below it. The matrix is looked at after each.
macro_rules! places {
    ($name:ident, $Matrix:ident) => {
        #[test]
        fn $name() {
            const OUTSIDE: usize = $Matrix::ORDER;
            let refused = |refusal, call: &dyn Fn(&mut $Matrix) -> Result<(), Refusal>| {
                let mut m = $Matrix::from_value(3.0);
                assert_eq!((call(&mut m), m), (Err(refusal), $Matrix::from_value(3.0)));
            };
            for (place, a, b) in
                [(Second, 0, OUTSIDE), (First, OUTSIDE, 0), (First, OUTSIDE, OUTSIDE), (First, usize::MAX, usize::MAX)]
            {
                refused(Row(place), &|m| m.swap_rows(a, b));
                refused(Column(place), &|m| m.swap_columns(a, b));
                refused(Column(place), &|m| m.swap_elements((a, 0), (b, 0)));
                refused(Row(place), &|m| m.swap_elements((0, a), (0, b)));
            }
            // The column of a place comes before its row, and the first place before the second.
            refused(Column(First), &|m| m.swap_elements((OUTSIDE, OUTSIDE), (0, 0)));
            refused(Row(First), &|m| m.swap_elements((0, OUTSIDE), (OUTSIDE, 0)));
            refused(Column(Second), &|m| m.swap_elements((0, 0), (OUTSIDE, OUTSIDE)));
            refused(Row(Second), &|m| m.swap_elements((0, 0), (0, OUTSIDE)));
            assert_eq!($Matrix::identity().row(OUTSIDE), Err(Row(First)));
        }
    };
}

places!(places_of_order_2, Matrix2);
places!(places_of_order_3, Matrix3);
places!(places_of_order_4, Matrix4);

#[test]
fn embeddings_and_rotations() {
    for (order, to) in [(1, 2), (2, 2), (3, 2), (3, 3), (4, 4), (2, 5), (4, 5), (0, 3)] {
        assert_eq!(refused(to * to, |out| ffi::embed(order, to, &ONES[..order * order], out)), Order);
    }
    assert_eq!(refused(9, |out| ffi::embed(2, 3, &ONES[..9], out)), InputLength);
    assert_eq!(refused(4, |out| ffi::embed(2, 3, &ONES[..4], out)), OutputLength);
    assert_eq!(refused(9, |out| ffi::from_angle(0.0, 1.0, out)), OutputLength);
    for call in [ffi::from_angle_x, ffi::from_angle_y, ffi::from_angle_z] {
        assert_eq!(refused(4, |out| call(2, 0.0, 1.0, out)), Order);
        assert_eq!(refused(25, |out| call(5, 0.0, 1.0, out)), Order);
        assert_eq!(refused(16, |out| call(3, 0.0, 1.0, out)), OutputLength);
    }
    assert_eq!(refused(4, |out| ffi::from_axis_angle(2, 0.0, 0.0, 1.0, 0.0, 1.0, out)), Order);
    assert_eq!(refused(9, |out| ffi::from_axis_angle(4, 0.0, 0.0, 1.0, 0.0, 1.0, out)), OutputLength);
}

#[test]
fn moves() {
    for order in 2..=4 {
        let m = &ONES[..order * order];
        assert_eq!(refused(order + 1, |out| ffi::move_vectors(order, m, &ONES[..order + 1], out)), InputLength);
        assert_eq!(refused(order + 1, |out| ffi::move_vectors(order, m, &ONES[..order], out)), OutputLength);
        assert_eq!(refused(0, |out| ffi::move_vectors(order, m, &ONES[..order], out)), OutputLength);
    }
    assert_eq!(refused(4, |out| ffi::move_points(2, &ONES[..4], &ONES[..4], out)), Order);
    assert_eq!(refused(3, |out| Matrix3::identity().move_points(&ONES[..3], out)), InputLength);
    assert_eq!(refused(4, |out| Matrix4::identity().move_points(&ONES[..3], out)), OutputLength);
    assert_eq!(refused(4, |out| Matrix2::identity().move_vectors(&ONES[..3], out)), InputLength);
}

#[test]
fn the_exact_engine() {
    for entry in [0.5, 1025.0, -1025.0, 1024.0000000000002, f64::NAN, f64::INFINITY, f64::MIN_POSITIVE] {
        let m = [1.0, 0.0, 0.0, entry];
        let (mut sum, mut flag) = ([99], [99]);
        assert_eq!(ffi::signed_sum(2, &m, &mut sum), Err(NotWhole));
        assert_eq!(ffi::undoable(2, &m, &mut flag), Err(NotWhole));
        assert_eq!((sum, flag), ([99], [99]));
    }
    let mut many = [99; 2];
    assert_eq!(ffi::signed_sum(2, &[0.5; 4], &mut many), Err(OutputLength));
    assert_eq!(ffi::signed_sum(2, &[0.5; 5], &mut many), Err(InputLength));
    assert_eq!(ffi::signed_sum(1, &[0.5; 5], &mut many), Err(Order));
    assert_eq!(many, [99; 2]);
}
