//! The cases of document 01, 'Reference cases, both sides of each edge', R1 to R12 and those that are only run, through
//! the crate's own names.

use migthumo::{ffi, Matrix2, Matrix3, Matrix4, Place, Refusal, Vector3};

/// The bits of every entry, column by column.
fn bits2(m: Matrix2) -> [[u64; 2]; 2] {
    <[[f64; 2]; 2]>::from(m).map(|column| column.map(f64::to_bits))
}

#[test]
fn r1_whole_inverse() {
    let m = Matrix2::new(3.0, 5.0, 1.0, 2.0);
    assert_eq!(m.determinant(), 1.0);
    assert_eq!(m.invert(), Ok(Matrix2::new(2.0, -5.0, -1.0, 3.0)));
}

#[test]
fn r2_zeros_of_the_inverse_are_negative() {
    let inverse = Matrix2::new(2.0, 0.0, 0.0, 4.0).invert().unwrap();
    assert_eq!(bits2(inverse), bits2(Matrix2::new(0.5, -0.0, -0.0, 0.25)));
}

#[test]
fn r3_singular() {
    assert_eq!(Matrix2::new(1.0, 2.0, 2.0, 4.0).invert(), Err(Refusal::Singular));
}

#[test]
fn r4_negative_zero_is_singular() {
    let m = Matrix2::new(-1.0, 0.0, 0.0, 0.0);
    assert_eq!(m.determinant().to_bits(), (-0.0f64).to_bits());
    assert_eq!(m.invert().unwrap_err().number(), 2);
}

#[test]
fn r5_nan_is_inverted() {
    let m = Matrix2::new(f64::NAN, 0.0, 0.0, 0.0);
    assert!(m.determinant().is_nan());
    let inverse = <[[f64; 2]; 2]>::from(m.invert().unwrap());
    assert!(inverse.iter().flatten().all(|entry| entry.is_nan()));
}

#[test]
fn r6_order_3() {
    let m = Matrix3::new(0.0, 1.0, 0.0, -1.0, 0.0, 0.0, 10.0, 20.0, 1.0);
    assert_eq!(m.determinant(), 1.0);
    assert_eq!(m.invert(), Ok(Matrix3::new(0.0, -1.0, 0.0, 1.0, 0.0, 0.0, -20.0, 10.0, 1.0)));
}

#[test]
fn r7_and_r8_products_both_ways() {
    let (a, b) = (Matrix2::new(1.0, 0.0, 1.0, 1.0), Matrix2::new(1.0, 1.0, 0.0, 1.0));
    assert_eq!(a * b, Matrix2::new(2.0, 1.0, 1.0, 1.0));
    assert_eq!(b * a, Matrix2::new(1.0, 1.0, 1.0, 2.0));
}

#[test]
fn r9_quarter_turn_around_z() {
    let turn = Matrix3::from_axis_angle(Vector3::new(0.0, 0.0, 1.0), 1.0, 0.0);
    assert_eq!(turn, Matrix3::new(0.0, 1.0, 0.0, -1.0, 0.0, 0.0, 0.0, 0.0, 1.0));
}

#[test]
fn r10_order_4() {
    let m = Matrix4::from([[2.0, 0.0, 0.0, 0.0], [0.0, 2.0, 0.0, 0.0], [0.0, 0.0, 2.0, 0.0], [4.0, 6.0, 8.0, 1.0]]);
    let inverse = [[0.5, 0.0, 0.0, 0.0], [0.0, 0.5, 0.0, 0.0], [0.0, 0.0, 0.5, 0.0], [-2.0, -3.0, -4.0, 1.0]];
    assert_eq!(m.determinant(), 8.0);
    assert_eq!(m.invert(), Ok(Matrix4::from(inverse)));
}

#[test]
fn r11_equal_numbers() {
    let mut m = Matrix2::new(1.0, 2.0, 3.0, 4.0);
    assert_eq!(m.swap_rows(1, 1), Ok(()));
    assert_eq!(m.swap_columns(5, 5), Err(Refusal::Column(Place::First)));
    assert_eq!(m, Matrix2::new(1.0, 2.0, 3.0, 4.0));
}

#[test]
fn r12_edge_of_the_engine() {
    assert_eq!(Matrix2::new(1024.0, -0.0, 0.0, 1024.0).signed_sum(), Ok(1 << 20));
    assert_eq!(Matrix2::new(1025.0, 0.0, 0.0, 1.0).signed_sum(), Err(Refusal::NotWhole));
    assert_eq!(Matrix2::new(0.5, 0.0, 0.0, 1.0).signed_sum(), Err(Refusal::NotWhole));
}

#[test]
fn a_determinant_that_underflows_is_singular() {
    let m = Matrix2::from_value(1e-200);
    assert_eq!(m.determinant(), 0.0);
    assert_eq!(m.invert(), Err(Refusal::Singular));
}

#[test]
fn bulk_moves_at_their_edges() {
    let mut out = [7.0; 5];
    let ones = [1.0; 25];
    assert_eq!(ffi::move_vectors(5, &ones, &ones[..5], &mut out), Err(Refusal::Order));
    assert_eq!(ffi::move_vectors(3, &ones[..8], &ones[..3], &mut out[..3]), Err(Refusal::InputLength));
    assert_eq!(ffi::move_vectors(3, &ones[..9], &ones[..3], &mut out[..2]), Err(Refusal::OutputLength));
    assert_eq!(ffi::move_vectors(3, &ones[..9], &[], &mut []), Ok(()));
    assert_eq!(out, [7.0; 5]);
}
