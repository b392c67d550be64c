//! What only moves entries keeps every bit of them, those of a NaN too.

use migthumo::{ffi, Matrix2, Matrix3, Matrix4, Vector2, Vector3, Vector4};

/// Bit patterns of all kinds: NaNs that signal and that are quiet, both zeros, infinities, subnormal numbers.
const PATTERNS: [u64; 16] = [
    0x7ff0000000000001,
    0xfff0000000000abc,
    0x7ff8000000000000,
    0xfff8dead0000beef,
    0x8000000000000000,
    0x0000000000000000,
    0x7ff0000000000000,
    0xfff0000000000000,
    0x0000000000000001,
    0x800fffffffffffff,
    0x7fefffffffffffff,
    0x7ff7ffffffffffff,
    0xffffffffffffffff,
    0x3ff0000000000000,
    0x7ffc000000000123,
    0xbfe5555555555555,
];

/// The matrix of these patterns, column by column, as a flat list.
fn entries(order: usize) -> Vec<f64> {
    PATTERNS[..order * order].iter().map(|&bits| f64::from_bits(bits)).collect()
}

/// The bits of each number.
fn bits(numbers: &[f64]) -> Vec<u64> {
    numbers.iter().map(|number| number.to_bits()).collect()
}

/// The patterns at these places.
fn at(places: impl IntoIterator<Item = usize>) -> Vec<u64> {
    places.into_iter().map(|place| PATTERNS[place]).collect()
}

/// Every place of a matrix, column by column, as a column and a row.
fn places(order: usize) -> impl Iterator<Item = (usize, usize)> {
    (0..order).flat_map(move |c| (0..order).map(move |r| (c, r)))
}

#[test]
fn slices() {
    for order in 2..=4 {
        let m = entries(order);
        let mut out = m.clone();
        ffi::transpose(order, &m, &mut out).unwrap();
        assert_eq!(bits(&out), at(places(order).map(|(c, r)| r * order + c)));
        ffi::swap_rows(order, 0, order - 1, &m, &mut out).unwrap();
        let other = |i: usize| [order - 1, 0].into_iter().find(|&j| i + j == order - 1 && i != j).unwrap_or(i);
        assert_eq!(bits(&out), at(places(order).map(|(c, r)| c * order + other(r))));
        ffi::swap_columns(order, 0, order - 1, &m, &mut out).unwrap();
        assert_eq!(bits(&out), at(places(order).map(|(c, r)| other(c) * order + r)));
        ffi::swap_elements(order, 0, 0, 0, 1, &m, &mut out).unwrap();
        assert_eq!(bits(&out), at([1, 0].into_iter().chain(2..order * order)));
        let mut vector = vec![0.0; order];
        ffi::row(order, 1, &m, &mut vector).unwrap();
        assert_eq!(bits(&vector), at((0..order).map(|c| c * order + 1)));
        ffi::diagonal(order, &m, &mut vector).unwrap();
        assert_eq!(bits(&vector), at((0..order).map(|c| c * order + c)));
    }
}

#[test]
fn embeddings() {
    for (order, to) in [(2, 3), (2, 4), (3, 4)] {
        let mut out = vec![0.0; to * to];
        ffi::embed(order, to, &entries(order), &mut out).unwrap();
        let want = places(to).map(|(c, r)| match c < order && r < order {
            true => PATTERNS[c * order + r],
            false => f64::from(u8::from(c == r)).to_bits(),
        });
        assert_eq!(bits(&out), want.collect::<Vec<_>>());
    }
}

/// The bits of a matrix of each order after its record, array and swaps have carried it.
macro_rules! records {
    ($name:ident, $Matrix:ident, $Vector:ident, $order:literal) => {
        #[test]
        fn $name() {
            let columns = std::array::from_fn(|c| std::array::from_fn(|r| f64::from_bits(PATTERNS[c * $order + r])));
            let m = $Matrix::from(columns);
            let flat = |m: $Matrix| bits(<[[f64; $order]; $order]>::from(m).as_flattened());
            assert_eq!(flat(m), PATTERNS[..$order * $order]);
            assert_eq!(flat(m.transpose().transpose()), flat(m));
            assert_eq!(bits(&<[f64; $order]>::from(m.row(1).unwrap())), at((0..$order).map(|c| c * $order + 1)));
            assert_eq!(bits($Vector::flat(&[m.x, m.y])), PATTERNS[..2 * $order]);
            let mut swapped = m;
            swapped.swap_rows(0, 1).unwrap();
            assert_eq!(swapped[0][0].to_bits(), PATTERNS[1]);
            swapped.swap_columns(0, 1).unwrap();
            assert_eq!(swapped[1][0].to_bits(), PATTERNS[1]);
            swapped.swap_elements((1, 0), (1, 1)).unwrap();
            assert_eq!(swapped[1][1].to_bits(), PATTERNS[1]);
            swapped.swap_elements((1, 0), (1, 1)).unwrap();
            swapped.swap_columns(0, 1).unwrap();
            swapped.swap_rows(0, 1).unwrap();
            assert_eq!(flat(swapped), flat(m));
        }
    };
}

records!(records_of_order_2, Matrix2, Vector2, 2);
records!(records_of_order_3, Matrix3, Vector3, 3);
records!(records_of_order_4, Matrix4, Vector4, 4);

#[test]
fn in_place_as_by_value() {
    let columns = std::array::from_fn(|c| std::array::from_fn(|r| f64::from_bits(PATTERNS[c * 4 + r])));
    let flat = |m: Matrix4| bits(<[[f64; 4]; 4]>::from(m).as_flattened());
    let m = entries(4);
    let mut out = [0.0; 16];
    for (a, b) in places(4) {
        let mut lent = Matrix4::from(columns);
        ffi::swap_rows_mut(&mut lent, a, b).unwrap();
        ffi::swap_rows(4, a, b, &m, &mut out).unwrap();
        assert_eq!(flat(lent), bits(&out));
        let mut lent = Matrix4::from(columns);
        ffi::swap_columns_mut(&mut lent, a, b).unwrap();
        ffi::swap_columns(4, a, b, &m, &mut out).unwrap();
        assert_eq!(flat(lent), bits(&out));
        for (c, r) in places(4) {
            let mut lent = Matrix4::from(columns);
            ffi::swap_elements_mut(&mut lent, a, b, c, r).unwrap();
            ffi::swap_elements(4, a, b, c, r, &m, &mut out).unwrap();
            assert_eq!(flat(lent), bits(&out));
        }
    }
}

#[test]
fn the_sign_of_a_zero() {
    let zeros = Matrix2::new(0.0, -0.0, 0.0, -0.0);
    let turned = <[[f64; 2]; 2]>::from(-zeros).map(|column| column.map(f64::to_bits));
    assert_eq!(turned, [[0x8000000000000000, 0], [0x8000000000000000, 0]]);
    assert_eq!(Matrix2::from_angle(0.0, 1.0)[1][0].to_bits(), 0x8000000000000000);
    assert_eq!(Matrix4::from_angle_y(0.0, 1.0)[0][2].to_bits(), 0x8000000000000000);
}
