//! What `undoable` entitles to, on matrices of every order: the inverse, its entries, both products, the way back.

use migthumo::{Matrix2, Matrix3, Matrix4, Refusal, Vector2, Vector3, Vector4};

/// Whole numbers from -3 to 3 that follow from a seed.
struct Small(u64);

impl Small {
    fn next(&mut self) -> i64 {
        self.0 = self.0.wrapping_mul(6364136223846793005).wrapping_add(1442695040888963407);
        (self.0 >> 33) as i64 % 7 - 3
    }
}

/// The determinant of a square of whole numbers, by its first column.
fn determinant(columns: &[Vec<i64>]) -> i64 {
    match columns.len() {
        0 => 1,
        order => (0..order).map(|r| columns[0][r] * cofactor(columns, 0, r)).sum(),
    }
}

/// The determinant without the column c and the row r, with its sign.
fn cofactor(columns: &[Vec<i64>], c: usize, r: usize) -> i64 {
    let without = |column: &Vec<i64>| [&column[..r], &column[r + 1..]].concat();
    let minor: Vec<Vec<i64>> = [&columns[..c], &columns[c + 1..]].concat().iter().map(without).collect();
    determinant(&minor) * if (c + r) % 2 == 0 { 1 } else { -1 }
}

/// Many matrices of one order, each held to exact whole numbers; `$back` is the largest entry of a vector.
macro_rules! entitles {
    ($name:ident, $Matrix:ident, $Vector:ident, $order:literal, $back:literal) => {
        #[test]
        fn $name() {
            let mut small = Small($order);
            let (mut yes, mut no) = (0, 0);
            for _ in 0..3000 {
                let columns: Vec<Vec<i64>> = (0..$order).map(|_| (0..$order).map(|_| small.next()).collect()).collect();
                let m = $Matrix::from(std::array::from_fn(|c| std::array::from_fn(|r| columns[c][r] as f64)));
                let sum = determinant(&columns);
                assert_eq!(m.signed_sum(), Ok(sum));
                assert_eq!(m.undoable(), Ok(sum.unsigned_abs().is_power_of_two()));
                if m.undoable() == Ok(false) {
                    no += 1;
                    continue;
                }
                yes += 1;
                let inverse = m.invert().expect("the inverse is given");
                for (c, r) in (0..$order).flat_map(|c| (0..$order).map(move |r| (c, r))) {
                    // The divisor is a power of two, so the fraction is exact.
                    assert_eq!(inverse[c][r], cofactor(&columns, r, c) as f64 / sum as f64);
                }
                assert_eq!((m * inverse, inverse * m), ($Matrix::identity(), $Matrix::identity()));
                for v in [[$back; $order], [-$back; $order], std::array::from_fn(|_| small.next() as f64 * $back / 3.0)]
                {
                    let v = $Vector::from(v.map(f64::trunc));
                    assert_eq!(inverse * (m * v), v);
                }
            }
            assert!(yes > 200 && no > 200, "{yes} and {no}");
        }
    };
}

entitles!(entitles_of_order_2, Matrix2, Vector2, 2, 32768.0);
entitles!(entitles_of_order_3, Matrix3, Vector3, 3, 32768.0);
entitles!(entitles_of_order_4, Matrix4, Vector4, 4, 64.0);

#[test]
fn scales_and_offsets_in_sixty_fourths() {
    // Scaled by a half, 10 to the right and 3 down, all in sixty-fourths; the last row is 0, 0, 1.
    let place = Matrix3::new(32.0, 0.0, 0.0, 0.0, 32.0, 0.0, 640.0, -192.0, 1.0);
    assert_eq!((place.signed_sum(), place.undoable()), (Ok(1024), Ok(true)));
    let placed = place * Vector3::new(2.0, 4.0, 1.0);
    assert_eq!(placed, Vector3::new(11.0 * 64.0, -64.0, 1.0));
    assert_eq!(place.invert().map(|undo| undo * placed), Ok(Vector3::new(2.0, 4.0, 1.0)));
}

#[test]
fn small_entries_underflow_and_rounded_ones_are_not_flat() {
    assert_eq!(Matrix2::from_value(1e-200).invert(), Err(Refusal::Singular));
    assert!(Matrix2::new(0.1, 0.3, 0.7, 2.1).invert().is_ok());
}
