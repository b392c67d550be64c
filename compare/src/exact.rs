//! The exact engine a second time, over i128: the signed sum by expansion along the first row, again and again.

/// The columns of a matrix of whole numbers.
pub type Columns = Vec<Vec<i128>>;

/// The whole numbers of a matrix, or nothing where an entry is no whole number of magnitude at most 1024.
pub fn whole(order: usize, x: &[f64]) -> Option<Columns> {
    let taken = x.iter().all(|x| x.fract() == 0.0 && x.abs() <= 1024.0);
    taken.then(|| x.chunks(order).map(|column| column.iter().map(|x| *x as i128).collect()).collect())
}

/// The signed sum: each entry of the first row times its cofactor. That of no columns is 1.
pub fn signed_sum(columns: &Columns) -> i128 {
    if columns.is_empty() {
        return 1;
    }
    (0..columns.len()).map(|column| columns[column][0] * cofactor(columns, column, 0)).sum()
}

/// The signed sum without a column and a row, with the sign of the place.
pub fn cofactor(columns: &Columns, column: usize, row: usize) -> i128 {
    let mut kept = columns.clone();
    kept.remove(column);
    for other in &mut kept {
        other.remove(row);
    }
    signed_sum(&kept) * if (column + row) % 2 == 0 { 1 } else { -1 }
}

/// Whether a sum's magnitude is a power of two.
pub fn undoable(sum: i128) -> bool {
    sum.unsigned_abs().is_power_of_two()
}
