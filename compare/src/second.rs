//! A second computation, in plain Rust, of what cgmath can't be asked: from_scale of order 2, which it
//! lacks, and rotations whose sine and cosine are handed in.

/// A matrix of order 2, column by column.
pub fn from_scale_2(value: f64) -> Vec<f64> {
    vec![value, 0.0, 0.0, value]
}

/// A rotation of the plane.
pub fn from_angle(s: f64, c: f64) -> Vec<f64> {
    vec![c, s, -s, c]
}

/// A rotation around the x axis, of order 3.
pub fn from_angle_x(s: f64, c: f64) -> Vec<f64> {
    vec![1.0, 0.0, 0.0, 0.0, c, s, 0.0, -s, c]
}

/// A rotation around the y axis, of order 3.
pub fn from_angle_y(s: f64, c: f64) -> Vec<f64> {
    vec![c, 0.0, -s, 0.0, 1.0, 0.0, s, 0.0, c]
}

/// A rotation around the z axis, of order 3.
pub fn from_angle_z(s: f64, c: f64) -> Vec<f64> {
    vec![c, s, 0.0, -s, c, 0.0, 0.0, 0.0, 1.0]
}

/// A rotation around an axis of any length, of order 3: entry (i, j) is (1 - c) times the two coordinates
/// of the axis, the lower one first, plus c on the diagonal and s times the third one beside it.
pub fn from_axis_angle(axis: &[f64], s: f64, c: f64) -> Vec<f64> {
    let mut entries = Vec::new();
    for column in 0..3 {
        for row in 0..3 {
            let product = (1.0 - c) * axis[column.min(row)] * axis[column.max(row)];
            entries.push(if column == row {
                product + c
            } else if (column + 1) % 3 == row {
                product + s * axis[3 - column - row]
            } else {
                product - s * axis[3 - column - row]
            });
        }
    }
    entries
}

/// A matrix of order 3 in the corner of the identity of order 4.
pub fn embedded(entries: Vec<f64>) -> Vec<f64> {
    let mut larger = Vec::new();
    for column in entries.chunks(3) {
        larger.extend_from_slice(column);
        larger.push(0.0);
    }
    larger.extend([0.0, 0.0, 0.0, 1.0]);
    larger
}
