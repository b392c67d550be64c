//! Numbers to vectors and matrices, and back, through their public fields.

/// What is made of numbers.
pub trait Take {
    /// Made of the first numbers, as many as it has.
    fn take(x: &[f64]) -> Self;
}

/// What has numbers.
pub trait Entries {
    /// Its numbers, a matrix's column by column.
    fn entries(&self) -> Vec<f64>;
}

impl Entries for f64 {
    fn entries(&self) -> Vec<f64> {
        vec![*self]
    }
}

impl<const N: usize> Take for [[f64; N]; N] {
    fn take(x: &[f64]) -> Self {
        std::array::from_fn(|column| std::array::from_fn(|row| x[column * N + row]))
    }
}

impl<const N: usize> Entries for [[f64; N]; N] {
    fn entries(&self) -> Vec<f64> {
        self.concat()
    }
}

macro_rules! vector {
    ($Vector:ty { $($field:ident: $place:expr),+ }) => {
        impl Take for $Vector {
            fn take(x: &[f64]) -> Self {
                Self { $($field: x[$place]),+ }
            }
        }
        impl Entries for $Vector {
            fn entries(&self) -> Vec<f64> {
                vec![$(self.$field),+]
            }
        }
    };
}

macro_rules! matrix {
    ($Matrix:ty { $($field:ident: $start:expr),+ }) => {
        impl Take for $Matrix {
            fn take(x: &[f64]) -> Self {
                Self { $($field: Take::take(&x[$start..])),+ }
            }
        }
        impl Entries for $Matrix {
            fn entries(&self) -> Vec<f64> {
                [$(self.$field.entries()),+].concat()
            }
        }
    };
}

/// The vectors and matrices of a crate: cgmath's with `<f64>`, Migthumo's without.
macro_rules! records {
    ($crate_name:ident $($f64:tt)*) => {
        vector!($crate_name::Vector2 $($f64)* { x: 0, y: 1 });
        vector!($crate_name::Vector3 $($f64)* { x: 0, y: 1, z: 2 });
        vector!($crate_name::Vector4 $($f64)* { x: 0, y: 1, z: 2, w: 3 });
        matrix!($crate_name::Matrix2 $($f64)* { x: 0, y: 2 });
        matrix!($crate_name::Matrix3 $($f64)* { x: 0, y: 3, z: 6 });
        matrix!($crate_name::Matrix4 $($f64)* { x: 0, y: 4, z: 8, w: 12 });
    };
}

records!(cgmath<f64>);
#[cfg(feature = "boundary")]
records!(migthumo);
