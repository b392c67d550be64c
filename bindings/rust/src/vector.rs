//! Vectors of two, three and four numbers: data, without arithmetic.

use crate::ffi;
use crate::square::views;
use core::fmt;
use core::ops::{Index, IndexMut};
use core::ptr;

/// Stops a read or write at a place that is not there, as cgmath does. Nothing else here panics.
#[cold]
#[track_caller]
#[allow(clippy::panic)]
pub(crate) fn not_below(place: usize, length: usize) -> ! {
    panic!("place {place} is not below {length}")
}

/// A vector with its fields, `$length` of them; `$import` opens each example.
macro_rules! vector {
    ($(#[$about:meta])* $Vector:ident, $length:literal, { $($field:ident: $place:literal),+ }, $import:literal) => {
        $(#[$about])*
        #[derive(Clone, Copy, PartialEq)]
        #[repr(C)]
        pub struct $Vector {
            $(
                #[doc = concat!("Number ", $place, ".")]
                pub $field: f64,
            )+
        }

        impl $Vector {
            /// How many numbers.
            pub const LENGTH: usize = $length;

            /// The vector of these numbers.
            #[inline]
            #[must_use]
            pub const fn new($($field: f64),+) -> Self {
                Self { $($field),+ }
            }

            /// The vectors' numbers in a row, as the moves of many vectors take them. Nothing is copied.
            ///
            /// ```
            #[doc = $import]
            ///
            /// let vectors = [Vector::from([1.0; Vector::LENGTH]), Vector::from([2.0; Vector::LENGTH])];
            /// let numbers = Vector::flat(&vectors);
            /// assert_eq!(numbers.len(), vectors.len() * Vector::LENGTH);
            /// assert_eq!(numbers[Vector::LENGTH], 2.0);
            /// ```
            #[inline]
            #[must_use]
            pub fn flat(vectors: &[Self]) -> &[f64] {
                ffi::flat(vectors)
            }

            /// The vectors' numbers in a row, to be written to.
            ///
            /// ```
            #[doc = $import]
            ///
            /// let mut vectors = [Vector::from([1.0; Vector::LENGTH]); 3];
            /// Vector::flat_mut(&mut vectors).fill(5.0);
            /// assert_eq!(vectors[2], Vector::from([5.0; Vector::LENGTH]));
            /// ```
            #[inline]
            #[must_use]
            pub fn flat_mut(vectors: &mut [Self]) -> &mut [f64] {
                ffi::flat_mut(vectors)
            }

            /// Whether every number is finite: no NaN and no infinity.
            ///
            /// ```
            #[doc = $import]
            ///
            /// let mut v = Vector::from([f64::MAX; Vector::LENGTH]);
            /// assert!(v.is_finite());
            /// v[1] = f64::NAN;
            /// assert!(!v.is_finite());
            /// ```
            #[inline]
            #[must_use]
            pub const fn is_finite(&self) -> bool {
                $(self.$field.is_finite())&&+
            }

            /// Where the numbers start.
            #[inline]
            #[must_use]
            pub const fn as_ptr(&self) -> *const f64 {
                ptr::from_ref(self).cast()
            }

            /// Where the numbers start, to be written to.
            #[inline]
            #[must_use]
            pub const fn as_mut_ptr(&mut self) -> *mut f64 {
                ptr::from_mut(self).cast()
            }
        }

        views!($Vector, [f64; $length]);

        impl From<[f64; $length]> for $Vector {
            #[inline]
            fn from([$($field),+]: [f64; $length]) -> Self {
                Self { $($field),+ }
            }
        }

        impl From<$Vector> for [f64; $length] {
            #[inline]
            fn from(vector: $Vector) -> Self {
                [$(vector.$field),+]
            }
        }

        impl Index<usize> for $Vector {
            type Output = f64;

            #[inline]
            fn index(&self, place: usize) -> &f64 {
                match place {
                    $($place => &self.$field,)+
                    _ => not_below(place, $length),
                }
            }
        }

        impl IndexMut<usize> for $Vector {
            #[inline]
            fn index_mut(&mut self, place: usize) -> &mut f64 {
                match place {
                    $($place => &mut self.$field,)+
                    _ => not_below(place, $length),
                }
            }
        }

        impl fmt::Debug for $Vector {
            fn fmt(&self, f: &mut fmt::Formatter<'_>) -> fmt::Result {
                f.write_str(concat!(stringify!($Vector), " "))?;
                fmt::Debug::fmt(&<[f64; $length]>::from(*self), f)
            }
        }
    };
}

vector! {
    /// Two numbers.
    ///
    /// ```
    /// use migthumo::Vector2;
    ///
    /// let mut v = Vector2::new(1.0, 2.0);
    /// v[1] = 5.0;
    /// assert_eq!((v.x, v.y), (1.0, 5.0));
    /// assert_eq!(v, Vector2::from([1.0, 5.0]));
    /// assert_eq!(<[f64; 2]>::from(v), [1.0, 5.0]);
    /// assert_eq!(format!("{v:?}"), "Vector2 [1.0, 5.0]");
    /// ```
    Vector2, 2, { x: 0, y: 1 }, "use migthumo::Vector2 as Vector;"
}

vector! {
    /// Three numbers.
    ///
    /// ```
    /// use migthumo::Vector3;
    ///
    /// let mut v = Vector3::new(1.0, 2.0, 3.0);
    /// v[2] = 5.0;
    /// assert_eq!((v.x, v.y, v.z), (1.0, 2.0, 5.0));
    /// assert_eq!(v, Vector3::from([1.0, 2.0, 5.0]));
    /// assert_eq!(<[f64; 3]>::from(v), [1.0, 2.0, 5.0]);
    /// assert_eq!(format!("{v:?}"), "Vector3 [1.0, 2.0, 5.0]");
    /// ```
    Vector3, 3, { x: 0, y: 1, z: 2 }, "use migthumo::Vector3 as Vector;"
}

vector! {
    /// Four numbers.
    ///
    /// ```
    /// use migthumo::Vector4;
    ///
    /// let mut v = Vector4::new(1.0, 2.0, 3.0, 4.0);
    /// v[3] = 5.0;
    /// assert_eq!((v.x, v.y, v.z, v.w), (1.0, 2.0, 3.0, 5.0));
    /// assert_eq!(v, Vector4::from([1.0, 2.0, 3.0, 5.0]));
    /// assert_eq!(<[f64; 4]>::from(v), [1.0, 2.0, 3.0, 5.0]);
    /// assert_eq!(format!("{v:?}"), "Vector4 [1.0, 2.0, 3.0, 5.0]");
    /// ```
    Vector4, 4, { x: 0, y: 1, z: 2, w: 3 }, "use migthumo::Vector4 as Vector;"
}
