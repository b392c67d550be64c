//! The operators, and sums and products of iterators, written once for the three orders. Each takes its matrices and
//! vectors by value or lent.

/// An operator between two records, by the left one's method.
macro_rules! between {
    ($Operator:ident, $name:ident, $Left:ident, $Right:ident, $Output:ident, $method:ident) => {
        impl core::ops::$Operator<$Right> for $Left {
            type Output = $Output;

            #[inline]
            fn $name(self, right: $Right) -> $Output {
                self.$method(&right)
            }
        }

        impl core::ops::$Operator<&$Right> for $Left {
            type Output = $Output;

            #[inline]
            fn $name(self, right: &$Right) -> $Output {
                self.$method(right)
            }
        }

        impl core::ops::$Operator<$Right> for &$Left {
            type Output = $Output;

            #[inline]
            fn $name(self, right: $Right) -> $Output {
                self.$method(&right)
            }
        }

        impl core::ops::$Operator<&$Right> for &$Left {
            type Output = $Output;

            #[inline]
            fn $name(self, right: &$Right) -> $Output {
                self.$method(right)
            }
        }
    };
}
pub(crate) use between;

/// An operator between a matrix and a number, by two methods: one for the number on the right, one for the left.
macro_rules! with_number {
    ($Operator:ident, $name:ident, $Matrix:ident, $on_right:ident, $on_left:ident) => {
        impl core::ops::$Operator<f64> for $Matrix {
            type Output = $Matrix;

            #[inline]
            fn $name(self, number: f64) -> $Matrix {
                self.$on_right(number)
            }
        }

        impl core::ops::$Operator<f64> for &$Matrix {
            type Output = $Matrix;

            #[inline]
            fn $name(self, number: f64) -> $Matrix {
                self.$on_right(number)
            }
        }

        impl core::ops::$Operator<$Matrix> for f64 {
            type Output = $Matrix;

            #[inline]
            fn $name(self, matrix: $Matrix) -> $Matrix {
                matrix.$on_left(self)
            }
        }

        impl core::ops::$Operator<&$Matrix> for f64 {
            type Output = $Matrix;

            #[inline]
            fn $name(self, matrix: &$Matrix) -> $Matrix {
                matrix.$on_left(self)
            }
        }
    };
}
pub(crate) use with_number;

/// An operator that changes the matrix on its left, by a method that makes the changed one.
macro_rules! assigning {
    ($Operator:ident, $name:ident, $Matrix:ident, $Right:ident, |$left:ident, $right:ident| $changed:expr) => {
        impl core::ops::$Operator<$Right> for $Matrix {
            #[inline]
            fn $name(&mut self, $right: $Right) {
                let $left = &*self;
                *self = $changed;
            }
        }
    };
}
pub(crate) use assigning;

/// A fold of an iterator over matrices, by value or lent, from the left.
macro_rules! folding {
    ($Fold:ident, $name:ident, $Matrix:ident, $first:ident, $method:ident) => {
        impl core::iter::$Fold for $Matrix {
            #[inline]
            fn $name<I: Iterator<Item = $Matrix>>(matrices: I) -> $Matrix {
                matrices.fold($Matrix::$first(), |before, matrix| before.$method(&matrix))
            }
        }

        impl<'a> core::iter::$Fold<&'a $Matrix> for $Matrix {
            #[inline]
            fn $name<I: Iterator<Item = &'a $Matrix>>(matrices: I) -> $Matrix {
                matrices.fold($Matrix::$first(), |before, matrix| before.$method(matrix))
            }
        }
    };
}
pub(crate) use folding;

/// All operators of one order.
macro_rules! operators {
    ($Matrix:ident, $Vector:ident, $order:literal) => {
        impl $Matrix {
            /// This matrix and the other, entry by entry.
            #[inline]
            fn plus(&self, other: &Self) -> Self {
                given(|out| ffi::add($order, ffi::numbers(self), ffi::numbers(other), out))
            }

            /// This matrix less the other, entry by entry.
            #[inline]
            fn less(&self, other: &Self) -> Self {
                given(|out| ffi::subtract($order, ffi::numbers(self), ffi::numbers(other), out))
            }

            /// This matrix times the other.
            #[inline]
            fn times(&self, other: &Self) -> Self {
                given(|out| ffi::product($order, ffi::numbers(self), ffi::numbers(other), out))
            }

            /// This matrix times the vector: a move of one.
            #[inline]
            fn moved(&self, vector: &$Vector) -> $Vector {
                given(|out| ffi::move_vectors($order, ffi::numbers(self), ffi::numbers(vector), out))
            }

            /// Each entry times the number, on the right.
            #[inline]
            fn scaled_by(&self, number: f64) -> Self {
                given(|out| ffi::scale_by($order, ffi::numbers(self), number, out))
            }

            /// Each entry divided by the number, on the right.
            #[inline]
            fn divided_by(&self, number: f64) -> Self {
                given(|out| ffi::divide_by($order, ffi::numbers(self), number, out))
            }

            /// The number, on the left, times each entry.
            #[inline]
            fn scaled(&self, number: f64) -> Self {
                given(|out| ffi::scale($order, number, ffi::numbers(self), out))
            }

            /// The number, on the left, divided by each entry.
            #[inline]
            fn dividing(&self, number: f64) -> Self {
                given(|out| ffi::divide($order, number, ffi::numbers(self), out))
            }

            /// Every sign turned.
            #[inline]
            fn negated(&self) -> Self {
                given(|out| ffi::negate($order, ffi::numbers(self), out))
            }
        }

        between!(Add, add, $Matrix, $Matrix, $Matrix, plus);
        between!(Sub, sub, $Matrix, $Matrix, $Matrix, less);
        between!(Mul, mul, $Matrix, $Matrix, $Matrix, times);
        between!(Mul, mul, $Matrix, $Vector, $Vector, moved);
        with_number!(Mul, mul, $Matrix, scaled_by, scaled);
        with_number!(Div, div, $Matrix, divided_by, dividing);
        assigning!(AddAssign, add_assign, $Matrix, $Matrix, |m, other| m.plus(&other));
        assigning!(SubAssign, sub_assign, $Matrix, $Matrix, |m, other| m.less(&other));
        assigning!(MulAssign, mul_assign, $Matrix, f64, |m, number| m.scaled_by(number));
        assigning!(DivAssign, div_assign, $Matrix, f64, |m, number| m.divided_by(number));
        folding!(Sum, sum, $Matrix, zero, plus);
        folding!(Product, product, $Matrix, identity, times);

        impl core::ops::Neg for $Matrix {
            type Output = $Matrix;

            #[inline]
            fn neg(self) -> $Matrix {
                self.negated()
            }
        }

        impl core::ops::Neg for &$Matrix {
            type Output = $Matrix;

            #[inline]
            fn neg(self) -> $Matrix {
                self.negated()
            }
        }
    };
}
pub(crate) use operators;
