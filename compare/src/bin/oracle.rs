//! Writes the list of cgmath's answers to the standard output, once it is seen to be enough.

use compare::{list::List, operations, panics, random::SEED, wrong};

fn main() {
    panics::quiet();
    let mut list = List::default();
    for line in HEAD.lines() {
        list.comment(line);
    }
    list.comment(&format!("The inputs are drawn from the seed {SEED:#x}."));
    operations::all(&mut list);
    wrong::hold(&list.text);
    print!("{}", list.text);
}

/// What the list says of itself.
const HEAD: &str = "\
The answers of cgmath 0.18.0's src/matrix.rs, written by compare/ (its README.md has the command).
A line: operation, order, class of input, the words it reads, then '=' and the entries of the answer,
or '!' and what a refusal answers: its number, and 256 more for a second place. Matrices stand column by column.
A word is the hexadecimal bit pattern of an f64 without the zeros at its end: 3ff is 1.0, 4 is 2.0, 8 is -0.0.
'@' stands before a place, a refusal and a whole number that is answered, which are plain hexadecimal
numbers; a whole number is an i64's two's complement: @5 is 5, @fffffffffffffffb is -5, and of yes or no @1 is yes.
Every NaN that is answered is written 7ff8. None is refusal 2.
Where a place is not below the order include/test/places.txt says which refusal is answered: @b for a first column,
@c for a first row, @10b for a second column, @10c for a second row. cgmath, where it is asked, panics there.
Where the class ends with '*' the answer is not cgmath's but a second computation's.
So are signed_sum, undoable and cofactor, by an expansion along rows in i128.
So are the refused bulk moves, by the table of refusals.
A bulk move reads the order that is handed over and the lengths of the matrix, the input and the output, then the
numbers of the matrix and of the input. Its answer is the output; where it is refused the output stays as it was.
A rotation reads a sine, a cosine, and the axis if it has one; without '*' they are those of an angle.
Dot, cross, truncate_n and the sums of vectors are those of the cgmath that compare/ was built with:
the list settles nothing about them where that was not the published crate.
The line 'planted' states a wrong answer on purpose.";
