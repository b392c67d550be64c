#!/usr/bin/env python3
"""Tries wrong programs against the promises: each must be refused, because a need of that very function fails.

Usage: tools/wrong_programs.py [CRATE ..]

A wrong program is a replacement in the body of one public function (or of the private helper that does its work).
The k-th wrong program of every function is tried at once, in a copy of the repository, since each function is
proved by itself. A line is printed for each; the exit status is 1 where one was not refused. Where all that the check
says of the function is that a proof names what the wrong program took away, the line says "refused in form alone".
"""
import os
import re
import shutil
import subprocess
import sys
import tempfile

# function: [(what is wrong, old text, new text), ..]; `{n}` stands for each order or length named in the pattern.
# `VectorSpace::add` is a trait's own body, and `VectorSpace@Vector2::map` that of the record's impl, with the trait's argument
# where it has one: `Store<f64>@Vector2::put`. A constant's value stands for a body: `SquareMatrix@Matrix2::ORDER`
WRONG = {
    "vector": {
        "lib.rt Vector{234}::new": [("two entries exchanged", "{ x, y", "{ x: y, y: x"), ("an entry fixed at 0", "{ x,", "{ x: 0.0,")],
        "lib.rt Vector@Vector{234}::LENGTH": [("one more", "{n}", "{n} + 1"), ("one less", "{n}", "{n} - 1")],
        "lib.rt VectorSpace@Vector{234}::map": [("two entries exchanged", "f(self.x), f(self.y)", "f(self.y), f(self.x)"), ("one entry left as it is", "f(self.y)", "self.y")],
        "lib.rt VectorSpace@Vector{234}::zip": [("an entry of the other for its neighbour", "other.y", "other.x"), ("one entry of the left side alone", "f(self.x, other.x)", "self.x")],
        "space.rt VectorSpace::add": [("the difference", "x + y", "x - y"), ("the left side twice", "x + y", "x + x")],
        "space.rt VectorSpace::sub": [("the other way round", "x - y", "y - x"), ("the sum", "x - y", "x + y")],
        "space.rt VectorSpace::neg": [("no sign turned", "-e", "e"), ("0 less the entry: 0.0 stays 0.0", "-e", "0.0 - e")],
        "space.rt VectorSpace::scalar_mul": [("left as it is", "scalar * e", "e"), ("the scalar twice", "scalar * e", "scalar * scalar")],
        "space.rt VectorSpace::scalar_div": [("the other way round", "scalar / e", "e / scalar"), ("multiplied", "scalar / e", "scalar * e")],
        "space.rt VectorSpace::mul_scalar": [("left as it is", "e * scalar", "e"), ("divided", "e * scalar", "e / scalar")],
        "space.rt VectorSpace::div_scalar": [("the scalar multiplied", "e / scalar", "e * scalar"), ("by the reciprocal, which rounds twice", "e / scalar", "e * (1.0 / scalar)")],
        "lib.rt Vector@Vector{234}::from_value": [("one entry 1", "(value", "(1.0"), ("one entry 0", ", value", ", 0.0")],
        "lib.rt Vector@Vector{2}::dot": [("the difference", " + ", " - "), ("a cross term", "self.y * other.y", "self.y * other.x")],
        "lib.rt Vector@Vector{3}::dot": [("summed from the left", "+ (self.y * other.y + self.z * other.z)", "+ self.y * other.y + self.z * other.z"), ("one term twice", "self.z * other.z", "self.y * other.y")],
        "lib.rt Vector@Vector{4}::dot": [("summed from the left", "+ (self.y * other.y + (self.z * other.z + self.w * other.w))", "+ self.y * other.y + self.z * other.z + self.w * other.w"), ("one term twice", "self.w * other.w", "self.z * other.z")],
        "lib.rt Vector{3}::cross": [("one sign turned", "self.y * other.z - self.z", "self.y * other.z + self.z"), ("one entry the other way round", "self.z * other.x - self.x * other.z", "self.x * other.z - self.z * other.x")],
        "lib.rt Vector{4}::truncate_n": [("two kept entries exchanged", "self.x, self.z, self.w", "self.x, self.w, self.z"), ("11 for 12", "Refusal::Row(Place::First)", "Refusal::Column(Place::First)"), ("another refusal", "Refusal::Row(Place::First)", "Refusal::Singular")],
        "refusal.rt Refusal::number": [("two causes with one number", "=> 12,", "=> 11,"), ("1, which is retired", "=> 11,", "=> 1,"), ("a number that the table lacks", "=> 6,", "=> 7,")],
        "refusal.rt Refusal::place": [("a row's place lost", "Refusal::Column(place) | Refusal::Row(place)", "Refusal::Column(place)"), ("a place where there is none", "_ => None", "_ => Some(Place::First)")],
    },
    "matrix": {
        "square.rt SquareMatrix@Matrix{234}::ORDER": [("one more", "{n}", "{n} + 1"), ("another number", "{n}", "5")],
        "square.rt SquareMatrix@Matrix{234}::ZERO": [("the identity", "ZERO", "IDENTITY")],
        "square.rt SquareMatrix@Matrix{234}::IDENTITY": [("zero", "IDENTITY", "ZERO")],
        "records.rt Matrix{234}::new": [("two entries exchanged", "Vector{n}::new(c0r0, c0r1", "Vector{n}::new(c0r1, c0r0"), ("an entry of another column", "c1r0", "c0r0")],
        "records.rt Matrix{234}::from_cols": [("the second column first", "x: c0", "x: c1"), ("the first column twice", "y: c1", "y: c0")],
        "records.rt Matrix{2}::from_scale": [("no scale", "from_value(value)", "from_value(1.0)"), ("twice the scale", "from_value(value)", "from_value(value + value)")],
        "records.rt Matrix{34}::from_scale": [("the last entry scaled too", "from_nonuniform_scale(value, value{v})", "from_value(value)"), ("one coordinate not scaled", "(value, value", "(value, 1.0")],
        "records.rt Matrix{34}::from_nonuniform_scale": [("one scale twice", "[x,", "[y,"), ("the last entry scaled too", " 1.0]", " x]")],
        "records.rt Matrix{34}::from_translation": [("two offsets exchanged", "[v.x, v.y", "[v.y, v.x"), ("the offset in the last row", "[1.0, 0.0", "[1.0, v.x")],
        "places.rt Matrix<{234}>@Matrix{234}::into_array": [("two places exchanged", "self.x.y", "self.y.x"), ("an entry fixed at 0", "[self.x.x", "[0.0")],
        "places.rt Matrix<{234}>@Matrix{234}::from_array": [("[c][r] read as [r][c]", "m[0][1]", "m[1][0]"), ("an entry written twice", "m[0][0]", "m[1][1]")],
        "square.rt SquareMatrix@Matrix{234}::from_diagonal": [("one entry twice", "value.x", "value.y"), ("an entry beside the diagonal", "0.0", "value.x")],
        "records.rt From<Matrix2>@Matrix{34}::from": [("transposed", "m.x.y", "m.y.x"), ("0 for a 1", "1.0", "0.0")],
        "records.rt From<Matrix3>@Matrix{4}::from": [("transposed", "m.x.y", "m.y.x"), ("0 for the 1", "1.0", "0.0")],
        "places.rt check_row": [("11 for a row", "Refusal::Row(place)", "Refusal::Column(place)"), ("always the first named", "Refusal::Row(place)", "Refusal::Row(Place::First)")],
        "places.rt check_column": [("12 for a column", "Refusal::Column(place)", "Refusal::Row(place)"), ("always the second named", "Refusal::Column(place)", "Refusal::Column(Place::Second)")],
        "places.rt check_rows": [("the second named where the first is wrong", "Place::First, a)", "Place::Second, a)"), ("the second row tested first", "Place::First, a)?;\n    check_row(order, Place::Second, b)", "Place::Second, b)?;\n    check_row(order, Place::First, a)")],
        "places.rt check_columns": [("the first named where the second is wrong", "Place::Second, b)", "Place::First, b)"), ("the second column tested first", "Place::First, a)?;\n    check_column(order, Place::Second, b)", "Place::Second, b)?;\n    check_column(order, Place::First, a)")],
        "places.rt check_elements": [("rows tested before columns", "check_column(order, Place::First, ac)?;\n    check_row(order, Place::First, ar)?;", "check_row(order, Place::First, ar)?;\n    check_column(order, Place::First, ac)?;"), ("the second place tested first", "check_column(order, Place::First, ac)?;\n    check_row(order, Place::First, ar)?;\n    check_column(order, Place::Second, bc)?;\n    check_row(order, Place::Second, br)", "check_column(order, Place::Second, bc)?;\n    check_row(order, Place::Second, br)?;\n    check_column(order, Place::First, ac)?;\n    check_row(order, Place::First, ar)")],
        "places.rt exchanged": [("one place left as it is", "out[j] = list[i]", "out[j] = list[j]"), ("one element twice", "out[i] = list[j]", "out[i] = list[i]")],
        "places.rt columns_swapped": [("one number twice", "m, a, b", "m, a, a")],
        "places.rt rows_swapped": [("one number twice", "*column, a, b", "*column, a, a")],
        "places.rt elements_swapped": [("a place read row first", "m[bc][br]", "m[br][bc]"), ("one entry left as it is", "= m[ac][ar]", "= m[bc][br]")],
        "places.rt Matrix<{234}>@Matrix{234}::row": [("the second named", "Place::First", "Place::Second"), ("always row 0", "rows.y", "rows.x"), ("the order let pass", "Err(Refusal::Row(Place::First))", "Ok(rows.x)"), ("[c][r] read as [r][c]", "self.transpose()", "self")],
        "places.rt Matrix<{234}>@Matrix{234}::diagonal": [("an entry beside it", "self.x.x", "self.x.y"), ("two entries exchanged", "self.y.y", "self.x.x")],
        "places.rt Matrix<{234}>@Matrix{234}::transpose": [("one entry not moved", "self.y.x", "self.x.y"), ("an entry of the diagonal twice", "self.x.x", "self.y.y")],
        "places.rt Matrix::swap_rows": [("the second number not tested", "(N, a, b)", "(N, a, a)"), ("nothing exchanged", "a.0, b.0)", "a.0, a.0)")],
        "places.rt Matrix::swap_columns": [("the second number not tested", "(N, a, b)", "(N, a, a)"), ("nothing exchanged", "a.0, b.0)", "a.0, a.0)")],
        "places.rt Matrix::swap_elements": [("the second place not tested", "(N, ac, ar, bc, br)", "(N, ac, ar, ac, ar)"), ("a place read row first", "ac.0, ar.0,", "ar.0, ac.0,")],
        "in_place.rt Matrix{4}::store": [("leaves the matrix", "*self = answer?;", "let _given = answer?;"), ("a refusal hands out the identity", "*self = answer?;", "*self = answer.unwrap_or(Matrix4::IDENTITY);"), ("always done", "*self = answer?;", "if let Ok(m) = answer {\n            *self = m;\n        }"), ("another refusal", "answer?", "match answer {\n            Ok(m) => m,\n            Err(_) => return Err(Refusal::Singular),\n        }")],
        "in_place.rt Matrix{4}::swap_rows_mut": [("answers done and leaves the matrix", "self.store(self.swap_rows(a, b))", "let _given = self.swap_rows(a, b)?;\n        Ok(())"), ("the first number twice", "(a, b)", "(a, a)")],
        "in_place.rt Matrix{4}::swap_columns_mut": [("answers done and leaves the matrix", "self.store(self.swap_columns(a, b))", "let _given = self.swap_columns(a, b)?;\n        Ok(())"), ("the first number twice", "(a, b)", "(a, a)")],
        "in_place.rt Matrix{4}::swap_elements_mut": [("answers done and leaves the matrix", "self.store(self.swap_elements(ac, ar, bc, br))", "let _given = self.swap_elements(ac, ar, bc, br)?;\n        Ok(())"), ("the first place twice", "(ac, ar, bc, br)", "(ac, ar, ac, ar)")],
        "arithmetic.rt VectorSpace@Matrix{234}::map": [("a column for its neighbour", "self.x.map(f)", "self.y.map(f)"), ("the first column twice", "self.y.map(f)", "self.x.map(f)")],
        "arithmetic.rt VectorSpace@Matrix{234}::zip": [("a column of the other for its neighbour", "self.x.zip(other.x, f)", "self.x.zip(other.y, f)"), ("one column the other way round", "self.y.zip(other.y, f)", "other.y.zip(self.y, f)")],
        "square.rt SquareMatrix::from_value": [("1 for the value", "from_value(value)", "from_value(1.0)"), ("twice the value", "from_value(value)", "from_value(value + value)")],
        "square.rt SquareMatrix@Matrix{234}::mul_vector": [("one row for another", "rows.x.dot", "rows.y.dot"), ("a row twice", "rows.y.dot", "rows.x.dot")],
        "square.rt SquareMatrix@Matrix{23}::mul": [("the other way round", "self.mul_vector(other.x)", "other.mul_vector(self.x)"), ("a column twice", "self.mul_vector(other.y)", "self.mul_vector(other.x)")],
        "square.rt SquareMatrix@Matrix{4}::mul": [("the other way round", "self.combine(other.x)", "other.combine(self.x)"), ("a column twice", "self.combine(other.y)", "self.combine(other.x)")],
        "arithmetic.rt Matrix{4}::combine": [("summed from the right", "self.x.x * v.x + self.y.x * v.y + self.z.x * v.z + self.w.x * v.w", "self.x.x * v.x + (self.y.x * v.y + (self.z.x * v.z + self.w.x * v.w))"), ("[c][r] read as [r][c]", "self.y.x * v.y", "self.x.y * v.y")],
        "inverse.rt Invert@Matrix{2}::determinant": [("fixed at 1", "self.x.x * self.y.y - self.y.x * self.x.y", "1.0"), ("the permanent", " - ", " + ")],
        "inverse.rt Invert@Matrix{3}::determinant": [("one sign turned", "- self.y.x *", "+ self.y.x *"), ("one factor for another", "self.z.y * self.y.z", "self.z.y * self.z.y")],
        "inverse.rt Invert@Matrix{4}::determinant": [("two rows exchanged", "rows.y, rows.z,", "rows.z, rows.y,"), ("by another row", ".dot(rows.x)", ".dot(rows.y)")],
        "inverse.rt Invert::invert": [("a tolerance", "det == 0.0", "det * det < 1.0e-18"), ("refuses everything but NaN", "det == 0.0", "det == det"), ("another refusal", "Refusal::Singular", "Refusal::NotWhole")],
        "inverse.rt Invert@Matrix{2}::inverse_by": [("a sign lost", "-self.x.y / det", "self.x.y / det"), ("by the reciprocal, which rounds twice", "self.y.y / det", "self.y.y * (1.0 / det)")],
        "inverse.rt Invert@Matrix{3}::inverse_by": [("a cross product the other way round", "self.y.cross(self.z)", "self.z.cross(self.y)"), ("transposed", "rows.transpose()", "rows")],
        "inverse.rt Invert@Matrix{4}::inverse_by": [("transposed", "inverse_column(t, inv_det, 0)", "inverse_column(self, inv_det, 0)"), ("the determinant for its reciprocal", "1.0 / det", "det")],
        "rotations.rt Matrix{2}::from_angle": [("sine and cosine exchanged", "(c, s, -s, c)", "(s, c, -c, s)"), ("the other way round", "(c, s, -s, c)", "(c, -s, s, c)")],
        "rotations.rt Rotation::from_angle_x": [("a sign lost", "-s", "s"), ("0 on the axis", "[1.0", "[0.0")],
        "rotations.rt Rotation::from_angle_y": [("a sign lost", "-s", "s"), ("0 on the axis", "1.0", "0.0")],
        "rotations.rt Rotation::from_angle_z": [("a sign lost", "-s", "s"), ("0 on the axis", "1.0", "0.0")],
        "rotations.rt Rotation::from_axis_angle": [("a sign turned", "+ s * axis.z", "- s * axis.z"), ("the cosine for one less it", "1.0 - c", "c")],
        "rotations.rt Rotation@Matrix{3}::of": [("rows as columns", "        m\n", "        m.transpose()\n"), ("two columns exchanged", "        m\n", "        Matrix3::from_cols(m.y, m.x, m.z)\n")],
        "rotations.rt Rotation@Matrix{4}::of": [("rows as columns", "from(m)", "from(m.transpose())"), ("the identity", "Matrix4::from(m)", "Matrix4::from_scale(1.0)")],
    },
    "engine": {
        "square.rt Square@Matrix{2}::cornered": [("the identity", "Matrix4::from(self)", "Matrix4::IDENTITY"), ("zero", "Matrix4::from(self)", "Matrix4::ZERO")],
        "square.rt Square@Matrix{3}::cornered": [("the identity", "self.into()", "Matrix4::IDENTITY"), ("zero", "self.into()", "Matrix4::ZERO")],
        "square.rt Square@Matrix{4}::cornered": [("the identity", "        self\n", "        Matrix4::IDENTITY\n"), ("zero", "        self\n", "        Matrix4::ZERO\n")],
        "entries.rt is_whole": [("-1024 refused", ">= -1024.0", "> -1024.0"), ("a half taken", " == x", " <= x")],
        "entries.rt whole_number": [("another refusal", "Refusal::NotWhole", "Refusal::Singular"), ("0 for each", "Ok(std::num::truncating_f64_to_i64(x))", "Ok(0)")],
        "entries.rt column_numbers": [("two numbers exchanged", "whole_number(v.x)?,\n        whole_number(v.y)?", "whole_number(v.y)?,\n        whole_number(v.x)?"), ("one number twice", "v.w", "v.z")],
        "entries.rt matrix_numbers": [("two columns exchanged", "column_numbers(m.x)?,\n        column_numbers(m.y)?", "column_numbers(m.y)?,\n        column_numbers(m.x)?"), ("one column twice", "m.w", "m.z")],
        "entries.rt Whole::read": [("of order 4 whatever it is", "order: M::ORDER", "order: 4"), ("of the identity", "m.cornered()", "M::IDENTITY.cornered()")],
        "orders.rt row_count": [("too many for three columns", "3 => 6", "3 => 24"), ("one too few for two", "2 => 2", "2 => 1")],
        "sum.rt signed_sum": [("of the identity", "Whole::read(m)", "Whole::read(M::IDENTITY)"), ("its negative", "Ok(Whole", "Ok(-Whole")],
        "sum.rt Whole::signed_sum": [("its negative", "sum += ", "sum -= "), ("begins at 1", "sum = 0", "sum = 1")],
        "sum.rt Whole::down_rows": [("[c][r] read as [r][c]", "[columns[r]][r]", "[r][columns[r]]"), ("all four rows", "0..self.order", "0..4")],
        "verdict.rt undoable": [("of the identity", "signed_sum(m)", "signed_sum(M::IDENTITY)"), ("of zero", "signed_sum(m)", "signed_sum(M::ZERO)")],
        "verdict.rt one_bit": [("yes at zero", "== 1", "<= 1"), ("two bits", "== 1", "== 2")],
        "verdict.rt magnitude": [("half of it", "z.unsigned_abs()", "z.unsigned_abs() / 2"), ("zero from zero on", "z.unsigned_abs()", "if z < 0 { z.unsigned_abs() } else { 0 }")],
        "cofactors.rt cofactor": [("the row is named second, as of another place", "Refusal::Row(Place::First)", "Refusal::Row(Place::Second)"), ("the range test at another order", "M::ORDER <= r.0", "M::ORDER - 1 <= r.0"), ("another place", "c.0, r.0)", "r.0, c.0)"), ("another refusal for the place", "Refusal::Column(Place::First)", "Refusal::NotWhole"), ("the order let pass", "M::ORDER <= c.0", "M::ORDER < c.0")],
        "cofactors.rt Whole::cofactor": [("no sign turned", "{ -minor }", "{ minor }"), ("the minor of another place", "(c, r)", "(r, c)")],
        "cofactors.rt Whole::minor": [("column r left out", "without(self.numbers, c)", "without(self.numbers, r)"), ("of the same order", "self.order - 1", "self.order")],
        "cofactors.rt without": [("one element twice", "kept(n, 1)", "kept(n, 0)"), ("the first kept", "list[kept(n, 0)]", "list[0]")],
        "cofactors.rt kept": [("the one that is left out", "j < n", "j <= n"), ("none left out", "j + 1", "j")],
    },
    "bulk": {
        "lib.rt left_over": [("the quotient", "input % 2", "input / 2"), ("4 for 3", "input % 3", "input % 4")],
        "lib.rt check": [("order 5 let pass", "    if LARGEST < order {", "    if order == 5 {\n        return Ok(());\n    }\n    if LARGEST < order {"), ("an output that is too long let pass", "output != input", "output < input")],
        "lib.rt move_vectors": [("a refusal that has written already", "    Ok(())\n", "    Err(Refusal::OutputLength)\n"), ("the lengths of points", "check(0,", "check(1,")],
        "lib.rt move_points": [("a refusal that has written already", "    Ok(())\n", "    Err(Refusal::OutputLength)\n"), ("the lengths of vectors", "check(1,", "check(0,")],
        "each.rt make_over": [("the first vector for each", "V::at(input, i)", "V::at(input, 0)"), ("each in the first place", "put(output, i)", "put(output, 0)")],
        "vectors.rt move_each": [("the vectors for the matrix", "matrix2(matrix)", "matrix2(vectors)"), ("order 4 for order 3", "3 => {", "5 => {"), ("each vector left as it is", "|v| m.mul_vector(v)", "|v: vector::Vector2| v")],
        "points.rt move_each": [("the points for the matrix", "matrix3(matrix)", "matrix3(points)"), ("order 4 for order 3", "3 => {", "5 => {"), ("each point left as it is", "|p| move_point3(m, p)", "|p: Vector2| p")],
        "points.rt move_point{34}": [("extended by 0", "1.0", "0.0"), ("two coordinates exchanged", "moved.x, moved.y", "moved.y, moved.x")],
        "flat.rt Flat@Vector{234}::at": [("two numbers exchanged", "s[i], s[i + 1]", "s[i + 1], s[i]"), ("one number twice", "s[i], s[i + 1]", "s[i], s[i + 0]")],
        "flat.rt Flat@Vector{234}::put": [("one number twice", "= self.y", "= self.x"), ("two numbers exchanged", "= self.x;\n        out[i + 1] = self.y", "= self.y;\n        out[i + 1] = self.x")],
        "load.rt matrix{234}": [("the first column twice", "at(s, {n})", "at(s, 0)"), ("the second column twice", "at(s, 0)", "at(s, {n})")],
    },
    "component": {
        "bytes.rt from": [("a byte less than is there", "n <= rest.len()", "n < rest.len()"), ("another refusal", "Fault::RecordEnds", "Fault::ScaleFlags")],
        "bytes.rt word": [("the smaller byte first", "from_be_bytes(pair)", "from_be_bytes([pair[1], pair[0]])"), ("one byte alone", "u16::from_be_bytes(pair)", "u16::from(pair[1])")],
        "bytes.rt short": [("no sign", "word(pair).cast_signed()", "word(pair)"), ("the smaller byte first", "word(pair)", "word([pair[1], pair[0]])")],
        "bytes.rt tiny": [("no sign", "byte.cast_signed()", "byte"), ("always 1", "i32::from(byte.cast_signed())", "1")],
        "bytes.rt f2dot14": [("over 16383", "16384.0", "16383.0"), ("times", " / ", " * ")],
        "fault.rt Fault::number": [("two causes with one number", "=> 22", "=> 21"), ("a number that the table lacks", "=> 20", "=> 23")],
        "flags.rt Flags::words": [("another flag", "0x0001", "0x0002"), ("turned round", "!= 0", "== 0")],
        "flags.rt Flags::values": [("another flag", "0x0002", "0x0004"), ("turned round", "!= 0", "== 0")],
        "flags.rt Flags::one_scale": [("another flag", "0x0008", "0x0010"), ("turned round", "!= 0", "== 0")],
        "flags.rt Flags::two_scales": [("another flag", "0x0040", "0x0080"), ("turned round", "!= 0", "== 0")],
        "flags.rt Flags::four_scales": [("another flag", "0x0080", "0x0040"), ("turned round", "!= 0", "== 0")],
        "flags.rt Flags::offset_size": [("always one byte", "1 + usize::from(self.words())", "1"), ("always two", "1 + usize::from(self.words())", "2")],
        "flags.rt Flags::scale_flags": [("one flag twice", "self.two_scales()", "self.one_scale()"), ("one too many", "usize::from(self.one_scale())", "1 + usize::from(self.one_scale())")],
        "flags.rt Flags::scale_count": [("one scale for each axis alone", "2 * usize", "1 * usize"), ("three for four", "4 * usize", "3 * usize")],
        "flags.rt Flags::size": [("flags and index left out", "4 + 2", "2"), ("one offset", "2 * self.offset_size()", "self.offset_size()")],
        "flags.rt Flags::check": [("two flags let pass", "> 1", "> 2"), ("22 for 21", "Fault::ScaleFlags", "Fault::PointNumbers")],
        "record.rt Record::index": [("the flags", "self.bytes[2], self.bytes[3]", "self.bytes[0], self.bytes[1]"), ("the smaller byte first", "self.bytes[2], self.bytes[3]", "self.bytes[3], self.bytes[2]")],
        "record.rt Record::offsets": [("one offset twice", "[b[6], b[7]]", "[b[4], b[5]]"), ("the two exchanged", "tiny(b[4]),\n                dy: tiny(b[5])", "tiny(b[5]),\n                dy: tiny(b[4])")],
        "record.rt Record::scales": [("scale10 where scale01 belongs", "scale01: short([b[2], b[3]])", "scale01: short([b[4], b[5]])"), ("no scale is zero", "xscale: 16384", "xscale: 0")],
        "numbers.rt matrix_of": [("scale01 and scale10 exchanged", "s.scale01), 0.0),\n        Vector3::new(f2dot14(s.scale10)", "s.scale10), 0.0),\n        Vector3::new(f2dot14(s.scale01)"), ("the offsets exchanged", "f64::from(o.dx), f64::from(o.dy)", "f64::from(o.dy), f64::from(o.dx)")],
        "lib.rt read": [("the record not counted", "after: at + flags.size()", "after: at"), ("index for flags", "flags: flags.0", "flags: record.index()"), ("the flags not tested", "flags.check()?;", "")],
    },
    "migthumo": {
        "load.rt Load@Matrix{2}::read": [("[c][r] read as [r][c]", "s[1]], [s[2]", "s[2]], [s[1]"), ("one number twice", "s[3]", "s[0]")],
        "load.rt Load@Matrix{3}::read": [("[c][r] read as [r][c]", "s[0], s[1], s[2]", "s[0], s[3], s[6]"), ("one number twice", "s[8]", "s[7]")],
        "load.rt Load@Matrix{4}::read": [("[c][r] read as [r][c]", "s[0], s[1], s[2], s[3]", "s[0], s[4], s[8], s[12]"), ("one number twice", "s[15]", "s[0]")],
        "load.rt Load::load": [("a longer slice let pass", "s.len() != Self::COUNT", "s.len() < Self::COUNT"), ("another refusal", "Refusal::InputLength", "Refusal::OutputLength")],
        "entry.rt of_none": [("a longer output let pass", "out.len() != R::COUNT", "out.len() < R::COUNT"), ("another refusal", "Refusal::OutputLength", "Refusal::InputLength")],
        "entry.rt of_one": [("the output tested before the input", "let m = M::load(m)?;", "if out.len() != R::COUNT {\n        return Err(Refusal::OutputLength);\n    }\n    let m = M::load(m)?;"), ("another refusal", "M::load(m)?", "match M::load(m) {\n        Ok(m) => m,\n        Err(_) => return Err(Refusal::OutputLength),\n    }")],
        "entry.rt of_two": [("the first matrix twice", "make(a, b)", "make(a, a)"), ("the other way round", "make(a, b)", "make(b, a)")],
        "code.rt of_cause": [("256 added at the first place", "Some(Place::Second)", "Some(_)"), ("the place lost", "cause.number() + 256", "cause.number()")],
        "code.rt answered": [("done answers 1", "Ok(()) => 0", "Ok(()) => 1"), ("a refusal answers 0", "Err(cause) => of_cause(cause)", "Err(_) => 0")],
        "code.rt of_fault": [("one more", "fault.number()", "fault.number() + 1"), ("a place where there is none", "fault.number()", "fault.number() + 256")],
        "store.rt Store<f64>@f64::put": [("writes 0", "= self", "= 0.0"), ("writes twice the number", "= self", "= self + self")],
        "store.rt Store<i64>@i64::put": [("writes 0", "= self", "= 0"), ("writes 1", "= self", "= 1")],
        "store.rt Store<u8>@bool::put": [("the other answer", "u8::from(self)", "u8::from(!self)"), ("always yes", "u8::from(self)", "1")],
        "store.rt Store<f64>@Vector{2}::put": [("two numbers exchanged", "= self.y;\n        out[0] = self.x", "= self.x;\n        out[0] = self.y"), ("one number twice", "= self.y", "= self.x")],
        "store.rt Store<f64>@Vector{34}::put": [("two numbers exchanged", "= self.x;\n        out[1] = self.y", "= self.y;\n        out[1] = self.x"), ("one number twice", "= self.y", "= self.x")],
        "store.rt Store<f64>@Matrix{234}::put": [("row after row", "= self.x.y", "= self.y.x"), ("one number twice", "= self.y.y", "= self.x.x")],
        "components.rt migthumo_read_component": [("another refusal for the length", "if m.len() != 9 {\n        return Refusal::OutputLength", "if m.len() != 9 {\n        return Refusal::InputLength"), ("index and flags exchanged", "usize::from(found.flags),\n                usize::from(found.index)", "usize::from(found.index),\n                usize::from(found.flags)")],
        "moves.rt migthumo_move_vectors": [("points for vectors", "move_vectors(order", "move_points(order"), ("the matrix for the vectors", "m, vectors", "m, m")],
        "moves.rt migthumo_move_points": [("vectors for points", "move_points(order", "move_vectors(order"), ("the matrix for the points", "m, points", "m, m")],
        "inverse.rt migthumo_determinant": [("fixed at 1", "|m: Matrix2| Ok(m.determinant())", "|_m: Matrix2| Ok(1.0)"), ("of the order below", "m: Matrix3", "m: Matrix2")],
        "inverse.rt migthumo_invert": [("the matrix itself", "|m: Matrix2| m.invert()", "|m: Matrix2| Ok(m)"), ("refuses everything", "|m: Matrix4| m.invert()", "|_m: Matrix4| Err::<Matrix4, Refusal>(Refusal::Singular)")],
        "arithmetic.rt migthumo_product": [("the left side", "|a: Matrix2, b: Matrix2| Ok(a.mul(b))", "|a: Matrix2, _b: Matrix2| Ok(a)"), ("the other way round", "b: Matrix4| Ok(a.mul(b))", "b: Matrix4| Ok(b.mul(a))")],
        "arithmetic.rt migthumo_add": [("the difference", "b: Matrix3| Ok(a.add(b))", "b: Matrix3| Ok(a.sub(b))"), ("one matrix twice", "b: Matrix4| Ok(a.add(b))", "b: Matrix4| Ok(a.add(a))")],
        "arithmetic.rt migthumo_subtract": [("the other way round", "b: Matrix2| Ok(a.sub(b))", "b: Matrix2| Ok(b.sub(a))"), ("the sum", "b: Matrix4| Ok(a.sub(b))", "b: Matrix4| Ok(a.add(b))")],
        "arithmetic.rt migthumo_scale": [("the matrix itself", ".scalar_mul(s)", ".scalar_mul(1.0)"), ("divided", "m: Matrix4| Ok(m.scalar_mul", "m: Matrix4| Ok(m.scalar_div")],
        "arithmetic.rt migthumo_divide": [("the scalar on the right", "m: Matrix2| Ok(m.scalar_div", "m: Matrix2| Ok(m.div_scalar"), ("times", "m: Matrix4| Ok(m.scalar_div", "m: Matrix4| Ok(m.scalar_mul")],
        "arithmetic.rt migthumo_scale_by": [("divided", "m: Matrix2| Ok(m.mul_scalar", "m: Matrix2| Ok(m.div_scalar"), ("the matrix itself", "m: Matrix4| Ok(m.mul_scalar(s)", "m: Matrix4| Ok(m.mul_scalar(1.0)")],
        "arithmetic.rt migthumo_divide_by": [("the scalar on the left", "m: Matrix2| Ok(m.div_scalar", "m: Matrix2| Ok(m.scalar_div"), ("times", "m: Matrix4| Ok(m.div_scalar", "m: Matrix4| Ok(m.mul_scalar")],
        "arithmetic.rt migthumo_negate": [("left as it is", "m: Matrix2| Ok(m.neg())", "m: Matrix2| Ok(m)"), ("turned twice", "m: Matrix4| Ok(m.neg())", "m: Matrix4| Ok(m.neg().neg())")],
        "sums.rt migthumo_signed_sum": [("of another order", "m: Matrix3", "m: Matrix2"), ("a cofactor", "m: Matrix4| engine::signed_sum(m)", "m: Matrix4| engine::cofactor(m, matrix::Column(0), matrix::Row(0))")],
        "sums.rt migthumo_undoable": [("of another order", "m: Matrix3", "m: Matrix2"), ("always yes", "|m: Matrix4| engine::undoable(m)", "|_m: Matrix4| Ok(true)")],
        "places.rt migthumo_row": [("always row 0", "m: Matrix2| m.row(Row(r))", "m: Matrix2| m.row(Row(0))"), ("the diagonal", "m: Matrix4| m.row(Row(r))", "m: Matrix4| Ok(m.diagonal())")],
        "places.rt migthumo_diagonal": [("row 0", "m: Matrix2| Ok(m.diagonal())", "m: Matrix2| m.row(Row(0))"), ("column 0", "m: Matrix4| Ok(m.diagonal())", "m: Matrix4| Ok(m.x)")],
        "places.rt migthumo_transpose": [("left as it is", "m: Matrix2| Ok(m.transpose())", "m: Matrix2| Ok(m)"), ("twice", "m: Matrix4| Ok(m.transpose())", "m: Matrix4| Ok(m.transpose().transpose())")],
        "places.rt migthumo_swap_rows": [("columns for rows", "m: Matrix2| m.swap_rows(Row(a), Row(b))", "m: Matrix2| m.swap_columns(Column(a), Column(b))"), ("nothing exchanged", "m: Matrix4| m.swap_rows(Row(a), Row(b))", "m: Matrix4| m.swap_rows(Row(a), Row(a))")],
        "places.rt migthumo_swap_columns": [("rows for columns", "m: Matrix2| m.swap_columns(Column(a), Column(b))", "m: Matrix2| m.swap_rows(Row(a), Row(b))"), ("nothing exchanged", "m: Matrix4| m.swap_columns(Column(a), Column(b))", "m: Matrix4| m.swap_columns(Column(a), Column(a))")],
        "places.rt migthumo_swap_elements": [("a place row first", "Column(ac), Row(ar)", "Column(ar), Row(ac)"), ("one place twice", "Column(bc), Row(br)", "Column(ac), Row(ar)")],
        "records.rt check_orders": [("an order in itself", "to <= order", "to < order"), ("order 1 let pass", "order < 2", "order < 1"), ("an embedding in 5 let pass", "4 < to", "5 < to")],
        "records.rt embedded": [("2 in 3 transposed", "Matrix3::from(m)", "Matrix3::from(Matrix2::new(m.x.x, m.y.x, m.x.y, m.y.y))"), ("2 in 4 by way of the identity", "|m: Matrix2| Ok(Matrix4::from(m))", "|_m: Matrix2| Ok(Matrix4::from_scale(1.0))"), ("any other orders let pass", "check_orders(order, to)?;", "let _ = check_orders(order, to);")],
        "records.rt migthumo_embed": [("the orders exchanged", "embedded(order, to, m, out)", "embedded(to, order, m, out)")],
        "rotations.rt migthumo_from_angle": [("sine for cosine", "from_angle(s, c)", "from_angle(c, s)"), ("the other way", "from_angle(s, c)", "from_angle(-s, c)")],
        "rotations.rt migthumo_from_angle_x": [("around y", "Matrix3::from_angle_x", "Matrix3::from_angle_y"), ("sine for cosine", "Matrix4::from_angle_x(s, c)", "Matrix4::from_angle_x(c, s)")],
        "rotations.rt migthumo_from_angle_y": [("around z", "Matrix3::from_angle_y", "Matrix3::from_angle_z"), ("sine for cosine", "Matrix4::from_angle_y(s, c)", "Matrix4::from_angle_y(c, s)")],
        "rotations.rt migthumo_from_angle_z": [("around x", "Matrix3::from_angle_z", "Matrix3::from_angle_x"), ("sine for cosine", "Matrix4::from_angle_z(s, c)", "Matrix4::from_angle_z(c, s)")],
        "rotations.rt migthumo_from_axis_angle": [("the axis turned", "Vector3::new(x, y, z)", "Vector3::new(z, y, x)"), ("sine for cosine", "z), s, c)", "z), c, s)")],
        "version.rt migthumo_version": [("another number", "    2", "    1"), ("zero", "    2", "    0")],
        "in_place.rt migthumo_swap_rows_mut": [("the first number twice", "Row(a), Row(b)", "Row(a), Row(a)"), ("another number", "Row(b)", "Row(1)")],
        "in_place.rt migthumo_swap_columns_mut": [("the first number twice", "Column(a), Column(b)", "Column(a), Column(a)"), ("another number", "Column(b)", "Column(1)")],
        "in_place.rt migthumo_swap_elements_mut": [("a place row first", "Column(ac), Row(ar)", "Column(ar), Row(ac)"), ("one place twice", "Column(bc), Row(br)", "Column(ac), Row(ar)")],
    },
    "report": {
        "lib.rt words_report": [("help for every line", "if help::asked(line)", "if !help::asked(line)"), ("the verdict in place of the report", "layout::matrix(page, &grid)", "layout::sum_line(page, grid.order, ask::signed_sum(&grid))")],
        "lib.rt verdict_report": [("the whole report", "layout::sum_line(page, grid.order, ask::signed_sum(&grid))", "layout::matrix(page, &grid)")],
        "lib.rt fault_verdict": [("a word that does not fit not told from a line that is not read", "Fault::NotWhole(..) => Verdict::NotWhole", "Fault::NotWhole(..) => Verdict::NotRead"), ("no order taken for a rounded inverse", "Fault::NoOrder => Verdict::NotRead", "Fault::NoOrder => Verdict::Rounded")],
        "lib.rt sum_verdict": [("refusal 2 at a sum of 1", "sum == 0", "sum == 1"), ("rounded said to come back", "    Verdict::Rounded", "    Verdict::ComesBack")],
        "lib.rt not_whole": [("column and row exchanged", "(place / n) as u64", "(place % n) as u64"), ("the row counted from 1", "(place % n) as u64", "(place % n + 1) as u64")],
        "grid.rt Order::of": [("another order taken", "b'2' => Some(Order::Two)", "b'5' => Some(Order::Two)")],
        "line.rt read_line": [("a word more than the entries", "words.total(n * n + 1) != n * n", "words.total(n * n + 1) < n * n")],
        "line.rt entries": [("one place further", "NotWhole(order, place)", "NotWhole(order, place + 1)")],
        "read.rt is_blank": [("a tab is no blank", "b'\\t'", "b'\\n'"), ("a return is no blank", "byte == b'\\r'", "byte == b'\\n'")],
        "read.rt entry": [("any word with a digit is taken for a number", "digits.is_empty() || !all_digits(digits)", "digits.is_empty()"), ("the sign dropped", "{ -z }", "{ z }"), ("1025 taken", "LARGEST < magnitude", "LARGEST + 1 < magnitude")],
        "fraction.rt gcd": [("Euclid's step the wrong way", "x % y", "y % x"), ("always 1", "    x\n", "    1\n")],
        "fraction.rt reduced": [("not in lowest terms", "over: a / common", "over: a"), ("upside down", "over: a / common", "over: b / common")],
        "layout.rt sum_line": [("refusal 2 at a sum of 1", "sum == 0", "sum == 1"), ("the limit of order 4 at every order", "comes_back(page, order,", "comes_back(page, Order::Four,")],
        "layout.rt cell": [("the inverse transposed", "ask::cofactor(grid, r, c)", "ask::cofactor(grid, c, r)"), ("the matrix transposed", "grid.entry(c, r)", "grid.entry(r, c)")],
        "totals.rt Totals::none": [("one line too many", "lines: 0", "lines: 1"), ("one that comes back too many", "back: 0", "back: 1")],
        "totals.rt Totals::counted": [("the line not counted", "more(totals.lines)", "totals.lines"), ("another kind counted", "totals.rounded = more(totals.rounded)", "totals.singular = more(totals.singular)")],
        "totals.rt line": [("two numbers exchanged", "totals.singular", "totals.outside"), ("one number twice", "totals.unread", "totals.outside")],
        "totals.rt sums": [("a label left out", 'b"lines: "', 'b""'), ("two numbers exchanged", "totals.back", "totals.rounded")],
        "words.rt add_word": [("no blank after the word", 'b" "', 'b"_"'), ("a line that is too short answered as one with room", "return line.len();", "return at;")],
        "help.rt is_help": [("another word", 'b"--help"', 'b"-help"'), ("a word in capitals", 'b"--help"', 'b"--HELP"')],
    },
    "bits": {
        "lib.rt pattern": [("0 for every NaN", "f64_to_bits_with_nan(x)", "if x == x { f64_to_bits_with_nan(x) } else { 0 }"), ("of the negative", "(x)", "(-x)")],
        "lib.rt number": [("0.0 for a NaN's pattern", "f64_from_bits_with_nan(bits)", "let x = f64_from_bits_with_nan(bits);\n    if x == x { x } else { 0.0 }"), ("of another pattern", "(bits)", "(bits / 2)")],
        "lib.rt same": [("the other answer", "==", "!="), ("the first number twice", "pattern(b)", "pattern(a)")],
    },
}


# what the prover says where a proof names what is not there any more
FORM = re.compile(r"has no field|is not in scope|has no `|no module `|can be named")


def places():
    """Each (crate, file, record or None, function, k, what, old, new)."""
    for crate, functions in WRONG.items():
        for where, wrongs in functions.items():
            file, name = where.split(" ")
            orders = re.search(r"\{(\d+)\}", name)
            for n in orders.group(1) if orders else " ":
                full = re.sub(r"\{\d+\}", n, name)
                record, _, function = full.rpartition("::")
                for k, (what, old, new) in enumerate(wrongs):
                    fill = lambda t: t.replace("{n}", n).replace("{v}", ", value" if n == "4" else "")
                    yield crate, file, record or None, function, k, what, fill(old), fill(new)


def body_of(text, record, function):
    """Where the body of a function stands: in an impl of its record that has it, or at the top of the file; of a constant, its value."""
    if record is None:
        m = re.search(r"^(?:pub(?:\(crate\))? )?(?:extern \"C\" )?fn %s[<(]" % function, text, re.M)
        start = m.end()
        stop = text.index("\n}\n", start)
    else:
        trait, _, of = record.rpartition("@")
        head = re.escape(f"impl {trait} for {of} {{") if trait else rf"impl(?:<'a>)? {record}(?:<'a>)? {{"
        impl = (re.search(f"^{head}", text, re.M) or re.search(rf"^pub(?:\(crate\))? trait {record}\b", text, re.M)).start()
        if function.isupper():
            m = re.compile(r"^    const %s: [^=]*= " % function, re.M).search(text, impl)
            return m.end(), text.index(";\n", m.end())
        m = re.compile(r"^    (?:pub(?:\(crate\))? )?fn %s[<(]" % function, re.M).search(text, impl)
        start = m.end()
        stop = text.index("\n    }\n", start)
    return text.index("{\n", start), stop + 6


def name_of(record):
    """The name that the check has for an impl: the record, then its trait, and the trait's argument unless that is the record."""
    trait, _, of = record.rpartition("@")
    trait, _, at = trait.rstrip(">").partition("<")
    big = lambda t: t[:1].upper() + t[1:]
    return big(of) + trait + ("" if at == of else big(at))


def try_all(crate, k, rows):
    """Puts the k-th wrong programs into a copy, checks it, and answers the rows that were not refused, and how many were in form alone."""
    top = tempfile.mkdtemp()
    shutil.copy("crates.txt", top)
    shutil.copytree("crates", os.path.join(top, "crates"), ignore=shutil.ignore_patterns("out"))
    for _, file, record, function, _, what, old, new in rows:
        path = os.path.join(top, "crates", crate, "src", file)
        text = open(path, encoding="utf-8").read()
        start, stop = body_of(text, record, function)
        body = text[start:stop]
        if old not in body:
            sys.exit(f"{crate} {record}::{function}: no '{old}' in its body")
        open(path, "w", encoding="utf-8").write(text[:start] + body.replace(old, new, 1) + text[stop:])
    run = subprocess.run(["rt", "check"], cwd=os.path.join(top, "crates", crate), capture_output=True, text=True)
    log = run.stdout + run.stderr
    shutil.rmtree(top)
    if "logic=not-proved" not in log:
        print(log[-2000:])
        sys.exit(f"{crate}: the copy with wrong programs {k + 1} did not reach the prover")
    bad, forms = [], 0
    for _, file, record, function, _, what, old, new in rows:
        record = record and name_of(record)
        name = f"{record}::{function}" if record else function
        module = "" if record or file == "lib.rt" else file[:-3]
        line = next((l for l in log.split("\n") if re.match(r"fn %s::(\w+::)*%s: " % (crate, re.escape(f"{module}::{name}" if module else name)), l)), "")
        # the errors in the proof of that very function, but for what cites another that was refused
        folder = f"/{record or module}/{function}/".replace("//", "/")
        errors = [l for l in log.split("\n") if re.match(rf"\./proofs/(?:\w+/)*{re.escape(folder.strip('/'))}/\w+\.antt:.*: error: ", l) and "was not admitted" not in l]
        own = "`search` did not prove" in line or any(not FORM.search(l) for l in errors)
        verdict = "refused" if own else "refused in form alone" if errors else "NOT REFUSED"
        print(f"{verdict}: {crate} {name}: {what}", flush=True)
        if not own and not errors:
            bad.append((name, what, line[:200]))
        forms += verdict == "refused in form alone"
    return bad, forms


def main():
    wanted = sys.argv[1:] or list(WRONG)
    rows, bad, forms, tried = list(places()), [], 0, 0
    for crate in wanted:
        subprocess.run(["rt", "check"], cwd=f"crates/{crate}", capture_output=True)
        for k in range(1 + max(r[4] for r in rows if r[0] == crate)):
            these = [r for r in rows if r[0] == crate and r[4] == k]
            tried += len(these)
            loose, in_form = try_all(crate, k, these)
            bad, forms = bad + loose, forms + in_form
    for name, what, line in bad:
        print(f"not refused by its own needs: {name}: {what}: {line}")
    print(f"{tried} wrong programs tried, {tried - len(bad)} refused, {forms} of them in form alone")
    sys.exit(1 if bad else 0)


if __name__ == "__main__":
    main()
