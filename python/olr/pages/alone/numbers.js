"use strict";
// Numbers as Python and numpy round them, to the last bit, and sums.
//
//   rounded(0.0625, 3)      0.062    round(0.0625, 3)
//   sumOf(values)           sum(values)

// A number with so many digits behind the point at most: Python's `round`.
function rounded(value, digits) {
  return Number(fixed(value, digits));
}

// The sum of values.
function sumOf(values) {
  return values.reduce((sum, value) => sum + value, 0);
}
