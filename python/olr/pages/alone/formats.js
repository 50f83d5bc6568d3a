"use strict";
// Numbers as texts, to the letter as Python writes them.
//
//   fixed(2.5, 0)              "2"           f"{value:.0f}"
//   fixedGrouped(1234.56, 1)   "1,234.6"     f"{value:,.1f}"
//   grouped(1234567)           "1,234,567"   f"{value:,}"
//   general(78.75)             "78.75"       f"{value:g}"
//
// Where a number lies exactly halfway between two texts, JavaScript takes the greater one and Python that with an even last digit. Numbers
// are finite, and below 1e21 for `fixed` and `fixedGrouped`.

const signText = (value) => (value < 0 || Object.is(value, -0) ? "-" : "");
const isOddDigit = (text) => "13579".includes(text.at(-1));

function fixed(value, digits) {
  const size = Math.abs(value);
  const text = size.toFixed(digits);
  // Half of the last digit is a power of 10 that two powers of 2 and of 5 make: just what is an odd number of the first ones is halfway.
  const isHalfway = (size * 2 ** (digits + 1)) % 2 === 1;
  return signText(value) + (isHalfway && isOddDigit(text) ? (size - 10 ** -digits / 4).toFixed(digits) : text);
}

// A text of digits with commas between thousands: behind the point it has none.
function withCommas(text) {
  const [whole, ...part] = text.split(".");
  return [whole.replace(/\B(?=([0-9]{3})+$)/g, ","), ...part].join(".");
}

function fixedGrouped(value, digits) {
  return withCommas(fixed(value, digits));
}

function grouped(value) {
  return withCommas(String(value));
}

// With six digits at most, and none that is a zero at the end.
function general(value) {
  const size = Math.abs(value);
  if (size === 0) return `${signText(value)}0`;
  const [digits, exponent] = sixDigits(size).split("e");
  const power = Number(exponent);
  const bare = (text) => (text.includes(".") ? text.replace(/\.?0+$/, "") : text);
  if (power >= -4 && power < 6) return signText(value) + bare(fixed(Number(`${digits}e${power}`), 5 - power));
  return `${signText(value)}${bare(digits)}e${power < 0 ? "-" : "+"}${String(Math.abs(power)).padStart(2, "0")}`;
}

// A positive number as `toExponential` writes it with six digits, or the text before it where that is as near and even.
function sixDigits(size) {
  const text = size.toExponential(5);
  const [digits, exponent] = text.split("e");
  const all = size.toExponential(100);
  const isHalfway = /^50*e/.test(all.slice(digits.length));
  return isHalfway && isOddDigit(digits) ? `${all.slice(0, digits.length)}e${exponent}` : text;
}
