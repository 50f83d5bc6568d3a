"use strict";
// Reads the program's JSON so that no id is rounded.
//
//   exactJson('{"points":[{"at":36,"line":107,"penalty":2}],"route":[[107,36,2150]]}')
//     is {points: [{at: 36, line: "107", penalty: 2}], route: [["107", 36, 2150]]}
//
// Ids are texts: `line` and `id`, those of a list `lines`, and the first number of each piece and of each place of a route. Other whole
// numbers beyond 2^53, which no number of JavaScript tells apart, are texts too. Coordinates, in `shape` and `spot`, are numbers. Throws a
// SyntaxError for what isn't JSON.

const TEXT_OR_NUMBER = /"(?:[^"\\]|\\.)*"|-?\d+(?:\.\d+)?(?:[eE][-+]?\d+)?/g;
const LONG_NUMBER = /^-?\d{16,}$/;
const IDS = new Set(["line", "id"]);
// Lists of pieces, each a line's id and two positions, and places, each a line's id and a position.
const PIECES = new Set(["route", "inner", "outer"]);
const PLACES_ON_LINES = new Set(["earliest", "latest"]);
const SHAPES = new Set(["shape", "spot"]);

function exactJson(text) {
  const found = JSON.parse(/\d{16}/.test(text) ? withLongNumbersAsTexts(text) : text);
  return withIds(found);
}

function withLongNumbersAsTexts(text) {
  return text.replace(TEXT_OR_NUMBER, (found) => (LONG_NUMBER.test(found) && !Number.isSafeInteger(Number(found)) ? `"${found}"` : found));
}

function withIds(value) {
  if (Array.isArray(value)) value.forEach(withIds);
  else if (value !== null && typeof value === "object") for (const name of Object.keys(value)) value[name] = memberWithIds(name, value[name]);
  return value;
}

function memberWithIds(name, value) {
  if (value === null || SHAPES.has(name)) return value;
  if (IDS.has(name)) return String(value);
  if (name === "lines" && Array.isArray(value) && typeof value[0] !== "object") return value.map(String);
  if (PIECES.has(name) && Array.isArray(value)) value.forEach((piece) => (piece[0] = String(piece[0])));
  else if (PLACES_ON_LINES.has(name) && Array.isArray(value)) value[0] = String(value[0]);
  else withIds(value);
  return value;
}
