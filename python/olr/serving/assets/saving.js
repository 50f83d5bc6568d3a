"use strict";
// What goes out of a list: its rows as CSV, and its likeliest places as GeoJSON. The columns are those of docs/COLUMNS.md, and `reference`.
const SAVED = ["record", "key", "verdict", "probability", "none_of_these", "turns_back", "total", "margin", "reasons", "fault", "reference"];
// Rows of which places are asked for at once. The server gives others a turn between two lots.
const SAVED_AT_ONCE = 500;
// What is in front of each feature of a stream.
const RECORD_SEPARATOR = "\x1e";

// Rows as CSV. A text that a spreadsheet would take for a formula has an apostrophe in front of it.
function csvOf(rows) {
  const field = (value) => {
    if (value === null) return "";
    const text = typeof value === "string" && /^[=+\-@\t\r]/.test(value) ? `'${value}` : String(value);
    return /[",\r\n]/.test(text) ? `"${text.replaceAll('"', '""')}"` : text;
  };
  return [SAVED, ...rows.map((row) => SAVED.map((name) => valueOf(row, name)))].map((fields) => `${fields.map(field).join(",")}\n`).join("");
}

// The page's word for a fault is a plainer one.
function valueOf(row, name) {
  return name === "verdict" && row.verdict === "refused" ? "fault" : row[name];
}

// The likeliest place of each row as GeoJSON, in the order of the rows. A row without a place has a feature without a geometry. `options` are those to ask
// with, and `onStep(count)` is told how many are there. Throws as `asked` of asking.js.
async function geojsonOf(rows, options, signal, onStep) {
  const texts = [];
  while (texts.length < rows.length) {
    const some = rows.slice(texts.length, texts.length + SAVED_AT_ONCE);
    const features = await featuresOf(some, options, signal, (count) => onStep(texts.length + count));
    if (features.length < some.length) throw new Trouble(BROKEN_OFF, true);
    texts.push(...features.map((feature, at) => JSON.stringify(withRow(feature, some[at]))));
  }
  return `{"type":"FeatureCollection","features":[\n${texts.join(",\n")}\n]}\n`;
}

async function featuresOf(rows, options, signal, onStep) {
  const body = rows.map((row, at) => `${at}\t${row.reference}\n`).join("");
  const headers = { "Content-Type": "text/plain", Accept: "application/geo+json-seq" };
  const query = queryOf(Object.entries({ ...options, most: 1 }));
  const response = await asked(`batch/places?${query}`, { method: "POST", body, headers, signal });
  const found = [];
  for await (const lines of linesOf(response)) {
    found.push(...lines.map((line) => JSON.parse(line.slice(RECORD_SEPARATOR.length))));
    onStep(found.length);
  }
  return found;
}

// A feature of a stream, of which nobody has counted candidates, with the record and key of a row, and its own fault if it has one.
function withRow(feature, { record, key, own }) {
  const { candidates, ...properties } = feature.properties;
  const fault = own || properties.fault;
  return { ...feature, properties: { ...properties, fault, record, key } };
}

// Has the browser save a text as a file.
function save(name, type, text) {
  const link = document.createElement("a");
  link.href = URL.createObjectURL(new Blob([text], { type }));
  link.download = name;
  link.click();
  setTimeout(() => URL.revokeObjectURL(link.href), 60_000);
}
