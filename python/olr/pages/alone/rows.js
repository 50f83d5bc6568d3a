"use strict";
// The rows of the page's list: of each record its likeliest place, and how probable that is.
//
//   rowOf(line, { numbers, confidence, tables })
//
// `line` is that of `olr batch places` about a record, asked with the numbers and with `likely` of `tables.py`; `confidence` is the JSON of the
// file by which it was asked. `rowText(row)` is the line of JSON, without its end, that the server gives.

function rowOf(line, { numbers, confidence, tables }) {
  const { answer, fault, key, record } = exactJson(line);
  const note = fault === null ? noProbabilitiesText(answer.differs, numbers, confidence) : "";
  return { record, key, ...columnsOf(answer, fault, tables), no_probabilities: note || null };
}

// Columns of the likeliest place, and whether there may be others that weren't looked at.
function columnsOf(found, fault, tables) {
  const first = found?.places[0] ?? null;
  return {
    verdict: found === null ? "fault" : found.verdict,
    probability: shareOf(first?.probability),
    none_of_these: shareOf(found?.none_of_these),
    reasons: first && reasonsText(first.reasons, tables),
    total: first && first.matching.total,
    margin: found && found.margin,
    turns_back: first && Number(first.matching.turns_back),
    cut_off: found !== null && found.cut,
    fault,
  };
}

// Python writes a probability of 1 as 1.0.
function rowText(row) {
  const texts = Object.entries(row).map(([name, value]) => {
    const isProbability = (name === "probability" || name === "none_of_these") && value !== null;
    return `${JSON.stringify(name)}:${isProbability && Number.isInteger(value) ? value.toFixed(1) : JSON.stringify(value)}`;
  });
  return `{${texts.join(",")}}`;
}
