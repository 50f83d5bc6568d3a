"use strict";
// What the page says of a reference: verdicts and reasons in sentences. Lengths are shown in metres.
//
// References, answers and faults are those of the program's JSON, with ids as texts; a confidence is the JSON of its file.

const INTERVAL_METRES = 58.6;
const SECTOR_DEGREES = 11.25;
const FORM_TEXTS = [
  "unknown form", "motorway", "several carriageways", "single carriageway", "roundabout", "traffic square", "slip road", "other form",
];
const VERDICT_TEXTS = {
  unique: "Within the tolerances the map has no second place",
  ambiguous: "The map has several places that fit nearly as well",
  open: "Looking was cut off before a second place was found",
  none: "Within the tolerances there is no matching",
};
// Where looking ended before a place that might be shown.
const CUT_OFF_TEXT = "Looking was cut off: give a greater --look.";
// The probability of places that aren't shown, from which on it is said.
const LEAST_REST = 5000;
const CONDITION_TEXTS = { radius: "too far away", bearing: "another direction", class: "another class", end: "no way on from its end" };

// A length in decimetres, such as `246.4 m`.
function metresText(decimetres) {
  return `${fixedGrouped(decimetres / 10, 1)} m`;
}

// What a reference says of a point.
function pointText(point) {
  const low = point.sector * SECTOR_DEGREES;
  return `class ${point.class}, ${FORM_TEXTS[point.form]}, direction ${general(low)} to ${general(low + SECTOR_DEGREES)} degrees`;
}

// What a reference says of the path from a point to the next one; an empty text at the last point.
function legText(point) {
  if (point.interval === null) return "";
  const low = point.interval * INTERVAL_METRES;
  return `${fixedGrouped(low, 0)} to ${fixedGrouped(low + INTERVAL_METRES, 0)} m, class ${point.lowest} or better`;
}

// How long the legs of a matching are, and what they cost beyond their points.
function legsText(legs) {
  const lengths = legs.map((leg) => fixedGrouped(leg.length / 10, 1)).join(", ");
  const penalty = legs.reduce((sum, leg) => sum + leg.penalty, 0);
  return `${lengths} m${penalty ? `, which costs ${penalty}` : ""}`;
}

// What a reference says of its offsets; an empty text if it has none.
function offsetsText(reference) {
  const parts = [];
  for (const [name, leg] of [["positive", "first"], ["negative", "last"]]) {
    const value = reference[name] ?? null;
    if (value !== null) parts.push(`${name} offset ${value}/256 of the ${leg} leg`);
  }
  return parts.join(", ");
}

// The verdict, and the margin if there is one.
function verdictText(verdict, margin) {
  const text = VERDICT_TEXTS[verdict];
  if (margin === null) return `${text}.`;
  if (verdict === "unique") return `${text} that fits nearly as well: the next one costs ${margin} penalty points more.`;
  return `${text}: the second best one costs ${margin} penalty points more.`;
}

// ---- how probable places are

const MILLION = 1e6;

// A probability of so many millionths, such as `0.93`. It is 1 or 0 only if it is so: one that is rounded is said to be above or below.
function probabilityText(millionths) {
  if (millionths >= 995000 && millionths < MILLION) return "above 0.99";
  if (millionths > 0 && millionths < 5000) return "below 0.01";
  return fixed(millionths / MILLION, 2);
}

// The same as columns have it; null where there is none.
function shareOf(millionths) {
  return (millionths ?? null) === null ? null : rounded(millionths / MILLION, 3);
}

// Why a place is no more probable; null where nothing is said.
function reasonsText(reasons, { reasons: { texts, none } }) {
  if ((reasons ?? null) === null) return null;
  const said = reasons.flatMap(({ kind, at, by }) => {
    const [text, times, per, least] = texts[kind];
    if (by < least) return [];
    return text.replace("{at}", at).replace("{by}", Math.floor((2 * by * times + per) / (2 * per)));
  });
  return said.join("; ") || none;
}

// Why there are no probabilities; an empty text if there are.
function noProbabilitiesText(differs, numbers, confidence) {
  const made = { ...confidence.tolerances, apart: confidence.apart };
  const others = (differs ?? []).map((name) => `${name} is ${numbers[name]}, not ${made[name]}`).join("; ");
  return others && `no probabilities: ${others}: make a file with your options by olr-tools calibrate`;
}

// How probable a place is; an empty text where nothing is said.
function placeProbabilityText(place) {
  return place.probability === null ? "" : `probability ${probabilityText(place.probability)}`;
}

// Decimetres that a point lies from the proper end of its line at most, as it is counted: farther away is no worse.
const MOST_END = 500;

// How far its points lie from the proper ends of their lines together, in metres.
function endsOf({ points }) {
  return sumOf(points.map(({ end }) => Math.min(end, MOST_END))) / 10;
}

// What speaks for and against a place, whether it has a probability or not. It has this number in the likely order.
function placeTexts({ matching, rank }, number) {
  const texts = [`points ${fixed(endsOf(matching), 1)} m from the ends of their lines`];
  if (matching.turns_back) texts.push("turns back");
  if (rank !== number) texts.push(`rank ${rank} by penalty`);
  return texts;
}

// How probable it is that none of the places is the right one, and of which maps that holds; or why nothing is said. The places were asked for by
// these numbers.
function probabilityTexts(found, confidence, numbers) {
  const note = noProbabilitiesText(found.differs, numbers, confidence);
  if (note) return [`${note[0].toUpperCase()}${note.slice(1)}.`];
  const none = found.none_of_these;
  if (none === null) return ["Probabilities are of lines: a point along a line has none."];
  const texts = [`None of these: probability ${probabilityText(none)}.`];
  const rest = MILLION - none - sumOf(found.places.map((place) => place.probability));
  if (rest >= LEAST_REST) texts.push(`Others that aren't shown: probability ${probabilityText(rest)}.`);
  const differs = differsText(found.map_differs, confidence);
  return differs ? [...texts, differs] : texts;
}

// Whether a feed told how different the maps are, when the confidence was made.
function isFromFeed(confidence) {
  const { feed, differ } = confidence.about;
  const isTold = typeof feed === "object" && feed !== null && (feed.statistics ?? null) !== null;
  return isTold && (differ ?? null) === null;
}

// How different the two maps seem, or of how different ones the probabilities are; an empty text if that isn't said.
function differsText(differs, confidence) {
  if (differs === null) return "";
  const [value, low, high] = [differs.value, differs.low, differs.high].map((thousandths) => fixed(thousandths / 1000, 1));
  const number = `${value} (${low} to ${high})`;
  if (isFromFeed(confidence)) return `The maps seem to differ by ${number}, 1 as another vendor's.`;
  return `The probabilities are those of maps that differ by ${number}, 1 as another vendor's.`;
}

// ---- why nothing fits

// Why a reference has no matching, as sentences; the first one is the verdict.
function whyTexts(why) {
  const { word, at } = why.verdict;
  if (word === "crowded") return [`Point ${at} has more than 64 candidates.`];
  if (word === "point") return [`Point ${at} has no candidate.`, ...why.points[at - 1].nearest.slice(0, 4).map(nearText)];
  if (word === "leg") {
    const leg = why.legs[at - 1];
    return [whyLegText(at, leg), ...leg.pairs.slice(0, 4).map(pairText)];
  }
  if (word === "chain") return [`Each leg fits alone, but no choice of candidates fits as far as point ${at}.`];
  return ["There is a matching."];
}

function nearText(line) {
  const failed = line.not.map((name) => CONDITION_TEXTS[name]).join(", ");
  return `Line ${line.line}, ${fixed(line.distance / 100, 1)} m away: ${failed || "a candidate"}.`;
}

function whyLegText(number, leg) {
  return `Leg ${number}, from point ${number} to point ${number + 1}, admits none of ${leg.of} pairs of candidates: `
    + `its path has to be ${metresText(leg.from)} to ${metresText(leg.to)} long, on classes 0 to ${leg.class}.`;
}

function pairText(pair) {
  let text = `Candidates ${pair.first} and ${pair.second}: `;
  if (pair.length === null) text += "no path";
  else if (pair.long !== null) text += `${metresText(pair.length)}, ${metresText(pair.long)} too long`;
  else text += `${metresText(pair.length)}, ${metresText(pair.short ?? 0)} too short`;
  if (pair.better !== null) text += `; ${metresText(pair.better.length)} with roads of class ${pair.better.class}`;
  return `${text}.`;
}

// What would help.
function remedyText({ option, value, matching }) {
  const change = value === null ? "without bans" : `--${option} ${value}`;
  if (matching === null) return `${change}: few enough candidates, but no matching`;
  return `${change}: a matching with ${matching.split(":")[0]} penalty points`;
}
