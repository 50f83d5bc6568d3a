"use strict";
// Features of GeoJSON with the columns of docs/COLUMNS.md, as the server gives them of many references: to the letter.
//
//   featureLine(line, tables, sources)       the lines about a record (RFC 8142), each with the sign in front and its end. `line` is that of
//                                      `olr batch places`, asked with `likely` of `tables.py`, or of `olr batch match`: with shapes
//   featuresOfPlaces({ record, key, fault, found, candidates }, tables, sources)   features of an answer to `places`
//   featuresOfPage({ record, key, fault, page, candidates }, sources)              features of an answer to `match`
//   featureText(feature)                     a feature as a text
//
// Without `record` the features have no columns of a message. `candidates` is how many all points have together, if that is known, and `sources`
// those of sources.js, a Map from ids of lines to { source, name }, or null. Numbers are those of Python: columns of FLOATS have a point.

const MOST_ANSWER = 4 << 20;
const BETWEEN_IDS = ";";
const BEFORE_LINE = "\x1e";
const FLOATS = new Set("probability none_of_these map_differs map_differs_low map_differs_high ends_m from_m to_m outer_m inner_m".split(" "));
const NO_PART = { part: null, lines: null, sources: null, names: null, from_m: null, to_m: null, outer_m: null, inner_m: null };

function featureLine(line, tables, sources = null) {
  const { answer, fault: own, key, record } = exactJson(line);
  const size = line.lastIndexOf(',"fault":') - '{"answer":'.length;
  const fault = own ?? (size > MOST_ANSWER ? "AnswerTooLarge" : null);
  const about = { record, key, fault };
  const isPage = fault === null && answer.matchings !== undefined;
  const features = isPage ? featuresOfPage({ ...about, page: answer }, sources) : featuresOfPlaces({ ...about, found: answer }, tables, sources);
  return features.map((feature) => `${BEFORE_LINE}${featureText(feature)}\n`).join("");
}

function featuresOfPlaces({ record, key, fault = null, found = null, candidates = null }, tables, sources = null) {
  const about = { record, key, candidates, fault };
  if (fault !== null) return [featureOf({ ...about, verdict: "fault" }, sources)];
  const shared = { ...about, verdict: found.verdict, margin: found.margin };
  if (!found.places.length) return [featureOf({ ...shared, ...ofFirst(found) }, sources)];
  return found.places.map(({ gap, matching, members, probability, rank, reasons }, index) => {
    const row = { ...shared, likely: index + 1, rank, gap, matching, members, probability: shareOf(probability) };
    const ofPlace = { ends_m: rounded(endsOf(matching), 1), turns_back: Number(matching.turns_back), reasons: reasonsText(reasons, tables) };
    return featureOf({ ...row, ...ofPlace, ...(index === 0 ? ofFirst(found) : {}) }, sources);
  });
}

function featuresOfPage({ record, key, fault = null, page = null, candidates = null }, sources = null) {
  const about = { record, key, candidates, fault };
  if (fault !== null) return [featureOf({ ...about, verdict: "fault" }, sources)];
  const { matchings } = page;
  if (!matchings.length) return [featureOf({ ...about, verdict: "none" }, sources)];
  const rowOfMatching = (matching, index) => ({ ...about, verdict: "match", rank: index + 1, gap: matching.total - matchings[0].total, matching });
  return matchings.map((matching, index) => featureOf(rowOfMatching(matching, index), sources));
}

// What the first row of an answer has of all of its places.
function ofFirst({ none_of_these: none, map_differs: differs }) {
  const { value = null, low = null, high = null } = differs ?? {};
  const [maps, least, most] = [value, low, high].map((thousandths) => thousandths && thousandths / 1000);
  return { none_of_these: shareOf(none), map_differs: maps, map_differs_low: least, map_differs_high: most };
}

// A feature with all columns, in their order.
function featureOf(row, sources) {
  const { matching = null } = row;
  const cell = (name) => row[name] ?? null;
  const penalties = (parts) => (matching === null ? null : parts.reduce((sum, { penalty }) => sum + penalty, 0));
  const { part, geometry } = matching === null ? { part: NO_PART, geometry: null } : partOf(matching, sources);
  const properties = {
    ...(row.record === undefined ? {} : { record: row.record, key: cell("key") }),
    likely: cell("likely"),
    rank: cell("rank"),
    verdict: row.verdict,
    probability: cell("probability"),
    none_of_these: cell("none_of_these"),
    map_differs: cell("map_differs"),
    map_differs_low: cell("map_differs_low"),
    map_differs_high: cell("map_differs_high"),
    total: matching && matching.total,
    point_penalty: penalties(matching?.points),
    leg_penalty: penalties(matching?.legs),
    gap: cell("gap"),
    margin: cell("margin"),
    ends_m: cell("ends_m"),
    turns_back: cell("turns_back"),
    members: cell("members"),
    candidates: cell("candidates"),
    ...part,
    reasons: cell("reasons"),
    cursor: matching && matching.cursor,
    fault: row.fault,
  };
  return { type: "Feature", properties, geometry };
}

// What a matching covers, and its geometry: the outer part, and of a point along a line what lies between its two positions.
function partOf(matching, sources) {
  const isPoint = (matching.earliest ?? null) !== null;
  const route = matching.route.map(pieceOf);
  const [earliest, latest] = isPoint ? [matching.earliest, matching.latest].map(placeOnLineOf) : [null, null];
  const pieces = isPoint ? piecesBetween(route, earliest, latest) : (matching.outer ?? []).map(pieceOf);
  const inner = (matching.inner ?? []).map(pieceOf);
  const length = (some) => some.reduce((sum, { from, to }) => sum + to - from, 0) / 10;
  const texts = (name) => {
    const words = sources === null ? [] : pieces.map(({ line }) => sources.get(line)?.[name] || null);
    return withoutRepeats(words).join(BETWEEN_IDS) || null;
  };
  const part = {
    part: isPoint ? "point" : "outer",
    lines: pieces.map(({ line }) => line).join(BETWEEN_IDS) || null,
    sources: texts("source"),
    names: texts("name"),
    from_m: pieces.length ? pieces[0].from / 10 : null,
    to_m: pieces.length ? pieces[pieces.length - 1].to / 10 : null,
    outer_m: length(pieces),
    inner_m: isPoint ? null : length(inner),
  };
  return { part, geometry: isPoint ? pointAt(matching.spot.middle) : lineAlong(matching.shape.outer) };
}

// Geometries of the program's spots and shapes, which are in microdegrees.
const degreesOf = (spot) => spot.map((microdegrees) => microdegrees / 1e6);
const pointAt = (spot) => ({ type: "Point", coordinates: degreesOf(spot) });
const lineAlong = (shape) => shape && { type: "LineString", coordinates: shape.map(degreesOf) };

// Words in a row, of which one that several have is there once: those that aren't there don't count.
function withoutRepeats(words) {
  const there = words.filter((word) => word);
  return there.filter((word, index) => index === 0 || word !== there[index - 1]);
}

// The pieces of a route from one place on it to another one, the first of which doesn't lie behind the second. Where they are one place that
// is a piece without a length.
function piecesBetween(route, earliest, latest) {
  const found = [];
  for (const { line, from, to } of route) {
    let start = from;
    if (!found.length) {
      if (line !== earliest.line || earliest.at < from || earliest.at > to) continue;
      start = earliest.at;
    }
    if (line === latest.line && start <= latest.at && latest.at <= to) return [...found, { line, from: start, to: latest.at }];
    found.push({ line, from: start, to });
  }
  return found;
}

function featureText({ properties, geometry }) {
  const text = (name, value) => (FLOATS.has(name) && value !== null ? floatText(value) : JSON.stringify(value));
  const cells = Object.entries(properties).map(([name, value]) => `"${name}":${text(name, value)}`);
  return `{"type":"Feature","properties":{${cells.join(",")}},"geometry":${geometryText(geometry)}}`;
}

function geometryText(geometry) {
  if (geometry === null) return "null";
  const { type, coordinates } = geometry;
  const text = (point) => `[${point.map(floatText).join(",")}]`;
  return `{"type":"${type}","coordinates":${type === "Point" ? text(coordinates) : `[${coordinates.map(text).join(",")}]`}}`;
}
