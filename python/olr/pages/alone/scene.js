"use strict";
// All that the page draws of a reference, as data for `pictureOf`. Positions are [latitude, longitude] in degrees, ids are texts.
//
//   const scene = sceneOf({ reference, show, candidates, places, page, why, confidence, numbers, mapName, tiles, tables });
//   Object.assign(scene, notesOf(legs, numbers.lowest, tables.near), linesDrawn(lines));
//
// The answer to `legs` is about the matching of the first entry, `scene.entries[0].cursor`, and that to `lines` about `boxOf(scene)`.
//
// `reference` is its text, and `show` what it says. `candidates`, `places`, `page` (of `match`) and `why` are the program's answers with shapes,
// as `exactJson` reads them, or else the texts of faults; `places` was asked with `likely` of `tables`, and `why` is null where it fits somewhere
// (`fitsSomewhere`). `confidence` is the JSON of the file by which it was asked, and `numbers` are all tolerances and the numbers of `places`, by
// the names of options. `mapName` is the name of the map's folder in commands, or null. `tables` are those of `tables.py`.
function sceneOf(given) {
  const { reference, show, page, why, numbers, mapName = null, tiles = null, tables } = given;
  const scene = {
    reference: reference.trim(),
    kind: show.kind.replaceAll("-", " "),
    offsets: offsetsText(show),
    points: pointsOfScene(show),
    candidates: [],
    entries: [],
    why: null,
    command: "",
    verdict: { word: "refused", text: "" },
    probability: [],
    looking: "",
  };
  if (!isFault(given.candidates)) scene.candidates = given.candidates.points.map(rankedCandidates);
  if (!isFault(given.places) && !isFault(page)) addPlaces(scene, given);
  else scene.verdict.text = faultSentence(isFault(given.places) ? given.places : page, tables);
  if ((why ?? null) !== null) scene.why = whyOfScene(why, tables);
  scene.command = commandText(scene.why === null ? "places" : "why", scene.reference, mapName, { ...numbers, ...tables.likely }, tables);
  scene.tiles = tiles;
  return scene;
}

// Whether there is a place, or a matching.
function fitsSomewhere(places, page) {
  return !isFault(places) && !isFault(page) && (places.places.length > 0 || page.matchings.length > 0);
}

const isFault = (answer) => typeof answer === "string";

function faultSentence(text, tables) {
  return `${text}: ${faultOf(text, tables.faults).meaning}.`;
}

// The verdict, the probabilities and the entries.
function addPlaces(scene, { places: found, page, confidence, numbers, tables }) {
  scene.verdict = { word: found.verdict, text: verdictText(found.verdict, found.margin) };
  if (found.places.length) scene.probability = probabilityTexts(found, confidence, numbers);
  if (found.cut) scene.looking = CUT_OFF_TEXT;
  scene.entries = entriesOf(found.places, page, tables);
}

// The points of a reference. The direction at the last one is that back along the road.
function pointsOfScene(show) {
  return show.points.map((point) => ({
    spot: spotDrawn([point.lon, point.lat]),
    direction: [point.sector * SECTOR_DEGREES, (point.sector + 1) * SECTOR_DEGREES],
    text: pointText(point),
    leg: legText(point),
  }));
}

// The candidates of a point.
function rankedCandidates(point) {
  return point.map((one, index) => ({ rank: index + 1, line: one.line, at: one.at, penalty: one.penalty, spot: spotDrawn(one.spot) }));
}

// The places, the likeliest one first, and then those of the first matchings that don't open one.
function entriesOf(places, page, tables) {
  const entries = places.map((one, index) => {
    const { matching, members, gap, reasons } = one;
    return {
      ...entryOf(matching),
      title: `Place ${index + 1}`,
      gap,
      members: members === 1 ? "1 matching" : `${members} matchings`,
      probability: placeProbabilityText(one),
      facts: placeTexts(one, index + 1),
      reasons: reasonsText(reasons, tables) ?? "",
    };
  });
  const openers = new Set(places.map((one) => one.matching.cursor));
  page.matchings.forEach((matching, index) => {
    if (openers.has(matching.cursor)) return;
    const gap = matching.total - page.matchings[0].total;
    entries.push({ ...entryOf(matching), title: `Matching ${index + 1}`, gap, members: null, probability: "", facts: [], reasons: "" });
  });
  return entries;
}

// A matching with its geometries.
function entryOf(matching) {
  const { outer = null, route, shape, spot = null } = matching;
  const entry = {
    cursor: matching.cursor,
    total: matching.total,
    ranks: matching.cursor.split(":")[1].split(".").map(Number),
    legs: legsText(matching.legs),
    lines: idsText(route.map(([line]) => line)),
    route: pathDrawn(shape.route),
    outer: pathDrawn(shape.outer),
    inner: pathDrawn(shape.inner),
    spot: null,
    ends: [],
    length: "",
  };
  if (spot !== null) {
    entry.spot = spotDrawn(spot.middle);
    entry.ends = [spot.earliest, spot.latest].map(spotDrawn);
  } else if (outer !== null) {
    entry.length = metresText(lengthOfPieces(outer.map(pieceOf)));
  }
  return entry;
}

// The ids of lines, the first ones if there are many.
function idsText(lines) {
  const most = 6;
  return lines.slice(0, most).join(" ") + (lines.length > most ? ` and ${lines.length - most} more` : "");
}

// Why nothing fits, and the lines near the points.
function whyOfScene(why, tables) {
  if (isFault(why)) return { texts: [faultSentence(why, tables)], remedies: [], near: [] };
  const lines = why.points.flatMap((point) => point.nearest);
  return {
    texts: whyTexts(why),
    remedies: why.remedies.map(remedyText),
    near: lines.map((line) => ({ line: line.line, not: line.not, spot: spotDrawn(line.spot) })),
  };
}

// A spot of the program, its longitude and its latitude in microdegrees, as it is drawn.
function spotDrawn([lon, lat]) {
  return [lat / 1e6, lon / 1e6];
}

// The spots of a shape as they are drawn; null where there is none.
function pathDrawn(shape) {
  return (shape ?? null) === null ? null : shape.map(spotDrawn);
}
