"use strict";
// The lines of a map around what a scene draws.

const MOST_LINES_DRAWN = 4000;
// Metres of the map around what is drawn.
const ROOM_AROUND = 300;
// The length of a microdegree of latitude, in metres.
const MICRODEGREE_METRES = 0.11132;

// What lies around a scene: its west, south, east and north end in microdegrees, as `--box` has them.
function boxOf(scene) {
  const spots = [
    ...scene.points.map((point) => point.spot),
    ...scene.candidates.flat().map((one) => one.spot),
    ...scene.entries.flatMap((entry) => entry.route),
  ];
  const room = ROOM_AROUND / MICRODEGREE_METRES;
  const mean = spots.reduce((sum, [lat]) => sum + lat, 0) / spots.length;
  const wide = room / Math.max(0.1, Math.cos(mean * (Math.PI / 180)));
  const end = (axis, of) => spots.reduce((value, spot) => of(value, spot[axis]), spots[0][axis]) * 1e6;
  return [end(1, Math.min) - wide, end(0, Math.min) - room, end(1, Math.max) + wide, end(0, Math.max) + room].map(Math.round);
}

// Members of a scene, of an answer to `lines`: `lines`, as they are drawn, the more important ones first, how many are `cut`, and whether there
// are `more`, which nobody counted.
function linesDrawn({ lines, more }) {
  const near = lines.slice().sort((one, other) => one.class - other.class);
  return { lines: near.slice(0, MOST_LINES_DRAWN).map(lineDrawn), cut: Math.max(0, near.length - MOST_LINES_DRAWN), more };
}

// A line as it is drawn.
function lineDrawn({ id, class: roadClass, form, length, shape }) {
  return { id, class: roadClass, form: FORM_TEXTS[form], length: metresText(length), path: pathDrawn(shape) };
}
