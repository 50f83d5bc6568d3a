"use strict";
// What the page says of the first entry besides: other paths of its legs.

// Two members of a scene, of the program's answer to `legs` as GeoJSON: `notes`, sentences on the legs in their order, and `others`, each other
// path with that of its leg, { leg, other }. Both are empty where nothing is known, and the answer is null. `lowest` and `near` are the numbers
// with which it was asked.
function notesOf(answer, lowest, near) {
  const [notes, others] = [[], []];
  const path = ({ coordinates }) => coordinates.map(([lon, lat]) => [lat, lon]);
  const features = answer === null ? [] : answer.features;
  for (const { geometry, properties: leg } of features.filter(({ properties }) => properties.part === "leg")) {
    const other = features.find(({ properties }) => properties.part === "other" && properties.leg === leg.leg) ?? null;
    if (other !== null) others.push({ leg: path(geometry), other: path(other.geometry) });
    notes.push(...legTexts(leg, other && other.properties, lowest, near));
  }
  return { notes, others };
}

// Sentences on a leg, and on another path of it, if there is one.
function legTexts({ leg, length, limit, shorter }, other, lowest, near) {
  const texts = [];
  if (other !== null) {
    const how = other.longer ? `${metresText(other.longer)} longer` : "as short";
    const within = 1000 * other.longer <= near * length ? `${near / 10} percent` : "1 m";
    texts.push(`Leg ${leg} is one of several paths within ${within}: another one is ${how}.`);
  }
  if (shorter !== null) {
    const who = lowest ? `the reference and --lowest ${lowest} allow` : "the reference allows";
    const road = `a road of class ${shorter.class} would be ${metresText(shorter.by)} shorter`;
    texts.push(`Leg ${leg}: ${road}; ${who} class ${limit} or better.`);
  }
  return texts;
}
