"use strict";
// Where the lines of a map came from.
//
//   const sources = sourcesOf(bytes);
//   sources.get("104");   // { source, name } of the line with this id, or undefined if the map doesn't say it
//
// `bytes` are the JSON that sources.py makes; sources are null where they are.
function sourcesOf(bytes) {
  if (bytes === null) return null;
  const roads = JSON.parse(new TextDecoder().decode(bytes));
  return new Map(roads.flatMap(([source, name, lines]) => lines.map((line) => [String(line), { source, name }])));
}
