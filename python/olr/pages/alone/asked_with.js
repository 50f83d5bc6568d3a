"use strict";
// The command of the program `olr` that asks about a reference as a page does.

// For a shell: with the numbers and options of the question and the tolerances that aren't the program's defaults, by the names of its options.
// An empty text if the program doesn't read the map: it has no name then. `settings` has what is asked with, { radius: 75, .. }; `tables` is
// that of `tables.py`.
function commandText(question, reference, mapName, settings, tables) {
  if (mapName === null) return "";
  const usual = { ...tables.tolerances, ...tables.numbers[question] };
  const others = Object.keys(usual).filter((name) => (settings[name] ?? usual[name]) !== usual[name]);
  const words = wordsOf(Object.fromEntries(others.map((name) => [name, settings[name]])));
  return ["olr", question, reference.trim(), "--map", mapName, ...words].map(quotedWord).join(" ");
}

// A word as a shell reads it, as Python's `shlex.quote` has it.
function quotedWord(word) {
  return /^[\w@%+=:,./-]+$/.test(word) ? word : `'${word.replaceAll("'", "'\"'\"'")}'`;
}
