"use strict";
// Why there is no answer: the fault that the program names.
//
//   const fault = faultOf("BadLength 12", table);
//   fault.text, fault.meaning, fault.remedy
//
// `table` is that of docs/FAULTS.md, as `tables.py` has it: { "BadLength N": [meaning, remedy], .. }. Words in capital letters stand for what
// the program puts in their places.

function faultOf(text, table) {
  const words = text.split(" ");
  for (const [line, texts] of Object.entries(table)) {
    const places = line.split(" ");
    if (places.length !== words.length) continue;
    const values = places.map((place, index) => [place, words[index]]).filter(([place]) => isInCapitals(place));
    if (places.every((place, index) => isInCapitals(place) || place === words[index])) {
      const [meaning, remedy] = texts.map((one) => filledFault(one, values));
      return { text, meaning, remedy };
    }
  }
  return { text, meaning: "", remedy: "" };
}

// What is raised where there is no answer: the fault with its meaning, and what to do.
function faultText({ text, meaning, remedy }) {
  const known = [meaning, remedy].filter(Boolean).join("; ");
  return known ? `${text}: ${known}` : text;
}

const isInCapitals = (word) => /^[A-Z]+$/.test(word);

// A text of the table with values in place of its capital letters, and without its marks for code.
function filledFault(text, values) {
  const plain = text.replaceAll("`", "");
  return values.reduce((filled, [place, word]) => filled.replace(new RegExp(`\\b${place}\\b`, "g"), () => word), plain);
}

// What is wrong with what the user gave, in one line.
class ToolError extends Error {}
