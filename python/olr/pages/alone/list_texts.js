"use strict";
// Texts of lists: a reference on one line, what looks like a reference, what errors show; and bytes as lines of text.
//
// `letters(text)` counts as Python does: a letter is a code point. `ToolError` is a fault of a whole list, with the text that `olr-tools` has.

const LIST_NAME = "the list";
const UTF_8_HINT = "convert it, such as by iconv -f LATIN1 -t UTF-8";
const MOST_RECORD_BYTES = 65_536;
// Letters of a reference without the blanks at its ends.
const MOST_REFERENCE_LETTERS = 344;
const LEAST_BYTES = 7;
// Letters of base64, also that for URLs, of which the first byte is that of a kind of location.
const MEANT = /^[ACEIKQWgikoqw2][w-z0-9+/_-][A-Za-z0-9_+/=-]{6,}$/;
const BASE64_TEXT = /^(?:[A-Za-z0-9+/]{4})*(?:[A-Za-z0-9+/]{2}==|[A-Za-z0-9+/]{3}=)?$/;
const NOTHING_WORD = /^(?:#?n\/?a|nan|nil|none|null)$/i;
const NO_LETTERS = /^(?:[^\p{L}\p{N}_,;|\t\0\ufffd]|[\p{Nd}_])+$/u;
// What `str.strip()` of Python takes away.
const WHITE_OF_ASCII = "\t\n\v\f\r\x1c\x1d\x1e\x1f ";
const WHITE = `${WHITE_OF_ASCII}\x85\xa0\u1680\u2000\u2001\u2002\u2003\u2004\u2005\u2006\u2007\u2008\u2009\u200a\u2028\u2029\u202f\u205f\u3000`;
const WHITES = new RegExp(`[${WHITE}]+`);
const MOST_SHOWN = 100;
const lenientUtf8 = new TextDecoder("utf-8", { ignoreBOM: true });
const strictUtf8 = new TextDecoder("utf-8", { ignoreBOM: true, fatal: true });

const letters = (text) => Array.from(text);

// Without the characters at its ends that are in `set`. It goes over them once, however many there are.
function stripOf(text, set) {
  let first = 0;
  let last = text.length;
  while (first < last && set.includes(text[first])) first += 1;
  while (last > first && set.includes(text[last - 1])) last -= 1;
  return text.slice(first, last);
}

const strip = (text) => stripOf(text, WHITE);
const stripBlanks = (text) => stripOf(text, " \t\r\n");

function beginsLikeAReference(text) {
  return MEANT.test(stripBlanks(text));
}

// How many bytes a text in base64 has: 0 if it isn't some.
function sizeOfBase64(text) {
  const trimmed = stripBlanks(text);
  if (trimmed.length > MOST_REFERENCE_LETTERS || !BASE64_TEXT.test(trimmed)) return 0;
  const content = atob(trimmed);
  return btoa(content) === trimmed ? content.length : 0;
}

function looksLikeAReference(text, base64 = "plain") {
  const plain = plainBase64(text, base64);
  return beginsLikeAReference(plain) && sizeOfBase64(plain) >= LEAST_BYTES;
}

// Whether a text is neither meant as a reference nor as the name of a column.
function namesNothing(text) {
  const trimmed = stripBlanks(text);
  return NOTHING_WORD.test(trimmed) || NO_LETTERS.test(trimmed);
}

// A text in such base64 as plain base64. Of one for URLs that has `=` at its end none may be missing.
function plainBase64(text, base64) {
  if (base64 === "plain") return text;
  const plain = stripBlanks(text).replaceAll("-", "+").replaceAll("_", "/");
  const lacking = (4 - (letters(plain).length % 4)) % 4;
  return plain.endsWith("=") ? plain : plain + "=".repeat(lacking);
}

function oneLine(text) {
  return stripBlanks(text).replace(/[\t\r\n]/g, " ");
}

// Some texts on one line, not too long.
function shownTexts(texts) {
  const line = letters(texts.join(", "));
  const begin = line.slice(0, MOST_SHOWN).map((letter) => (/[\p{C}\p{Z}]/u.test(letter) ? " " : letter));
  return begin.join("") + (line.length > MOST_SHOWN ? ".." : "");
}

// A text as Python's `repr` shows it, of what `shownTexts` gives.
function quotedText(text) {
  const quote = text.includes("'") && !text.includes('"') ? '"' : "'";
  return quote + text.replaceAll("\\", "\\\\").replaceAll(quote, `\\${quote}`) + quote;
}

// A reference as a part of one record: a line end within is no base64, and a text that is too long is so whatever it has.
function referenceText(reference) {
  const text = stripBlanks(reference);
  if (new TextEncoder().encode(text).length > MOST_REFERENCE_LETTERS) return "A".repeat(MOST_REFERENCE_LETTERS + 1);
  return text.replace(/[\n\0]/g, "!");
}

const notUtf8 = (what) => new ToolError(`${what} isn't UTF-8: ${UTF_8_HINT}`);

// The text of bytes. Throws `ToolError`, about `what` they are, if they aren't UTF-8.
function utf8Text(bytes, what) {
  try {
    return strictUtf8.decode(bytes);
  } catch {
    throw notUtf8(what);
  }
}

// Lines of bytes with their ends: behind each line feed, and where `returns` is true behind carriage returns too.
function* byteLines(bytes, returns) {
  let first = 0;
  for (let at = 0; at < bytes.length; at += 1) {
    const isEnd = bytes[at] === 10 || (returns && bytes[at] === 13 && bytes[at + 1] !== 10);
    if (!isEnd) continue;
    yield bytes.subarray(first, at + 1);
    first = at + 1;
  }
  if (first < bytes.length) yield bytes.subarray(first);
}

// The lines of a text with their ends. Throws `ToolError` for the first one that isn't UTF-8.
function* textLines(bytes, returns) {
  let number = 0;
  for (const line of byteLines(bytes, returns)) {
    number += 1;
    yield utf8Text(line, `${LIST_NAME}: line ${number}`);
  }
}

// The items, if there are none or one of the first hundred is as it has to be: else it throws what `errorOf` makes of these.
function* withOne(items, isOne, errorOf) {
  const held = [];
  let isThere = false;
  for (const item of items) {
    if (isThere) {
      yield item;
      continue;
    }
    held.push(item);
    isThere = isOne(item);
    if (isThere) yield* held;
    else if (held.length === 100) throw errorOf(held);
  }
  if (!isThere && held.length) throw errorOf(held);
}
