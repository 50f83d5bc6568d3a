"use strict";
// JSON as Python's `json` reads it, with its errors: objects are Maps in the order of their members, and numbers are `JsonNumber`s that keep
// what Python would write of them.
//
//   pythonJson(text)    the value of a text. Throws `JsonError`, of which `reason` is what Python says
//   pythonText(value)   the text that `json.dumps` with `ensure_ascii=False` gives of a value

// Arrays and objects within each other that Python reads.
const MOST_NESTED = 984;
const MOST_DIGITS = 4300;
const HALF_LETTER = /[\ud800-\udfff]/u;

class JsonError extends Error {
  constructor(reason) {
    super(reason);
    this.reason = reason;
  }
}

// A number of JSON: `text` is that of Python for it.
class JsonNumber {
  constructor(text) {
    this.text = text;
  }

  static of(source) {
    if (!/[.eE]/.test(source)) return new JsonNumber(source === "-0" ? "0" : source);
    return new JsonNumber(floatText(Number(source)));
  }
}

// A float as Python's `repr` has it, or as its `json` where it isn't finite.
function floatText(value) {
  if (Number.isNaN(value)) return "NaN";
  if (!Number.isFinite(value)) return value > 0 ? "Infinity" : "-Infinity";
  if (value === 0) return Object.is(value, -0) ? "-0.0" : "0.0";
  const [mantissa, power] = value.toExponential().split("e");
  const exponent = Number(power);
  if (exponent < -4 || exponent >= 16) return `${mantissa}e${exponent < 0 ? "-" : "+"}${String(Math.abs(exponent)).padStart(2, "0")}`;
  const text = String(value);
  if (text.includes("e")) return value.toFixed(mantissa.replace(/[-.]/g, "").length - 1 - exponent);
  return text.includes(".") ? text : `${text}.0`;
}

class JsonReader {
  constructor(text) {
    this.text = text;
    this.depth = 0;
  }

  // Raises the error of a place, which is counted in letters.
  fail(what, at) {
    throw new JsonError(`${what} at character ${letters(this.text.slice(0, at)).length + 1}`);
  }

  blanks(at) {
    while (" \t\n\r".includes(this.text[at] ?? "x")) at += 1;
    return at;
  }

  whole() {
    if (this.text.startsWith("\ufeff")) this.fail("Unexpected UTF-8 BOM (decode using utf-8-sig)", 0);
    const [value, end] = this.value(this.blanks(0));
    const last = this.blanks(end);
    if (last !== this.text.length) this.fail("Extra data", last);
    return value;
  }

  // The value that begins there, and where it ends.
  value(at) {
    const { text } = this;
    const opening = text[at];
    if (opening === '"') return this.string(at + 1);
    if (opening === "{" || opening === "[") {
      this.depth += 1;
      const kind = opening === "{" ? "object" : "array";
      if (this.depth > MOST_NESTED) throw new JsonError(`maximum recursion depth exceeded while decoding a JSON ${kind} from a unicode string`);
      const found = opening === "{" ? this.object(at + 1) : this.array(at + 1);
      this.depth -= 1;
      return found;
    }
    for (const [word, value] of JSON_WORDS) if (text.startsWith(word, at)) return [value, at + word.length];
    JSON_NUMBER.lastIndex = at;
    const number = JSON_NUMBER.exec(text);
    if (!number) this.fail("Expecting value", at);
    const [source] = number;
    const digits = source.replace("-", "").length;
    if (digits > MOST_DIGITS && !/[.eE]/.test(source)) {
      const limit = `Exceeds the limit (${MOST_DIGITS} digits) for integer string conversion`;
      throw new JsonError(`${limit}: value has ${digits} digits; use sys.set_int_max_str_digits() to increase the limit`);
    }
    return [JsonNumber.of(source), at + source.length];
  }

  object(begin) {
    const { text } = this;
    const found = new Map();
    let at = this.blanks(begin);
    if (text[at] === "}") return [found, at + 1];
    for (;;) {
      if (text[at] !== '"') this.fail("Expecting property name enclosed in double quotes", at);
      const [name, behind] = this.string(at + 1);
      at = this.blanks(behind);
      if (text[at] !== ":") this.fail("Expecting ':' delimiter", at);
      const [value, end] = this.value(this.blanks(at + 1));
      found.set(name, value);
      at = this.blanks(end);
      if (text[at] === "}") return [found, at + 1];
      if (text[at] !== ",") this.fail("Expecting ',' delimiter", at);
      at = this.blanks(at + 1);
    }
  }

  array(begin) {
    const { text } = this;
    const found = [];
    let at = this.blanks(begin);
    if (text[at] === "]") return [found, at + 1];
    for (;;) {
      const [value, end] = this.value(at);
      found.push(value);
      at = this.blanks(end);
      if (text[at] === "]") return [found, at + 1];
      if (text[at] !== ",") this.fail("Expecting ',' delimiter", at);
      at = this.blanks(at + 1);
    }
  }

  // The string of which the first letter is there, and where it ends.
  string(first) {
    const { text } = this;
    let found = "";
    for (let at = first; ; ) {
      JSON_PLAIN.lastIndex = at;
      const [part] = JSON_PLAIN.exec(text);
      found += part;
      at += part.length;
      const letter = text[at];
      if (letter === undefined) this.fail("Unterminated string starting at", first - 1);
      if (letter === '"') return [found, at + 1];
      if (letter !== "\\") this.fail("Invalid control character at", at);
      const escape = text[at + 1];
      if (escape === undefined) this.fail("Unterminated string starting at", first - 1);
      if (escape === "u") {
        const digits = text.slice(at + 2, at + 6);
        // Python wants a letter behind the digits, too.
        if (!/^[0-9A-Fa-f]{4}$/.test(digits) || at + 6 >= text.length) this.fail("Invalid \\uXXXX escape", at + 1);
        found += String.fromCharCode(parseInt(digits, 16));
        at += 6;
      } else {
        if (!JSON_ESCAPES.has(escape)) this.fail("Invalid \\escape", at);
        found += JSON_ESCAPES.get(escape);
        at += 2;
      }
    }
  }
}

const JSON_NUMBER = /-?(?:0|[1-9][0-9]*)(?:\.[0-9]+)?(?:[eE][-+]?[0-9]+)?/y;
const JSON_PLAIN = /[^"\\\x00-\x1f]*/y;
const JSON_ESCAPES = new Map(Object.entries({ '"': '"', "\\": "\\", "/": "/", b: "\b", f: "\f", n: "\n", r: "\r", t: "\t" }));
const JSON_WORDS = new Map([
  ["null", null],
  ["true", true],
  ["false", false],
  ["NaN", new JsonNumber("NaN")],
  ["Infinity", new JsonNumber("Infinity")],
  ["-Infinity", new JsonNumber("-Infinity")],
]);

function pythonJson(text) {
  return new JsonReader(text).whole();
}

// A text in quotes: half a pair stays as it is.
const quotedJson = (text) => (HALF_LETTER.test(text) ? `"${text}"` : JSON.stringify(text));

function pythonText(value) {
  if (value instanceof JsonNumber) return value.text;
  if (Array.isArray(value)) return `[${value.map(pythonText).join(", ")}]`;
  if (!(value instanceof Map)) return typeof value === "string" ? quotedJson(value) : JSON.stringify(value);
  return `{${[...value].map(([name, one]) => `${quotedJson(name)}: ${pythonText(one)}`).join(", ")}}`;
}
