"use strict";
// The tokens of JSON in bytes, by the rules and with the words of the parser of `ijson`; and where bytes aren't UTF-8.
//
//   new Tokens(bytes).next()   [kind, value]: a sign alone, or "string", "number", "boolean" or "null" with its value
//   firstNotUtf8(bytes)        where the first bytes are that aren't UTF-8

const JSON_OPENING = { 0x7b: "{", 0x7d: "}", 0x5b: "[", 0x5d: "]", 0x2c: ",", 0x3a: ":" };
const JSON_NAMES = { 0x74: ["true", "boolean", true], 0x66: ["false", "boolean", false], 0x6e: ["null", "null", null] };
const STRING_ESCAPES = new Set(['"', "\\", "/", "b", "f", "n", "r", "t"].map((letter) => letter.charCodeAt(0)));
const isDigit = (byte) => byte >= 0x30 && byte <= 0x39;
const isHex = (byte) => isDigit(byte) || (byte >= 0x41 && byte <= 0x46) || (byte >= 0x61 && byte <= 0x66);

// What the parser says of bytes that are no JSON.
class WalkError extends Error {}

// Where the first bytes are that aren't UTF-8, and whether they may be the beginning of a letter that was cut off: null if there are none.
function firstNotUtf8(bytes) {
  for (let at = 0; at < bytes.length; ) {
    const first = bytes[at];
    if (first < 0x80) {
      at += 1;
      continue;
    }
    const size = first >= 0xc2 && first < 0xe0 ? 2 : first >= 0xe0 && first < 0xf0 ? 3 : first >= 0xf0 && first < 0xf5 ? 4 : 0;
    const least = first === 0xe0 ? 0xa0 : first === 0xf0 ? 0x90 : 0x80;
    const most = first === 0xed ? 0x9f : first === 0xf4 ? 0x8f : 0xbf;
    let good = size ? 1 : 0;
    while (good > 0 && good < size && bytes[at + good] >= (good === 1 ? least : 0x80) && bytes[at + good] <= (good === 1 ? most : 0xbf)) good += 1;
    if (!size || good < size) return { at, isCut: size > 0 && at + good === bytes.length };
    at += size;
  }
  return null;
}

// Splits bytes at tokens. `end` is how far they are known, and `isLast` says that nothing follows.
class Tokens {
  constructor(bytes) {
    this.bytes = bytes;
    this.at = this.end = this.scanned = 0;
    this.isLast = false;
    // Whether a letter was cut off at the end of all.
    this.isCut = false;
  }

  // The next token as [kind, value]; null where more has to be known.
  next() {
    const { bytes } = this;
    while (this.at < this.end && (bytes[this.at] === 0x20 || (bytes[this.at] >= 9 && bytes[this.at] <= 13))) this.at += 1;
    if (this.at >= this.end) return null;
    const first = bytes[this.at];
    const sign = JSON_OPENING[first];
    if (sign) {
      this.at += 1;
      return [sign, null];
    }
    if (JSON_NAMES[first]) return this.word(...JSON_NAMES[first]);
    if (first === 0x22) return this.string();
    if (first === 0x2d || isDigit(first)) return this.number();
    const isComment = first === 0x2f;
    const why = isComment ? "probable comment found in input text, comments are not enabled" : "invalid char in json text";
    throw new WalkError(`lexical error: ${why}`);
  }

  // The byte at a place: -1 where more has to be known, and a blank at the end of all.
  byte(at) {
    return at < this.end ? this.bytes[at] : this.isLast ? 0x20 : -1;
  }

  word(text, kind, value) {
    for (let at = 1; at < text.length; at += 1) {
      const byte = this.byte(this.at + at);
      if (byte < 0) return null;
      if (byte !== text.charCodeAt(at)) throw new WalkError("lexical error: invalid string in json text");
    }
    this.at += text.length;
    return [kind, value];
  }

  number() {
    const refuse = (where) => {
      throw new WalkError(`lexical error: malformed number, a digit is required after the ${where}`);
    };
    let at = this.at;
    const digits = (where) => {
      if (!isDigit(this.byte(at)) && this.byte(at) >= 0) refuse(where);
      while (isDigit(this.byte(at))) at += 1;
    };
    if (this.byte(at) === 0x2d) at += 1;
    if (this.byte(at) === 0x30) at += 1;
    else digits("minus sign");
    if (this.byte(at) === 0x2e) {
      at += 1;
      digits("decimal point");
    }
    if (this.byte(at) === 0x65 || this.byte(at) === 0x45) {
      at += 1;
      if (this.byte(at) === 0x2b || this.byte(at) === 0x2d) at += 1;
      digits("exponent");
    }
    if (this.byte(at) < 0) return null;
    const text = String.fromCharCode(...this.bytes.subarray(this.at, at));
    this.at = at;
    return ["number", JsonNumber.of(text)];
  }

  string() {
    const { bytes, end } = this;
    let at = Math.max(this.at + 1, this.scanned);
    for (; at < end && bytes[at] !== 0x22; at += 1) {
      if (bytes[at] < 0x20) throw new WalkError("lexical error: invalid character inside string");
      if (bytes[at] !== 0x5c) continue;
      const size = this.escape(at + 1);
      if (size === 0) break;
      at += size;
    }
    this.scanned = at;
    if (at >= end || bytes[at] !== 0x22) {
      if (this.isLast && this.isCut) throw new WalkError("lexical error: invalid bytes in UTF8 string");
      return null;
    }
    const text = lenientUtf8.decode(bytes.subarray(this.at + 1, at));
    this.at = at + 1;
    return ["string", text.includes("\\") ? withoutEscapes(text) : text];
  }

  // How many bytes an escape has behind its backslash: 0 where more has to be known.
  escape(at) {
    const byte = this.byte(at);
    if (byte < 0) return 0;
    if (byte !== 0x75) {
      if (!STRING_ESCAPES.has(byte)) throw new WalkError("lexical error: inside a string, '\\' occurs before a character which it may not");
      return 1;
    }
    for (let digit = 1; digit <= 4; digit += 1) {
      if (this.byte(at + digit) < 0) return 0;
      if (!isHex(this.byte(at + digit))) throw new WalkError("lexical error: invalid (non-hex) character occurs after '\\u' inside string");
    }
    return 5;
  }
}

// A string without its escapes. Of half a pair the parser makes a question mark, or takes what follows for the other half.
function withoutEscapes(text) {
  return text.replace(/\\u([dD][89abAB][0-9a-fA-F]{2})(?:\\u([0-9a-fA-F]{4}))?|\\u([0-9a-fA-F]{4})|\\(.)/gs, (_, high, low, one, plain) => {
    if (plain !== undefined) return JSON_ESCAPES.get(plain);
    if (high !== undefined) {
      if (low === undefined) return "?";
      const first = parseInt(high, 16);
      return String.fromCodePoint((((first & 0x3f) << 10) | ((((first >> 6) & 0xf) + 1) << 16)) + (parseInt(low, 16) & 0x3ff));
    }
    const code = parseInt(one, 16);
    if (code >= 0xdc00 && code < 0xe000) throw new ToolError(`${LIST_NAME} isn't UTF-16, as its first bytes say: ${UTF_8_HINT}`);
    return String.fromCharCode(code);
  });
}
