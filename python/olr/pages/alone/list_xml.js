"use strict";
// XML as a stream of elements, without a parser of the browser: a worker has none. What it may not have is refused: document types and
// entities, and what would take much memory.
//
//   messagesOfXml(pieces, reading, said)            the messages of a list, one after the other; what is said of it goes to `said`
//   new XmlReader(pieces, walk).messages()          those that a walk finds
//
// A walk has `start(name, attributes)`, `end(name)`, `text(letters)`, `finish()`, `taken()`, the messages that were found, `isQuiet()`, whether
// they may be taken, `openElements()` and `heardLetters()`. Attributes are a Map. Nothing is held but the open elements.

const SINGLE_BYTES = /^(ibm866|iso-8859-\d+i?|koi8-[ru]|macintosh|windows-(?:874|125\d)|x-mac-cyrillic)$/;
// Bytes that are no letter where Python reads windows-1252.
const NO_LETTERS_OF_1252 = new Set([0x81, 0x8d, 0x8f, 0x90, 0x9d]);

function messagesOfXml(pieces, reading, said) {
  const walk = reading.ref === null ? new KnownElements(reading) : new NamedElements(reading);
  const found = (function* () {
    yield* new XmlReader(pieces, walk).messages();
    said.push(...walk.hints);
  })();
  if (reading.key === null) return found;
  const refusal = () => new ToolError(`${LIST_NAME} has no ${reading.key} around its first references: name another by --key`);
  return withOne(found, ({ key }) => key !== null, refusal);
}

// { text, ends, isBroken, isCut, fault }: the letters in front of what isn't in the encoding of the file, where pieces end among them, and how it
// ends. `reader` counts lines that are blank at its beginning.
function decodedXml(pieces, reader) {
  const { found, passedLines } = withoutBlanksBefore(pieces);
  reader.passedLines = passedLines;
  const head = String.fromCharCode(...(found[0]?.subarray(0, 1000) ?? []));
  XML_DECLARATION.lastIndex = 0;
  const [, double, single] = XML_DECLARATION.exec(head) ?? [];
  const name = double ?? single ?? "utf-8";
  const declared = name.toLowerCase();
  const zero = head.slice(0, 2).indexOf("\0");
  if (zero >= 0 && head.length > 1) return decodedPieces(found, new TextDecoder(zero === 0 ? "utf-16be" : "utf-16le"));
  if (declared === "utf-8" || declared.startsWith("utf-16") || declared.startsWith("utf16")) {
    const broken = firstNotUtf8(joined(found));
    const decoded = decodedPieces(found, new TextDecoder("utf-8", { ignoreBOM: true }));
    if (decoded.text.startsWith("\ufeff")) decoded.text = decoded.text.slice(1);
    if (broken === null) return decoded;
    const text = lenientUtf8.decode(joined(found).subarray(0, broken.at));
    return { ...decoded, text, isBroken: !broken.isCut, isCut: broken.isCut };
  }
  const table = tableOf(declared);
  if (table === null) return { text: head, ends: [], fault: `isn't XML that is read: ${shownTexts([`unknown encoding: ${name}`])}` };
  if (typeof table === "string") return { text: head, ends: [], fault: `isn't XML that is read: ${table}` };
  const decode = (piece) => Array.from(piece, (byte) => table[byte]).join("");
  return decodedPieces(found, { decode });
}

function withoutBlanksBefore(pieces) {
  let passedLines = 0;
  for (const [index, piece] of pieces.entries()) {
    const first = piece.findIndex((byte) => !isBlankByte(byte));
    for (const byte of first < 0 ? piece : piece.subarray(0, first)) passedLines += byte === 10;
    if (first >= 0) return { found: [piece.subarray(first), ...pieces.slice(index + 1)], passedLines };
  }
  return { found: [], passedLines };
}

function decodedPieces(pieces, decoder) {
  const ends = [];
  const texts = [];
  let size = 0;
  for (const piece of pieces) {
    const text = decoder.decode(piece, { stream: true });
    texts.push(text);
    ends.push((size += text.length));
  }
  return { text: texts.join(""), ends };
}

// The letters of the bytes of an encoding, with a zero, which XML hasn't, for what is none; or why it isn't read; null where it isn't known.
function tableOf(name) {
  const isAscii = name === "us-ascii" || name === "ascii";
  const isLatin = /^(iso[-_]?8859[-_]1|latin[-_]?1|l1)$/.test(name);
  const bytes = Array.from({ length: 256 }, (_, byte) => byte);
  if (isAscii) return bytes.map((byte) => String.fromCharCode(byte < 128 ? byte : 0));
  if (isLatin) return bytes.map((byte) => String.fromCharCode(byte));
  let decoder = null;
  try {
    decoder = new TextDecoder(name.replace(/^cp(125\d)$/, "windows-$1"));
  } catch {
    return null;
  }
  if (!SINGLE_BYTES.test(decoder.encoding)) return "multi-byte encodings are not supported";
  const isWestern = decoder.encoding === "windows-1252";
  const all = decoder.decode(Uint8Array.from(bytes));
  return bytes.map((byte) => (all[byte] === "\ufffd" || (isWestern && NO_LETTERS_OF_1252.has(byte)) ? "\0" : all[byte]));
}

class XmlReader extends XmlText {
  *messages() {
    const { walk, text } = this;
    if (!text.length && !this.isBroken) return;
    try {
      this.prolog();
      for (this.step(); this.open.length; this.step()) {
        if (walk.isQuiet()) yield* walk.taken();
      }
      this.epilog();
      walk.finish();
    } catch (error) {
      if (!(error instanceof ToolError)) throw error;
      yield* walk.taken();
      throw error;
    }
    yield* walk.taken();
  }

  // ---- elements
  step() {
    const { text, at } = this;
    if (at >= text.length) throw this.cut();
    if (text[at] === "&") this.reference();
    else if (text[at] !== "<") this.data();
    else if (text.startsWith("</", at)) this.endTag();
    else if (text.startsWith("<!--", at)) this.comment();
    else if (text.startsWith("<![CDATA[", at)) this.cdata();
    else if (text.startsWith("<?", at)) this.instruction();
    else if (text[at + 1] === "!") throw this.declared();
    else this.startTag();
  }

  // The error of what begins as a declaration, or as a comment that is cut off.
  declared() {
    const rest = this.text.slice(this.at, this.at + 9);
    const isBegun = this.text.length - this.at < 9 && ["<![CDATA[", "<!--"].some((whole) => whole.startsWith(rest));
    return isBegun ? this.cut() : this.broken(NOT_WELL_FORMED, this.at + 2);
  }

  // Text up to the next sign, or to the end of a piece.
  data() {
    const { text, at } = this;
    const behind = at + this.found(XML_DATA)[0].length;
    const closing = text.slice(at, behind).indexOf("]]>");
    const end = closing < 0 ? behind : at + closing;
    while (this.at < end) {
      const ahead = this.ends[this.nextEnd] > this.at ? this.ends[this.nextEnd] : this.ends[this.nextEnd + 1];
      const here = Math.min(end, ahead ?? end);
      const letters = text.slice(this.at, here);
      this.pass(here);
      this.walk.text(letters.replace(/\r\n?/g, "\n"));
    }
    if (closing >= 0) throw this.broken(NOT_WELL_FORMED, end + 2);
  }

  cdata() {
    const begin = this.at + 9;
    const found = this.text.indexOf("]]>", begin);
    const end = found < 0 ? this.text.length : found + 3;
    this.pass(end);
    if (found < 0) throw this.cut();
    this.walk.text(this.text.slice(begin, found).replace(/\r\n?/g, "\n"));
  }

  reference() {
    const [letters, end] = this.referenceAt(this.at, this.at);
    this.pass(end);
    this.walk.text(letters);
  }

  startTag() {
    const { text } = this;
    const found = this.found(XML_NAME, this.at + 1);
    if (!found) throw this.at + 1 >= text.length ? this.cut() : this.broken(NOT_WELL_FORMED, this.at + 1);
    const name = found[0];
    const parts = [];
    let at = this.at + 1 + name.length;
    for (;;) {
      const behind = this.blanks(at);
      if (behind >= text.length) throw this.cutTag();
      const isEmpty = text[behind] === "/";
      if (isEmpty && behind + 1 >= text.length) throw this.cutTag();
      if (text[behind] === ">" || isEmpty) {
        if (isEmpty && text[behind + 1] !== ">") throw this.broken(NOT_WELL_FORMED, behind + 1);
        this.openTag(name, parts, behind + (isEmpty ? 2 : 1), isEmpty);
        return;
      }
      if (behind === at) throw this.broken(NOT_WELL_FORMED, behind);
      at = this.attributeAt(behind, parts);
    }
  }

  // Finds an attribute, whose value is still to be read, and answers where it ends.
  attributeAt(begin, parts) {
    const { text } = this;
    const found = this.found(XML_NAME, begin);
    if (!found) throw this.broken(NOT_WELL_FORMED, begin);
    const equals = this.blanks(begin + found[0].length);
    if (equals >= text.length) throw this.cutTag();
    if (text[equals] !== "=") throw this.broken(NOT_WELL_FORMED, equals);
    const opening = this.blanks(equals + 1);
    if (opening >= text.length) throw this.cutTag();
    const quote = text[opening];
    if (quote !== '"' && quote !== "'") throw this.broken(NOT_WELL_FORMED, opening);
    let at = opening + 1;
    for (;;) {
      at += this.found(XML_VALUE, at)[0].length;
      if (at >= text.length) throw this.cutTag();
      if (text[at] === quote) break;
      if (text[at] === "<") throw this.broken(NOT_WELL_FORMED, at);
      if (text[at] === "&") {
        const reference = this.found(XML_REFERENCE, at);
        if (!reference) this.referenceAt(at, at);
        at += reference[0].length;
      } else {
        at += 1;
      }
    }
    parts.push({ name: found[0], begin, first: opening + 1, last: at });
    return at + 1;
  }

  cutTag() {
    this.pass(this.text.length + 1);
    this.at = this.event;
    return this.cut();
  }

  openTag(name, parts, end, isEmpty) {
    const begin = this.at;
    this.pass(end);
    this.note(name);
    const attributes = new Map();
    for (const part of parts) {
      this.note(part.name);
      if (attributes.has(part.name)) throw this.broken("duplicate attribute", part.begin);
      attributes.set(part.name, this.valueOf(part, begin));
    }
    this.event = begin;
    this.open.push(name);
    this.walk.start(name, attributes);
    if (!isEmpty) return;
    this.open.pop();
    this.walk.end(name);
  }

  valueOf({ first, last }, event) {
    const [start, ...others] = this.text.slice(first, last).replace(/\r\n?|[\t\n]/g, " ").split("&");
    let found = start;
    let at = first;
    for (const other of others) {
      at = this.text.indexOf("&", at);
      const [letters, end] = this.referenceAt(at, event);
      found += letters + other.slice(other.indexOf(";") + 1);
      at = end;
    }
    return found;
  }

  endTag() {
    const { text } = this;
    const found = this.found(XML_NAME, this.at + 2);
    const behind = found ? this.blanks(this.at + 2 + found[0].length) : this.at + 2;
    if (behind >= text.length) throw this.cut();
    if (!found || text[behind] !== ">") throw this.broken(NOT_WELL_FORMED, behind);
    if (found[0] !== this.open[this.open.length - 1]) throw this.broken("mismatched tag");
    this.pass(behind + 1);
    this.open.pop();
    this.walk.end(found[0]);
  }
}
