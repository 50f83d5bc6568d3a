"use strict";
// The text of a file of XML: its letters, the lines of places in it, and what may stand around elements. What is broken has the words of expat.
//
// `XmlText` is what `XmlReader` of list_xml.js goes through. Work grows with the bytes: no part is looked at again for each of others.

const MOST_TOKEN = 4 << 20;
const MOST_TEXT = 1 << 20;
const MOST_OPEN = 500;
const MOST_NAMES = 1 << 16;
const MARKUP_NAME_START = ":_\\p{L}\\p{Nl}";
const MARKUP_NAME_PART = `[${MARKUP_NAME_START}.\\-\\u00b7\\p{Nd}\\p{M}]`;
const MARKUP_NAME = `[${MARKUP_NAME_START}]${MARKUP_NAME_PART}*`;
const MARKUP_BLANK = "[ \\t\\r\\n]";
// An attribute of a declaration, whose value is like this.
const attributeLike = (name, value) => `${name}${MARKUP_BLANK}*=${MARKUP_BLANK}*(?:"${value}"|'${value}')`;
const XML_DECLARED = /<!(?:[A-Za-z_:]+|$)/y;
const XML_NAME = new RegExp(MARKUP_NAME, "uy");
const XML_NAME_PART = new RegExp(`${MARKUP_NAME_PART}+`, "uy");
const XML_BLANKS = new RegExp(`${MARKUP_BLANK}*`, "y");
const XML_REFERENCE = new RegExp(`&(?:#([0-9]+)|#x([0-9a-fA-F]+)|(${MARKUP_NAME}));`, "uy");
const XML_REFERENCE_BEGUN = new RegExp(`&(?:#(?:x[0-9a-fA-F]*|[0-9]*)|${MARKUP_NAME_PART}*)`, "uy");
const XML_DATA = /[^<&]*/y;
const XML_VALUE = /[^<&"']*/y;
const NO_XML = /[\x00-\x08\x0b\x0c\x0e-\x1f\ufffe\uffff]/;
const [VERSION_PART, ENCODING_PART] = [attributeLike("version", "[\\w.-]*"), attributeLike("encoding", "([A-Za-z][\\w.-]*)")];
const STANDALONE_PART = attributeLike("standalone", "(?:yes|no)");
const OTHER_PARTS = `(?:${MARKUP_BLANK}+${ENCODING_PART})?(?:${MARKUP_BLANK}+${STANDALONE_PART})?${MARKUP_BLANK}*`;
const XML_DECLARATION = new RegExp(`<\\?xml${MARKUP_BLANK}+${VERSION_PART}${OTHER_PARTS}\\?>`, "y");
// Signs that mean something within a document type.
const CLOSING_SIGN = "\\)(?=[ \\t\\r\\n>,|)*?+]|$)";
const SIGN_OF_NAME = `#${MARKUP_NAME}(?=[ \\t\\r\\n)>%|]|$)|<[${MARKUP_NAME_START}!?]`;
const DOCUMENT_SIGN = new RegExp(`[,[\\](|>]|${CLOSING_SIGN}|${SIGN_OF_NAME}|%(?=[ \\t\\r\\n%]|$)`, "uy");
const XML_ENTITIES = { lt: "<", gt: ">", amp: "&", quot: '"', apos: "'" };
const NOT_WELL_FORMED = "not well-formed (invalid token)";

// Goes through a text, of which `at` is the place, and `event` where that begins which is read. `walk` hears of it.
class XmlText {
  constructor(pieces, walk) {
    this.walk = walk;
    walk.reader = this;
    this.at = this.event = this.passedLines = 0;
    this.names = new Set();
    this.letters = 0;
    this.open = [];
    Object.assign(this, decodedXml(pieces, this));
    const broken = this.text.search(NO_XML);
    if (broken >= 0) {
      this.text = this.text.slice(0, broken);
      this.isBroken = true;
    }
    this.nextEnd = 0;
  }

  // The line of the event that is read.
  line() {
    return this.passedLines + 1 + (this.text.slice(0, this.event).match(/\r\n|\r|\n/g) ?? []).length;
  }

  broken(reason, at = this.at) {
    this.event = at;
    return new ToolError(`${LIST_NAME}: line ${this.line()} isn't XML: ${reason}: repair it, or give another --format`);
  }

  // The error of a text that ends within a token, or where an element is open.
  cut() {
    if (this.isBroken) return this.broken(NOT_WELL_FORMED, this.text.length);
    // A carriage return at the end may be half of a line end.
    this.event = this.at === this.text.length && this.text.endsWith("\r") ? this.at - 1 : this.at;
    return new ToolError(`${LIST_NAME}: line ${this.line()} is its last one, within an element: it was cut short`);
  }

  // Goes behind a token. Throws `ToolError` where a limit was passed at the end of a piece within it.
  pass(end) {
    this.event = this.at;
    while (this.nextEnd < this.ends.length && this.ends[this.nextEnd] < end) this.requireLimits(this.ends[this.nextEnd++]);
    this.at = end;
  }

  requireLimits(behind) {
    const { walk } = this;
    if (behind - this.at > MOST_TOKEN) throw walk.error("begins a tag or a comment of more than 4,194,304 bytes");
    if (walk.openElements() > MOST_OPEN) throw walk.error("is within more than 500 elements");
    if (this.names.size > MOST_NAMES || this.letters > MOST_TEXT) throw walk.error("has a new name, behind too many others");
    if (walk.heardLetters() > MOST_TEXT) throw walk.error("is in a text of more than 1,048,576 letters");
  }

  note(name) {
    if (this.names.has(name)) return;
    this.names.add(name);
    this.letters += name.length;
  }

  // What a pattern finds there, or null.
  found(pattern, at = this.at) {
    pattern.lastIndex = at;
    return pattern.exec(this.text);
  }

  blanks(at) {
    return at + this.found(XML_BLANKS, at)[0].length;
  }

  // Where a part of a token has to end that begins there. Throws where it doesn't.
  upTo(end, at) {
    const found = this.text.indexOf(end, at);
    if (found >= 0) return found + end.length;
    this.pass(this.text.length + 1);
    this.at = this.event;
    throw this.cut();
  }

  prolog() {
    if (this.text.startsWith("<?xml") && /[ \t\r\n?]/.test(this.text[5] ?? "?")) {
      const end = this.upTo("?>", 0);
      const found = this.found(XML_DECLARATION);
      if (!found || found[0].length !== end) throw this.broken("XML declaration not well-formed");
      this.pass(end);
      if (this.fault) throw this.walk.error(this.fault);
    }
    this.aside("syntax error");
    if (this.at >= this.text.length) throw this.cut();
    if (!this.text.startsWith("<!", this.at)) return;
    const opening = this.found(XML_DECLARED);
    if (opening && this.at + opening[0].length === this.text.length) throw this.cut();
    const behind = this.at + (opening?.[0].length ?? 2);
    const isToken = opening ? /^(?:[ \t\r\n]|%[^ \t\r\n%])/.test(this.text.slice(behind, behind + 2)) : this.text[behind] === "[";
    if (!isToken) throw this.broken(NOT_WELL_FORMED, behind);
    if (opening?.[0] === "<!DOCTYPE") this.documentType(behind);
    throw this.broken("syntax error");
  }

  epilog() {
    this.aside(null);
    if (this.at >= this.text.length) {
      if (this.isBroken || this.isCut) throw this.cut();
      return;
    }
    throw this.second();
  }

  second() {
    this.event = this.at;
    return new ToolError(`${LIST_NAME}: line ${this.line()} begins another document: give each a file of its own`);
  }

  // Passes over blanks, comments and instructions outside of elements. Throws where something else is, but for an element or a declaration.
  aside(reason) {
    for (;;) {
      this.pass(this.blanks(this.at));
      const { text, at } = this;
      if (at >= text.length) return;
      if (text.startsWith("<!--", at)) this.comment();
      else if (text.startsWith("<?", at)) this.instruction();
      else if (text[at] !== "<") throw this.stray(reason);
      else if (reason === null && at + 1 >= text.length) throw this.cut();
      else if (reason === null || /[:_!\p{L}\p{Nl}]/u.test(text[at + 1] ?? "!")) return;
      else throw this.broken(NOT_WELL_FORMED);
    }
  }

  // Throws the error of a document type, behind its first word.
  documentType(begin) {
    this.at = begin;
    for (let wanted = "name"; ; ) {
      this.at = this.blanks(this.at);
      const { kind, text, end } = this.token();
      this.event = this.at;
      if ((kind === "[" || kind === ">") && (wanted === "external" || wanted === "end")) {
        throw this.walk.error("has a document type, and such files aren't read: take it out");
      }
      if (wanted === "name" && kind === "name") wanted = "external";
      else if (wanted === "external" && (text === "SYSTEM" || text === "PUBLIC")) wanted = text === "PUBLIC" ? "public" : "system";
      else if (kind === "literal" && (wanted === "public" || wanted === "system")) wanted = wanted === "public" ? "system" : "end";
      else throw this.broken("syntax error");
      this.at = end;
    }
  }

  // What stands outside of elements, by what it would be within a document type: { kind, text, end }. Throws where it is nothing there.
  token() {
    const { text, at } = this;
    if (at >= text.length) throw this.cut();
    const next = (end) => text.slice(end, end + 1);
    const named = this.found(XML_NAME_PART);
    if (named) {
      const end = at + named[0].length;
      if (end === text.length && this.isBroken) throw this.cut();
      if (!/^(?:[ \t\r\n>),|[%+*?]|$)/.test(next(end))) throw this.broken(NOT_WELL_FORMED, end);
      return { kind: this.found(XML_NAME) ? "name" : "other", text: named[0], end };
    }
    if (text[at] === '"' || text[at] === "'") {
      const end = text.indexOf(text[at], at + 1) + 1;
      if (!end) throw this.cut();
      if (!/^(?:[ \t\r\n>%[]|$)/.test(next(end))) throw this.broken(NOT_WELL_FORMED, end);
      return { kind: "literal", end };
    }
    if (!this.found(DOCUMENT_SIGN)) throw this.broken(NOT_WELL_FORMED);
    return { kind: text[at], end: at + 1 };
  }

  // The error of what stands outside of elements.
  stray(reason) {
    this.token();
    return reason === null ? this.second() : this.broken(reason);
  }

  comment() {
    const end = this.upTo("--", this.at + 4);
    if (end >= this.text.length) throw this.cut();
    if (this.text[end] !== ">") throw this.broken(NOT_WELL_FORMED, end);
    this.pass(end + 1);
  }

  instruction() {
    const name = this.found(XML_NAME, this.at + 2);
    if (!name && this.at + 2 >= this.text.length) throw this.cut();
    if (!name) throw this.broken(NOT_WELL_FORMED, this.at + 2);
    const behind = this.at + 2 + name[0].length;
    if (behind >= this.text.length) throw this.cut();
    if (!/[ \t\r\n?]/.test(this.text[behind])) throw this.broken(NOT_WELL_FORMED, behind);
    if (name[0].toLowerCase() === "xml" && name[0] !== "xml") throw this.broken(NOT_WELL_FORMED, behind);
    if (this.text[behind] === "?" && (this.text[behind + 1] ?? ">") !== ">") throw this.broken(NOT_WELL_FORMED, behind + 1);
    if (name[0] === "xml") {
      this.upTo("?>", behind);
      throw this.second();
    }
    this.pass(this.upTo("?>", behind));
  }

  // The letters of a reference, and where it ends. An entity that isn't known is an error of the event.
  referenceAt(at, event) {
    const found = this.found(XML_REFERENCE, at);
    if (!found) {
      const behind = at + this.found(XML_REFERENCE_BEGUN, at)[0].length;
      throw behind >= this.text.length ? this.cut() : this.broken(NOT_WELL_FORMED, behind);
    }
    const [whole, decimal, hexadecimal, name] = found;
    if (name !== undefined) {
      if (!Object.hasOwn(XML_ENTITIES, name)) throw this.broken("undefined entity", event);
      return [XML_ENTITIES[name], at + whole.length];
    }
    const code = decimal === undefined ? parseInt(hexadecimal, 16) : parseInt(decimal, 10);
    const isLetter = code > 0 && code < 0x110000 && !(code >= 0xd800 && code < 0xe000) && !NO_XML.test(String.fromCodePoint(code));
    if (!isLetter) throw this.broken("reference to invalid character number", at);
    return [String.fromCodePoint(code), at + whole.length];
  }
}
