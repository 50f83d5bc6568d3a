"use strict";
// What all walks through elements have in common, and messages of any XML, by the names of the elements or attributes with references and
// with keys.
//
//   new NamedElements({ ref, key })   a walk for `XmlReader`. The record of a reference is the nearest element around it that has the key; if
//                                     there is none, the one that has the reference

const MOST_WAITING = 10_000;
const MOST_NOTED = 10_000;
const MOST_HINTS = 20;
const XML_BLANK = /[ \t\r\n]+/g;

// A name without its prefix. A declaration of a namespace has none of its own.
const localName = (name) => (name.startsWith("xmlns:") ? name : name.slice(name.lastIndexOf(":") + 1));
const withoutBlanks = (text) => text.replace(XML_BLANK, "");

// The attributes of an element without prefixes. Of two with one name it is that without a prefix, or else the first one.
function withoutPrefixes(attributes) {
  const plain = new Map();
  for (const [name, value] of attributes) {
    const local = localName(name);
    if (!plain.has(local) || local === name) plain.set(local, value);
  }
  return plain;
}

class Walk {
  constructor() {
    this.messages = [];
    this.hints = [];
    this.depth = this.number = 0;
    this.heard = null;
  }

  // From now on texts are added to these, or to none.
  listen(texts) {
    this.heard = texts;
  }

  text(letters) {
    if (this.heard !== null && letters) this.heard.push(letters);
  }

  heardLetters() {
    return (this.heard ?? []).reduce((sum, text) => sum + text.length, 0);
  }

  openElements() {
    return this.depth;
  }

  isQuiet() {
    return this.messages.length > 0;
  }

  finish() {}

  taken() {
    const found = this.messages;
    this.messages = [];
    return found;
  }

  // Something that is said behind the last message, once.
  hint(text) {
    const hint = `hint: ${LIST_NAME}: ${text}`;
    if (this.hints.length < MOST_HINTS && !this.hints.includes(hint)) this.hints.push(hint);
  }

  error(what) {
    return new ToolError(`${LIST_NAME}: line ${this.reader.line()} ${what}`);
  }

  nextNumber() {
    this.number += 1;
    return this.number;
  }
}

// An element that is open, or that ended before the first reference's record was known.
class OpenElement {
  constructor(name, key) {
    this.name = name;
    this.key = key ?? null;
    // Those within it that have no record yet.
    this.references = [];
    this.hasSome = this.isRecord = false;
    this.keys = 0;
    this.hasOwn = this.key !== null;
  }

  takeKey(key) {
    if (this.hasOwn) return;
    this.key = key;
    this.hasOwn = true;
  }

  // Takes the key of an element within it, if that is the only one.
  takeInnerKey(key) {
    if (key === null || this.hasOwn) return;
    this.keys += 1;
    this.key = this.keys === 1 ? key : null;
  }
}

class NamedElements extends Walk {
  constructor({ ref, key }) {
    super();
    this.ref = ref || "";
    this.key = key || "@id";
    this.keyAttribute = this.key.startsWith("@") ? this.key.slice(1) : null;
    this.refAttribute = this.ref.startsWith("@") ? this.ref.slice(1) : null;
    this.openOnes = [new OpenElement("", null)];
    // Where the text of a reference or a key is being read.
    this.textDepth = 0;
    this.texts = [];
    // The name of records, when it is known.
    this.record = null;
    this.noted = [];
    this.forgotten = new Set();
  }

  start(name, attributes) {
    this.depth += 1;
    const local = localName(name);
    const plain = withoutPrefixes(attributes);
    const opened = new OpenElement(local, this.keyAttribute ? plain.get(this.keyAttribute) : null);
    this.openOnes.push(opened);
    if (plain.has(this.refAttribute)) this.takeReference(opened, plain.get(this.refAttribute));
    if (this.textDepth || (local !== this.ref && local !== this.key)) return;
    this.textDepth = this.depth;
    this.texts = [];
    this.listen(this.texts);
  }

  end() {
    const ended = this.openOnes.pop();
    const around = this.openOnes[this.openOnes.length - 1];
    if (this.textDepth === this.depth) this.endText(ended.name, around);
    const isOuter = this.depth <= 2;
    if (isOuter && ended.key === null) ended.key = around.key;
    if (ended.references.length && (isOuter || ended.isRecord || ended.key !== null)) {
      this.makeRecord(ended.name);
      this.give(ended);
    } else if (ended.name === this.record) {
      this.give(ended);
    } else {
      this.handOn(ended, around);
    }
    around.hasSome ||= ended.hasSome;
    this.depth -= 1;
  }

  finish() {
    if (this.record !== null) return;
    const what = this.refAttribute ? "attribute" : "element";
    throw new ToolError(`${LIST_NAME} has no ${what} ${this.ref}: name another one by --ref`);
  }

  // The element of a reference or a key ends.
  endText(name, around) {
    const text = this.texts.join("");
    this.textDepth = 0;
    this.listen(null);
    if (name === this.key) around.takeKey(oneLine(text));
    if (name === this.ref) this.takeReference(around, text);
  }

  // An element has a reference, as its attribute or in an element of its own.
  takeReference(owner, text) {
    const reference = withoutBlanks(text);
    owner.hasSome = true;
    if (this.keyAttribute === null) {
      owner.references.push({ text: reference, isGiven: false });
      this.requireRoom(owner);
      return;
    }
    let record = owner;
    for (let at = this.openOnes.length - 1; at >= 0; at -= 1) {
      if (this.openOnes[at].key === null) continue;
      record = this.openOnes[at];
      break;
    }
    record.isRecord = record.hasSome = true;
    this.makeRecord(record.name);
    this.message(record.key, reference);
  }

  // An element that is no record leaves what it has to the one around it.
  handOn(ended, around) {
    if (ended.references.length) {
      around.references.push(...ended.references);
      this.requireRoom(around);
    }
    if (this.record === null) {
      if (this.noted.length < MOST_NOTED) this.noted.push(ended);
      else this.forgotten.add(ended.name);
    }
    if (this.keyAttribute === null && this.depth > 2) around.takeInnerKey(ended.key);
  }

  requireRoom(owner) {
    if (owner.references.length > MOST_WAITING) throw this.error(`has more than 10,000 references in one element ${shownTexts([owner.name])}`);
  }

  // The name of records is known, if it wasn't: those that came before have their messages.
  makeRecord(name) {
    if (this.record !== null) return;
    this.record = name;
    if (this.forgotten.has(name)) throw this.error("is behind 10,000 elements without a record");
    for (const one of this.noted) if (one.name === name) this.give(one);
    this.noted = [];
  }

  // The messages of a record that has ended.
  give(record) {
    if (!record.hasSome) this.message(record.key, "");
    for (const reference of record.references) {
      if (reference.isGiven) continue;
      reference.isGiven = true;
      this.message(record.key, reference.text);
    }
  }

  message(key, reference) {
    this.messages.push({ record: this.nextNumber(), key, reference, fault: null });
  }
}
