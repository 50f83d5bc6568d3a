"use strict";
// The texts of elements that were named as keys of records, beside their references. Of several elements of a name the texts are joined, with a
// semicolon and a blank between them.

const MOST_KEPT = 1 << 20;

// What is kept of a record.
class KeptTexts {
  constructor() {
    this.texts = new Map();
    this.letters = 0;
  }

  // Adds a text, as long as there is room.
  add(name, text) {
    this.letters += letters(name).length + letters(text).length;
    if (this.isTooLong()) return;
    if (!this.texts.has(name)) this.texts.set(name, []);
    this.texts.get(name).push(text);
  }

  // Adds what is kept of an element within the record.
  addAll(other) {
    for (const [name, texts] of other.texts) if (!name.startsWith("@")) for (const text of texts) this.add(name, text);
    if (other.isTooLong()) this.letters += MOST_KEPT;
  }

  isTooLong() {
    return this.letters > MOST_KEPT;
  }

  of(name) {
    return this.texts.has(name) ? this.texts.get(name).join("; ") : null;
  }
}

// Takes the texts of elements with a name as they come: it is told of each element that isn't within a reference.
class TextKeeper {
  constructor(name, add, listen) {
    this.name = name.startsWith("@") ? null : name;
    this.attribute = name.startsWith("@") ? name.slice(1) : null;
    this.add = add;
    this.listen = listen;
    this.texts = [];
    // The depth of the element whose text is being taken. One within another one of its name isn't taken twice.
    this.depth = 0;
  }

  start(depth, name) {
    if (this.depth) this.texts.push(" ");
    if (this.depth || name !== this.name) return;
    this.texts = [];
    this.listen(this.texts);
    this.depth = depth;
  }

  end(depth) {
    if (!this.depth) return;
    if (depth !== this.depth) {
      this.texts.push(" ");
      return;
    }
    this.depth = 0;
    const line = this.texts.join("").split(WHITES).filter(Boolean).join(" ");
    if (line) this.add(this.name, line);
    this.listen(null);
  }

  // A reference has ended.
  goOn() {
    this.listen(this.depth ? this.texts : null);
  }

  // What is kept of the attributes of a record's element, which have names without a prefix.
  ofElement(attributes) {
    const kept = new KeptTexts();
    if (this.attribute !== null && attributes.has(this.attribute)) kept.add(`@${this.attribute}`, oneLine(attributes.get(this.attribute)));
    return kept;
  }
}
