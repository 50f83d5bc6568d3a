"use strict";
// References among the elements of XML, in binary and in element form. Whose they are is known above, in openlr_xml.js.
//
//   new ReferenceForm(kind, names).written()   { reference, fault } of elements that came one after the other
//   ReferenceWalk                              a walk for `XmlReader` that takes references: `startOutside`, `endOutside`, `takeReferences` and
//                                              `endReferences` are those of its kinds

// References of one element: of more the first ones go on.
const MOST_HELD = 1000;
// In place of the text of a field that has an element within it, or is there twice: no value of any field.
const ODD = "<";
const PASSED_OVER = "passed over";
const BINARY_TEXTS = "binaries";

// A reference in element form, whose elements come one after the other.
class ReferenceForm {
  constructor(kind, names) {
    // A kind of location, or the fault of one that isn't read.
    this.kind = kind;
    this.names = names;
    this.own = new Map();
    this.points = [];
    this.lasts = [];
    // How many points there are but the last: not all of too many are held.
    this.count = 0;
  }

  // The fields of a point, which are read next.
  nextPoint(isLast) {
    const texts = new Map();
    const points = isLast ? this.lasts : this.points;
    if (!isLast) this.count += 1;
    if (points.length <= MOST_POINTS) points.push(texts);
    return texts;
  }

  // { reference, fault }: the reference in base64, or an empty text and its fault.
  written() {
    try {
      return { reference: writtenReference(this.withNumbers(), this.names), fault: null };
    } catch (error) {
      if (!(error instanceof BadReference)) throw error;
      return { reference: "", fault: error.message };
    }
  }

  withNumbers() {
    const { own, names } = this;
    const kind = this.kind ?? (own.has("side") || own.has("orientation") ? OF_ALONG_LINE : OF_LINE);
    if (kind !== OF_LINE && kind !== OF_ALONG_LINE) throw new BadReference(kind);
    if (this.lasts.length !== 1) throw badElement(names.last);
    if (kind === OF_LINE && this.count >= MOST_POINTS) throw new BadReference(`TooManyPoints ${this.count + 1}`);
    if (kind === OF_LINE) for (const field of ["side", "orientation"]) if (own.has(field)) throw badElement(names[field]);
    const points = [...this.points, ...this.lasts].map((texts) => ({
      ...Object.fromEntries(texts),
      class: numberOfWord("class", texts.get("class")),
      form: numberOfWord("form", texts.get("form")),
      lowest: numberOfWord("lowest", texts.get("lowest")),
    }));
    const known = (field) => (own.has(field) ? numberOfWord(field, own.get(field)) : undefined);
    return { kind, points, positive: own.get("positive"), negative: own.get("negative"), side: known("side"), orientation: known("orientation") };
  }
}

// Goes through elements, and takes the references among them. Whose they are is known below.
class ReferenceWalk extends Walk {
  constructor() {
    super();
    this.binaries = [];
    this.forms = [];
    this.seen = 0;
    // The depth of the outermost element that has references.
    this.inside = null;
    this.wrappers = [];
    // What elements may be in those that are open, in and below the one that has the fields of a reference.
    this.contexts = [];
    this.form = null;
    this.fields = null;
    this.texts = [];
  }

  openElements() {
    return this.depth + this.contexts.length;
  }

  isQuiet() {
    return this.messages.length > 0 && !this.contexts.length;
  }

  start(name, attributes) {
    if (this.contexts.length) this.startWithin(localName(name));
    else this.startOutside(localName(name), attributes);
  }

  end() {
    if (this.contexts.length) this.endElement();
    else this.endOutside();
  }

  // An element begins that has references, or a part of one.
  startReference(local, attributes) {
    const isPart = REFERENCE_PARTS.has(local) && local !== BINARY_ELEMENT;
    if (this.inside === null) this.inside = this.depth - (isPart ? 1 : 0);
    if (isPart) {
      this.depth -= 1;
      const kind = this.wrappers.length ? this.wrappers[this.wrappers.length - 1].kind : null;
      this.form = new ReferenceForm(kind, local.startsWith("openlr") ? DATEX_NAMES : OWN_NAMES);
      this.add(this.form);
      this.fields = this.form.own;
      this.goWithin(REFERENCE_PARTS);
      this.startWithin(local);
    } else if (local === BINARY_ELEMENT) {
      this.goWithin("binary");
    } else if (local === BINARIES_ELEMENT) {
      this.goWithin(BINARY_TEXTS);
    } else {
      this.startWrapper(local, attributes);
    }
  }

  // An element ends that may have references, but isn't within one.
  endReference() {
    const wrapper = this.wrappers[this.wrappers.length - 1];
    if (wrapper?.depth === this.depth) {
      this.wrappers.pop();
      if (wrapper.seen === this.seen) this.unknown(wrapper.name);
    }
    if (this.inside !== this.depth) return;
    this.inside = null;
    this.takeReferences();
    this.endReferences();
  }

  // The file has ended, perhaps with a root that is a part of a reference.
  finish() {
    if (!this.contexts.length) return;
    this.endWithin();
    this.endReference();
  }

  startWrapper(local, attributes) {
    let kind = kindOf(local);
    for (const [name, value] of attributes) if (localName(name) === "type") kind = kindOf(value) ?? kind;
    if (OTHER_KINDS.has(kind)) {
      this.add(new ReferenceForm(kind, OWN_NAMES));
      this.goWithin(PASSED_OVER);
      return;
    }
    if (kind === null && this.wrappers.length) kind = this.wrappers[this.wrappers.length - 1].kind;
    this.wrappers.push({ depth: this.depth, name: local, kind, seen: this.seen });
  }

  // A reference was found, in element form or in binary.
  add(found) {
    this.seen += 1;
    if (this.binaries.length + this.forms.length >= MOST_HELD) this.takeReferences();
    if (found instanceof ReferenceForm) this.forms.push(found);
    else this.binaries.push(withoutBlanks(found));
  }

  // From now to the end of the open element, its elements are those of a reference.
  goWithin(context) {
    this.contexts.push(context);
    this.texts.length = 0;
    this.listen(this.texts);
  }

  startWithin(local) {
    const context = this.contexts[this.contexts.length - 1];
    let known = context === PASSED_OVER || context === BINARY_TEXTS ? context : context instanceof Map ? context.get(local) : undefined;
    if (known === OTHER_POINT || known === LAST_POINT) this.fields = this.form.nextPoint(known === LAST_POINT);
    if (known === undefined) {
      this.unknown(local);
      known = PASSED_OVER;
    }
    this.contexts.push(known);
    this.texts.length = 0;
  }

  // An element of a reference ends, or the one that has all of them.
  endElement() {
    const context = this.contexts.pop();
    const text = this.texts.join("");
    if (context === PASSED_OVER) {
      this.texts.splice(0, this.texts.length, ODD);
    } else if (context === BINARY_TEXTS) {
      if (strip(text)) {
        this.add(text);
        this.texts.length = 0;
      }
    } else if (context === OTHER_POINT || context === LAST_POINT) {
      this.fields = this.form.own;
    } else if (context === "binary") {
      this.add(text);
    } else if (!(context instanceof Map)) {
      this.fields.set(context, this.fields.has(context) ? ODD : text);
    }
    if (this.contexts.length) return;
    this.endWithin();
    this.endOutside();
  }

  endWithin() {
    this.contexts.length = 0;
    this.listen(null);
  }

  unknown(local) {
    this.hint(`<${shownTexts([local])}> in a reference isn't known, and isn't read`);
  }
}
