"use strict";
// Messages of XML whose names are known: DATEX II, versions 2 and 3, and OpenLR's own schema.
//
//   new KnownElements({ key })   a walk for `XmlReader`: each message has the key of its situation record or of its `OpenLR`, or the nearest id

class KnownElements extends ReferenceWalk {
  constructor({ key }) {
    super();
    const document = { depth: 0, name: "", key: null, kept: new KeptTexts(), count: 0, waiting: [] };
    // The document, and the records that are open.
    this.records = [document];
    this.key = key;
    this.keeps = Boolean(key);
    const keep = (name, text) => this.record().kept.add(name, text);
    this.keeper = new TextKeeper(key ?? "", keep, (texts) => this.listen(texts));
    this.situations = this.without = 0;
    this.isKnown = false;
    // Where the key of an `OpenLR` is being read.
    this.keyDepth = 0;
    this.keyTexts = [];
  }

  record() {
    return this.records[this.records.length - 1];
  }

  startOutside(local, attributes) {
    this.depth += 1;
    if (this.inside !== null || beginsReference(local)) {
      this.startReference(local, attributes);
      return;
    }
    const isNamed = local === OWN_RECORD || local === SITUATION;
    if (attributes.size || isNamed) this.startRecord(local, isNamed, attributes);
    if (local === OWN_KEY && this.record().name === OWN_RECORD && !this.keyDepth) {
      this.keyDepth = this.depth;
      this.keyTexts = [];
      this.listen(this.keyTexts);
    } else if (this.keeps && !this.keyDepth) {
      this.keeper.start(this.depth, local);
    }
  }

  endOutside() {
    const { depth } = this;
    if (this.inside !== null) this.endReference();
    if (depth === this.keyDepth) {
      this.record().key = oneLine(this.keyTexts.join(""));
      this.keyDepth = 0;
      this.keeper.goOn();
    } else if (this.keeps && !this.keyDepth) {
      this.keeper.end(depth);
    }
    if (this.record().depth === depth) this.endRecord(this.record());
    this.depth = depth - 1;
  }

  endReferences() {
    if (this.keeps || this.keyDepth) this.keeper.goOn();
  }

  // References were found: those of an `OpenLR` are given at its end.
  takeReferences() {
    if (this.record().name !== OWN_RECORD) this.give([...this.binaries, ...this.forms.slice(this.binaries.length)]);
    else if (this.forms.length + this.binaries.length >= MOST_HELD) throw this.error("has more than 1,000 references of one location");
  }

  finish() {
    super.finish();
    if (!this.number && !this.isKnown) {
      throw new ToolError(`${LIST_NAME} has no element of DATEX II or OpenLR: name the element or @attribute with references by --ref`);
    }
    if (this.without) this.hint(`${grouped(this.without)} of ${grouped(this.situations)} situation records have no OpenLR, and so no row`);
  }

  // The messages that were found, with references in binary.
  taken() {
    return super.taken().map(({ form, ...message }) => (form ? { ...message, ...form.written() } : message));
  }

  startRecord(local, isNamed, attributes) {
    this.isKnown ||= isNamed || DATEX_ROOTS.has(local);
    const around = this.record();
    const plain = withoutPrefixes(attributes);
    if (!isNamed && (!plain.has("id") || around.name === OWN_RECORD || around.name === SITUATION)) return;
    const kept = this.keeps ? this.keeper.ofElement(plain) : new KeptTexts();
    this.records.push({ depth: this.depth, name: local, key: plain.has("id") ? plain.get("id") : around.key, kept, count: 0, waiting: [] });
    this.situations += local === SITUATION;
  }

  endRecord(record) {
    if (record.name === OWN_RECORD) {
      const found = this.ofLocation();
      this.give(found.length ? found : [""]);
    }
    this.records.pop();
    if (record.name === SITUATION) this.without += !record.count;
    else if (!record.count && this.keeps) this.record().kept.addAll(record.kept);
    if (!record.waiting.length) return;
    if (record.kept.isTooLong()) throw this.error("ends a record with more than 1,048,576 letters to keep");
    const key = record.kept.of(this.key);
    for (const one of record.waiting) this.messages.push({ record: this.nextNumber(), key, ...one });
  }

  // The references of an `OpenLR`: of several binary ones, which have several versions, that of version 3.
  ofLocation() {
    const binaries = this.binaries.filter(beginsLikeAReference);
    const chosen = (binaries.length ? binaries : this.binaries).slice(0, 1);
    return [...chosen, ...this.forms.slice(chosen.length)];
  }

  // References of the innermost record are messages, at once or at its end.
  give(references) {
    this.binaries = [];
    this.forms = [];
    const record = this.record();
    record.count += references.length;
    if (this.keeps && record.depth) {
      const written = (reference) => (reference instanceof ReferenceForm ? reference.written() : { reference, fault: null });
      record.waiting.push(...references.map(written));
      if (record.waiting.length > MOST_WAITING) throw this.error("has more than 10,000 references of one record");
      return;
    }
    for (const found of references) {
      const message = { record: this.nextNumber(), key: record.key };
      this.messages.push(found instanceof ReferenceForm ? { ...message, form: found } : { ...message, reference: found, fault: null });
    }
  }
}
