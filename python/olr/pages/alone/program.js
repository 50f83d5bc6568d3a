"use strict";
// The program on one map, which it reads once: its answers as it writes them.
//
//   const program = await Program.of(bytes, { "nodes.csv": .., "lines.csv": .. }, confidence);
//
// `confidence` has the bytes of a file by which places have probabilities: none where there are none.
//
// An answer is { text, fault }: its JSON, or the line of a fault.
class Program {
  static async of(bytes, files, confidence = new Uint8Array()) {
    const program = new Program();
    program.module = await WebAssembly.compile(bytes);
    program.files = Object.fromEntries(Object.entries(files).map(([name, content]) => [`map/${name}`, content]));
    program.confidence = confidence;
    program.#begin(await Olr.of(program.module));
    return program;
  }

  // What a reference says. It needs no map.
  show(reference) {
    return this.#answered(askingText("show", {}, reference));
  }

  // The answer to a question about a reference; of `match` behind a cursor, if one is given.
  answer(what, numbers, reference, after = undefined) {
    this.#requireMap();
    return this.#answered(askingText(what, numbers, reference, after));
  }

  // The lines of the map that meet a box, with their shapes: it has the west, south, east and north end in microdegrees.
  around(box) {
    this.#requireMap();
    return this.#answered(`lines --box=${box.join(",")} --shape`);
  }

  // The lines of `olr batch` about records, each a key and a reference. The records count from 1.
  lines(what, numbers, records) {
    this.#requireMap();
    return this.#lines(records.map(([key, reference]) => [key, askingText(what, numbers, reference)]));
  }

  // Throws the fault of the map, where it has one.
  #requireMap() {
    const fault = this.mapFault();
    if (fault !== null) throw new Error(fault);
  }

  // The answer to the text of a record.
  #answered(text) {
    const [line] = this.#lines([["", text]]);
    const { fault } = JSON.parse(line);
    return { text: fault === null ? line.slice('{"answer":'.length, -',"fault":null,"key":"","record":1}'.length) : null, fault };
  }

  // The lines of records, each a key and a text.
  #lines(records) {
    return decoded(this.#run(new TextEncoder().encode(records.map(([key, text]) => `${key}\t${text}\n`).join("")))).split("\n");
  }

  // Takes an instance, which reads the map.
  #begin(olr) {
    this.olr = olr;
    this.mapFault = once(() => this.#opened());
  }

  // The fault of the map, which is read here; null if it has none.
  #opened() {
    const { status, errors } = this.olr.open(this.files);
    return status === 0 ? null : faultIn(errors);
  }

  // An instance that a trap stopped answers no more: the next question has a new one.
  #run(records) {
    try {
      return this.olr.answer(records, this.confidence);
    } catch (error) {
      if (error instanceof Stopped) this.#begin(new Olr(new WebAssembly.Instance(this.module, {})));
      throw error;
    }
  }
}

// The text of a record: the words of a question, and the reference. No cursor has a blank, which would end its word here.
function askingText(what, numbers, reference, after = undefined) {
  const behind = after === undefined ? [] : [`--after=${after.replaceAll(" ", "_")}`];
  return [what, ...wordsOf(numbers), ...behind, "--", reference].join(" ");
}

const decoded = (bytes) => new TextDecoder().decode(bytes).replace(/\n$/, "");
const faultIn = (errors) => decoded(errors).replace(/^olr: /, "");

// What a call gives that is made now: its value, or what it throws, each time that it is asked for.
function once(call) {
  try {
    const value = call();
    return () => value;
  } catch (error) {
    return () => {
      throw error;
    };
  }
}
