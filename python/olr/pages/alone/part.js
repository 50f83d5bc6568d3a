"use strict";
// The program on the part of a map that some references depend on: of others it says that they aren't on the page, as their answers might
// be others on the whole map.
//
//   const program = onPart(await Program.of(bytes, files), points);
//
// `points` has the points of these references as texts, as `part.py` writes them, or is null for a whole map. The lines that a reference
// depends on follow from its points alone, so one with the same points has its answer too; and so has a text that the program refuses.
const NOT_ON_PAGE = "NotOnPage";

function onPart(program, points) {
  return points === null ? program : new ProgramOnPart(program, points);
}

class ProgramOnPart {
  constructor(program, points) {
    this.program = program;
    this.points = new Set(points);
  }

  show(reference) {
    return this.program.show(reference);
  }

  answer(what, numbers, reference, after = undefined) {
    const [isThere] = this.areThere([["", reference]]);
    return isThere ? this.program.answer(what, numbers, reference, after) : { text: null, fault: NOT_ON_PAGE };
  }

  around(box) {
    return this.program.around(box);
  }

  lines(what, numbers, records) {
    const areThere = this.areThere(records);
    const asked = records.map(([key, reference], at) => [key, areThere[at] ? reference : ""]);
    const line = (at) => JSON.stringify({ answer: null, fault: NOT_ON_PAGE, key: records[at][0], record: at + 1 });
    return this.program.lines(what, numbers, asked).map((found, at) => (areThere[at] ? found : line(at)));
  }

  // Of records whether each has one of these references, or a text that the program refuses.
  areThere(records) {
    const said = this.program.lines("show", {}, records).map((line) => JSON.parse(line).answer);
    return said.map((read) => read === null || this.points.has(read.points.flatMap(({ lon, lat, interval }) => [lon, lat, interval ?? -1]).join()));
  }
}
