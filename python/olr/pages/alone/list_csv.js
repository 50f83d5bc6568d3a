"use strict";
// Lists in CSV, with the separator that the header shows: rows as Python's `csv` reads them where it is strict.
//
//   messagesOfTable(textLines(bytes, true), { ref, key })   { record, key, reference, fault } of each row

const SEPARATORS = { ",": "commas", ";": "semicolons", "\t": "tabs", "|": "pipes" };
const MOST_CELL = 1 << 24;

class CsvError extends Error {}

// Reads records: `next()` gives the cells of the next one, and null behind the last one. `line` counts the lines that were read.
class CsvReader {
  constructor(lines, separator, isStrict) {
    this.lines = lines[Symbol.iterator]();
    this.separator = separator;
    this.isStrict = isStrict;
    this.line = 0;
  }

  next() {
    this.cells = [];
    this.cell = "";
    this.state = "record";
    do {
      const { value, done } = this.lines.next();
      if (done) return this.atEnd();
      this.line += 1;
      this.take(value);
      this.step(null);
    } while (this.state !== "record");
    return this.cells;
  }

  atEnd() {
    if (this.cell === "" && this.state !== "quoted") return null;
    if (this.isStrict) throw new CsvError("unexpected end of data");
    this.save();
    return this.cells;
  }

  // Goes through a line. What is neither a quote nor a separator nor an end is taken at once.
  take(line) {
    const plain = /[^"\r\n,;\t|]+/y;
    for (let at = 0; at < line.length; ) {
      plain.lastIndex = at;
      const found = this.state === "quoted" || this.state === "cell" ? plain.exec(line) : null;
      if (found) {
        this.add(found[0]);
        at += found[0].length;
      } else {
        const letter = String.fromCodePoint(line.codePointAt(at));
        this.step(letter);
        at += letter.length;
      }
    }
  }

  add(text) {
    this.cell += text;
    if (this.cell.length > MOST_CELL) throw new CsvError(`field larger than field limit (${MOST_CELL})`);
  }

  save(state = this.state) {
    this.cells.push(this.cell);
    this.cell = "";
    this.state = state;
  }

  // Takes a letter: null stands for the end of what was given as a line.
  step(letter) {
    const isEnd = letter === null || letter === "\n" || letter === "\r";
    const behind = letter === null ? "record" : "ends";
    if (this.state === "record" && isEnd) {
      this.state = behind;
    } else if (this.state === "ends") {
      if (letter === null) this.state = "record";
      else if (!isEnd) throw new CsvError("new-line character seen in unquoted field - do you need to open the file in universal-newline mode?");
    } else if (this.state === "quoted") {
      if (letter === '"') this.state = "quote";
      else if (letter !== null) this.add(letter);
    } else if (this.state === "quote" && letter === '"') {
      this.add(letter);
      this.state = "quoted";
    } else if (isEnd) {
      this.save(behind);
    } else if (letter === this.separator) {
      this.save("start");
    } else if (this.state === "quote" && this.isStrict) {
      throw new CsvError(`'${this.separator}' expected after '"'`);
    } else if (letter === '"' && (this.state === "start" || this.state === "record")) {
      this.state = "quoted";
    } else {
      this.add(letter);
      this.state = "cell";
    }
  }
}

// The cells of a header, without blanks around them.
function headerCells(line, separator) {
  try {
    return (new CsvReader([stripOf(line, "\r\n")], separator, false).next() ?? []).map(strip);
  } catch (error) {
    if (error instanceof CsvError) return [];
    throw error;
  }
}

function hasColumn(header, column) {
  return Object.keys(SEPARATORS).some((separator) => headerCells(header, separator).includes(column));
}

// The columns of a header, by the separator that gives most.
function columnsOfHeader(header) {
  const all = Object.keys(SEPARATORS).map((separator) => headerCells(header, separator));
  return all.reduce((most, cells) => (cells.length > most.length ? cells : most));
}

// The separator by which a header has a column. Of a header without any separator it is a comma.
function separatorOf(header, ref) {
  const found = new Map();
  for (const one of Object.keys(SEPARATORS).reverse()) {
    const cells = headerCells(header, one);
    found.set(JSON.stringify(cells), { cells, one });
  }
  const fit = [...found.values()].filter(({ cells }) => cells.includes(ref)).map(({ one }) => one);
  if (!fit.length) throw new ToolError(`${LIST_NAME} has no column ${ref}: name it by --ref: ${shownTexts(columnsOfHeader(header))}`);
  if (fit.length > 1) {
    const ways = fit.reverse().map((separator) => SEPARATORS[separator]);
    throw new ToolError(`${LIST_NAME} has a column ${ref} by ${ways.join(" and by ")}: name it otherwise, and by --ref`);
  }
  return fit[0];
}

// Where a column is. Throws `ToolError` if there is none, or several.
function placeOf(columns, column, option) {
  const count = columns.filter((one) => one === column).length;
  if (count === 1) return columns.indexOf(column);
  const how = count === 0 ? "no column" : `${count} columns`;
  throw new ToolError(`${LIST_NAME} has ${how} ${column}: name one by --${option}: ${shownTexts(columns)}`);
}

// The messages of a table, rows without any cell left out. Throws `ToolError` if the columns aren't there or a row isn't one of the table.
function* messagesOfTable(lines, { ref, key }) {
  let blank = 0;
  let header = "";
  for (;;) {
    const { value, done } = lines.next();
    if (done) return;
    header = value;
    if (strip(value)) break;
    blank += 1;
  }
  const named = ref || "ref";
  const separator = separatorOf(header, named);
  const columns = headerCells(header, separator);
  const reference = placeOf(columns, named, "ref");
  const isKeyThere = key !== null || columns.includes("key");
  const keyAt = isKeyThere ? placeOf(columns, key || "key", "key") : null;
  const all = (function* () {
    yield header;
    yield* lines;
  })();
  const rows = new CsvReader(all, separator, true);
  let number = 0;
  try {
    rows.next();
    for (let row = rows.next(); row !== null; row = rows.next()) {
      if (!row.length) continue;
      number += 1;
      if (row.slice(columns.length).some((cell) => cell)) {
        const place = `${LIST_NAME}: line ${blank + rows.line}`;
        throw new ToolError(`${place} has ${row.length} cells, and the header ${columns.length}: quote a cell that has the separator in it`);
      }
      const cell = (at) => row[at] ?? "";
      yield { record: number, key: keyAt === null ? null : cell(keyAt), reference: oneLine(cell(reference)), fault: null };
    }
  } catch (error) {
    if (!(error instanceof CsvError)) throw error;
    throw new ToolError(`${LIST_NAME}: line ${blank + rows.line} isn't understood: ${error.message}: look at the quotes up to there`);
  }
}
