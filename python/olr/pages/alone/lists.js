"use strict";
// Lists of references, read as `POST /messages` of `olr-tools serve` reads them: the format is known by the first bytes.
//
//   readList(bytes, { format, ref, key, base64 })   an array of { record, key, reference, fault }, one for each reference
//   requireListSize(size)                           throws a `ToolError` for a list of more bytes than a page takes
//
// `bytes` are those of a file, and what isn't said is null. Of a list that is longer than MOST_ROWS one row more is there. It throws a `ToolError`
// for a list that isn't understood: its message is the text of the server.

const MOST_ROWS = 10_000;
const MOST_LIST_BYTES = 16 << 20;
const LIST_FORMATS = ["tab", "csv", "jsonl", "jsonseq", "json", "xml"];
const JSON_FORMATS = ["jsonl", "jsonseq", "json"];
// How the server reads: so much at first, then so much, and a parser so much of that at once.
const FIRST_PIECE = 4096;
const NEXT_PIECE = 1 << 18;
const PARSED_PIECE = 1 << 16;
// What is packed begins with.
const PACKED = {
  gzip: [0x1f, 0x8b],
  bzip2: [0x42, 0x5a, 0x68],
  zip: [0x50, 0x4b, 3, 4],
  xz: [0xfd, 0x37, 0x7a, 0x58, 0x5a, 0],
  zstd: [0x28, 0xb5, 0x2f, 0xfd],
};

function readList(bytes, { format = null, ref = null, key = null, base64 = "plain" } = {}) {
  const reading = { format: format || null, ref, key, base64: base64 || "plain" };
  if (reading.format !== null && !LIST_FORMATS.includes(format)) throw new ToolError(`format is one of ${LIST_FORMATS.join(", ")}`);
  if (!["plain", "url"].includes(reading.base64)) throw new ToolError("base64 is one of plain, url");
  const said = [];
  const rows = [];
  try {
    for (const message of messagesIn(bytes, reading, said)) {
      rows.push({ ...message, reference: referenceText(message.reference) });
      if (rows.length > MOST_ROWS) break;
    }
  } catch (error) {
    if (!(error instanceof ToolError)) throw error;
    // What the server's reader had said before stands in front.
    throw new ToolError([...new Set(said), error.message].join("\n"));
  }
  return rows;
}

function requireListSize(size) {
  if (size > MOST_LIST_BYTES) throw new ToolError(`a list has ${grouped(MOST_LIST_BYTES)} bytes at most here: olr-tools match reads any file`);
}

const startsWith = (bytes, first) => first.every((byte, at) => bytes[at] === byte);
const startsWithText = (bytes, text) => startsWith(bytes, [...text].map((letter) => letter.charCodeAt(0)));

function joined(pieces) {
  const whole = new Uint8Array(pieces.reduce((size, piece) => size + piece.length, 0));
  let at = 0;
  for (const piece of pieces) {
    whole.set(piece, at);
    at += piece.length;
  }
  return whole;
}

// The pieces in which the server reads a list, in UTF-8 and without the mark of it.
function piecesOf(bytes) {
  for (const [name, first] of Object.entries(PACKED)) {
    if (startsWith(bytes, first)) throw new ToolError(`${LIST_NAME} is packed by ${name}: unpack it first`);
  }
  const pieces = [];
  for (let at = 0; at < bytes.length; at += pieces[pieces.length - 1].length) pieces.push(bytes.subarray(at, at + (at ? NEXT_PIECE : FIRST_PIECE)));
  const isLittle = startsWith(bytes, [0xff, 0xfe]);
  if (isLittle || startsWith(bytes, [0xfe, 0xff])) return inUtf8(pieces, isLittle ? "utf-16le" : "utf-16be");
  if (startsWith(bytes, [0xef, 0xbb, 0xbf])) pieces[0] = pieces[0].subarray(3);
  return pieces;
}

function inUtf8(pieces, encoding) {
  const decoder = new TextDecoder(encoding, { fatal: true });
  const encoder = new TextEncoder();
  const found = [];
  try {
    for (const piece of pieces) found.push(encoder.encode(decoder.decode(piece, { stream: true })));
    found.push(encoder.encode(decoder.decode()));
  } catch {
    // What came before is read first.
    found.fault = new ToolError(`${LIST_NAME} isn't UTF-16, as its first bytes say: ${UTF_8_HINT}`);
  }
  return found;
}

const isBlankByte = (byte) => byte === 0x20 || byte === 9 || byte === 10 || byte === 13;

// Of pieces all until a line that isn't blank has ended, or is longer than records are; and that line: an empty one if there is none.
function lookAhead(pieces) {
  let count = 0;
  let seen = new Uint8Array(0);
  let first = -1;
  while (count < pieces.length) {
    seen = joined([seen, pieces[count]]);
    count += 1;
    first = seen.findIndex((byte) => !isBlankByte(byte));
    if ((first >= 0 && seen.indexOf(10, first) >= 0) || seen.length > 2 * MOST_RECORD_BYTES) break;
  }
  const isWhole = first >= 0 && seen.indexOf(10, first) >= 0;
  if (pieces.fault && !isWhole && seen.length <= 2 * MOST_RECORD_BYTES) throw pieces.fault;
  const rest = pieces.slice(count);
  if (first < 0) return { seen, rest, line: new Uint8Array(0) };
  const begin = seen.lastIndexOf(10, first) + 1;
  const end = seen.indexOf(10, first);
  return { seen, rest, line: seen.subarray(begin, end < 0 ? seen.length : end) };
}

// The messages of a list. What is said of it beside them goes to `said`.
function messagesIn(bytes, reading, said) {
  const all = piecesOf(bytes);
  const { seen, rest, line } = lookAhead(all);
  if (reading.format === null) refuseBinary(seen);
  const kind = formatOf(line, reading);
  if (kind === "tab" && (reading.ref !== null || reading.key !== null) && line.length) {
    throw new ToolError(`${LIST_NAME} has no names of columns or members: leave out --ref and --key`);
  }
  const pieces = [seen, ...rest].flatMap(parsedPieces);
  pieces.peeked = seen.subarray(0, NEXT_PIECE);
  const isSought = JSON_FORMATS.includes(kind) && reading.ref === null && !hasUsualMember(line);
  const read = isSought ? { ...reading, ref: placeOfReferences(pieces, reading.base64) } : reading;
  let messages = all.fault ? messagesBefore(all.fault, kind, pieces, read) : messagesOfFormat(kind, pieces, read, said);
  if (reading.base64 !== "plain") messages = withPlain(messages, reading.base64);
  return reading.format === null ? withReferences(messages, kind) : messages;
}

function parsedPieces(piece) {
  const parts = [];
  for (let at = 0; at < piece.length; at += PARSED_PIECE) parts.push(piece.subarray(at, at + PARSED_PIECE));
  return parts;
}

function messagesOfFormat(kind, pieces, reading, said) {
  if (kind === "xml") return messagesOfXml(pieces, reading, said);
  if (kind === "json") return messagesOfDocuments(pieces, reading);
  const bytes = joined(pieces);
  if (kind === "tab") return messagesOfLines(bytes);
  if (kind === "csv") return messagesOfTable(textLines(bytes, true), reading);
  return kind === "jsonl" ? messagesOfObjects(bytes, reading) : messagesOfSequence(bytes, reading);
}

// The messages in front of what can't be read.
function* messagesBefore(fault, kind, pieces, reading) {
  if (kind === "jsonseq") throw fault;
  const whole = joined(pieces);
  if (kind === "xml" && whole.length < 1000 && !whole.includes(0x3e)) throw fault;
  const isOfLines = kind !== "json" && kind !== "xml";
  try {
    yield* messagesOfFormat(kind, isOfLines ? [whole.subarray(0, whole.lastIndexOf(10) + 1)] : pieces, reading, []);
  } catch (error) {
    throw /premature EOF|it was cut short$/.test(error.message) ? fault : error;
  }
  throw fault;
}

function* withPlain(messages, base64) {
  for (const message of messages) yield { ...message, reference: plainBase64(message.reference, base64) };
}

// Lines of a key, a tab and a reference, or of a reference alone, as the program splits them.
function* messagesOfLines(bytes) {
  let number = 0;
  for (const line of byteLines(bytes, false)) {
    number += 1;
    let size = line.length;
    if (line[size - 1] === 10) size -= 1;
    if (line[size - 1] === 13 && size) size -= 1;
    if (!size) continue;
    const text = size > MOST_RECORD_BYTES ? "x".repeat(MOST_RECORD_BYTES + 1) : utf8Text(line.subarray(0, size), `${LIST_NAME}: line ${number}`);
    const tab = text.indexOf("\t");
    yield { record: number, key: tab < 0 ? null : text.slice(0, tab), reference: text.slice(tab + 1), fault: null };
  }
}

// ---- which format it is
function refuseBinary(head) {
  if (startsWithText(head, "PAR1")) {
    throw new ToolError(`${LIST_NAME} is Parquet: convert it, such as by duckdb -c "COPY (FROM '${LIST_NAME}') TO 'messages.csv'"`);
  }
  const isShapefile = startsWith(head, [0, 0, 0x27, 0x0a]);
  if (!isShapefile && !startsWithText(head, "SQLite format 3\0")) return;
  throw new ToolError(`${LIST_NAME} is a ${isShapefile ? "Shapefile" : "GeoPackage"}: name the file itself, unpacked`);
}

// The format of a list whose first line that isn't blank is this one.
function formatOf(line, reading) {
  if (reading.format !== null || !line.length) return reading.format ?? "tab";
  const isNamed = reading.ref !== null || reading.key !== null;
  const whole = lenientUtf8.decode(line);
  const stripped = stripOf(whole, "\r");
  const [header] = stripped.split("\r", 1);
  const isHeader = hasColumn(header, reading.ref || "ref");
  const text = stripBlanks(whole.slice(whole.indexOf("\t") + 1));
  if (beginsLikeAReference(text) && !(isHeader && isNamed)) return "tab";
  if (stripBlanks(whole).startsWith("<")) return "xml";
  const kind = jsonIn(line);
  if (kind !== null && !whole.includes("}\r{")) return kind;
  if (isHeader) return "csv";
  const hasReturns = header !== stripped;
  // A record that will be refused: no column has such a name.
  if (!text || namesNothing(text) || (line.length > MOST_RECORD_BYTES && !hasReturns)) return "tab";
  throw unclear(header, hasReturns, isNamed, reading);
}

// The format of JSON of which this is the first line, or null: an object alone on it is one of many.
function jsonIn(line) {
  const opening = line.find((byte) => !isBlankByte(byte));
  if (opening === 0x1e) return "jsonseq";
  if (opening !== 0x5b && opening !== 0x7b) return null;
  try {
    if (pythonJson(strictUtf8.decode(line)) instanceof Map && !isCollection(line)) return "jsonl";
  } catch {
    // It goes on behind its first line.
  }
  return "json";
}

function unclear(header, hasReturns, isNamed, { ref, base64 }) {
  if (header.includes("\ufffd") || header.includes("\0")) {
    return new ToolError(`${LIST_NAME} isn't UTF-8: convert it, such as by iconv -f ${header.includes("\0") ? "UTF-16LE" : "LATIN1"} -t UTF-8`);
  }
  if (hasReturns) {
    const found = `${LIST_NAME} has carriage returns alone in its first line`;
    return new ToolError(`${found}: if lines end there convert it, such as by tr '\\r' '\\n'`);
  }
  const columns = columnsOfHeader(header);
  if (columns.some((column) => looksLikeAReference(column, base64))) {
    return new ToolError(`${LIST_NAME} has no header: write one above its first line, such as key,ref`);
  }
  const wanted = `${LIST_NAME} has no column ${ref || "ref"}: name it by --ref: ${shownTexts(columns)}`;
  return new ToolError(isNamed ? wanted : `${wanted}; or say --format tab if its first line is a record`);
}

// What to do where there are no references.
const OTHER_PLACES = {
  tab: "if it has columns, name one",
  csv: "name another column",
  jsonl: "name another member",
  jsonseq: "name another member",
  json: "name another member",
  xml: "name another element",
};

// Messages, if one of the first hundred looks as if it had a reference.
function withReferences(messages, kind) {
  const refusal = (held) => {
    const records = held.length === 1 ? "record" : `${held.length} records`;
    const ofUrls = held.map(({ reference }) => reference).filter((reference) => looksLikeAReference(reference, "url"));
    const text = quotedText(shownTexts([ofUrls[0] ?? held[0].reference]));
    if (ofUrls.length) {
      const found = `${LIST_NAME} has base64 for URLs in its first ${records}, as ${text}`;
      return new ToolError(`${found}: say --base64 url, or --format ${kind} if this is meant`);
    }
    const found = `${LIST_NAME} has no reference in its first ${records}, but ${text}`;
    return new ToolError(`${found}: ${OTHER_PLACES[kind]} by --ref, or say --format ${kind} if this is meant`);
  };
  return withOne(messages, ({ reference, fault }) => fault !== null || looksLikeAReference(reference), refusal);
}
