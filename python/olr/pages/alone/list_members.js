"use strict";
// Lists of JSON: lines, sequences and documents, with members by their paths; and where a file has its references, if that wasn't said.
//
//   messagesOfObjects(bytes, reading), messagesOfSequence(bytes, reading), messagesOfDocuments(pieces, reading)
//   placeOfReferences(pieces, base64)   the path of the references, or null. Throws `ToolError` if there are several
//
// A path has names with dots between them, and `[]` behind the name of an array, whose elements are meant.

const USUAL_PLACES = new Set(["ref", "[].ref", "properties.ref", "features[].ref", "features[].properties.ref"]);
const MOST_PATHS = 10;
const MOST_LOOKED = 16 << 20;
// Values within each other of which Python makes a text.
const MOST_PLAIN = 494;
const COLLECTION = /"type"[ \t\n\r\f\v]*:[ \t\n\r\f\v]*"FeatureCollection"/;

const isObject = (value) => value instanceof Map;
const isFeature = (value) => isObject(value) && value.get("type") === "Feature";
const isNothing = (value) => value === null || value === undefined;

// { elements, member }: the records, up to the last `[]`, and the member of a record, which is empty where it is a reference itself.
function memberPathOf(text) {
  const inner = text.slice(0, -2);
  const path = text.endsWith("[]") && inner.includes("[]") ? inner : text;
  const behind = path.lastIndexOf("[]") < 0 ? 0 : path.lastIndexOf("[]") + 2;
  const member = path.slice(behind);
  return { elements: path.slice(0, behind), member: behind && member.startsWith(".") ? member.slice(1) : member };
}

// A path relative to a record, of one that may be relative to the document.
function within({ elements }, path) {
  return elements && path.startsWith(`${elements}.`) ? path.slice(elements.length + 1) : path;
}

function plainMember(value, path) {
  if (isObject(value) && value.has(path)) return value.get(path);
  let found = value;
  for (const name of path.split(".")) found = isObject(found) ? found.get(name) ?? null : null;
  return found;
}

// The member at a path, of a feature of GeoJSON also that of its properties; the value itself without a path; null where there is none.
function memberOf(value, path) {
  if (!path) return value;
  const found = plainMember(value, path);
  return isNothing(found) && isFeature(value) ? plainMember(value.get("properties"), path) : found;
}

// The values of a document at the first part of a path.
function* elementsIn(document, elements) {
  const at = elements.indexOf("[]");
  if (at < 0) {
    yield document;
    return;
  }
  const name = elements.slice(0, at);
  const found = memberOf(document, name.startsWith(".") ? name.slice(1) : name);
  if (!Array.isArray(found)) return;
  for (const one of found) yield* elementsIn(one, elements.slice(at + 2));
}

// How many arrays and objects a value has within each other.
function nested(value) {
  let most = 0;
  for (const waiting = [[value, 1]]; waiting.length; ) {
    const [one, depth] = waiting.pop();
    if (!Array.isArray(one) && !isObject(one)) continue;
    most = Math.max(most, depth);
    for (const it of one.values()) waiting.push([it, depth + 1]);
  }
  return most;
}

// A value as a text: what is none has that of its JSON. Throws `ToolError`, about `what` it is of.
function textOf(value, what) {
  if (isNothing(value)) return null;
  if (typeof value !== "string" && nested(value) > MOST_PLAIN) throw new ToolError(`${what} has too many values within each other`);
  const text = typeof value === "string" ? value : pythonText(value);
  if (HALF_LETTER.test(text)) throw new ToolError(`${what} has half a character: surrogates not allowed`);
  return text;
}

// Messages of elements { number, value }, whose errors begin with `place`.
function* messagesOfElements(elements, path, reading, place) {
  const keyPath = within(path, reading.key || "key");
  const isNamed = reading.key !== null;
  let checked = elements;
  if (path.member) checked = objects(checked, place);
  if (path.member) checked = withMember(checked, path.member, "ref", place);
  if (isNamed) checked = withMember(checked, keyPath, "key", place);
  let more = 0;
  for (const { number, value } of checked) {
    const what = `${place} ${number}`;
    const found = memberOf(value, path.member);
    const isList = Array.isArray(found) && found.every((one) => typeof one === "string");
    const references = (isList ? found : [found]).map((one) => oneLine(textOf(one, what) ?? ""));
    if (!references.length) references.push("");
    let key = memberOf(value, keyPath);
    if (isNothing(key) && !isNamed && isFeature(value)) key = value.get("id");
    const text = textOf(key, what);
    for (const [index, reference] of references.entries()) yield { record: number + more + index, key: text, reference, fault: null };
    more += references.length - 1;
  }
}

function* objects(elements, place) {
  for (const element of elements) {
    if (!isObject(element.value)) throw new ToolError(`${place} ${element.number} is no object with members, as {"key":..,"ref":..}`);
    yield element;
  }
}

// Elements, if one of the first ones has a member.
function withMember(elements, path, option, place) {
  const refusal = (held) => new ToolError(`${place} ${held[0].number} has no member ${path}: name it by --${option}`);
  return withOne(elements, ({ value }) => !isNothing(memberOf(value, path)), refusal);
}

function* numbered(values) {
  let number = 0;
  for (const value of values) yield { number: (number += 1), value };
}

// The messages of documents that were read whole. Where a path leads to several of one, they are counted over all.
function messagesOfWhole(documents, reading, what) {
  const path = memberPathOf(reading.ref || "ref");
  if (!path.elements) return messagesOfElements(documents, path, reading, `${LIST_NAME}: ${what}`);
  const values = (function* () {
    for (const { value } of documents) yield* elementsIn(value, path.elements);
  })();
  return messagesOfElements(numbered(values), path, reading, `${LIST_NAME}: element`);
}

function readWhole(text, refusal) {
  try {
    return pythonJson(text);
  } catch (error) {
    if (!(error instanceof JsonError)) throw error;
    throw new ToolError(`${refusal}: ${error.reason}: repair it, or give another --format`);
  }
}

function messagesOfObjects(bytes, reading) {
  const onLines = (function* () {
    let number = 0;
    for (const line of textLines(bytes, false)) {
      number += 1;
      if (strip(line)) yield { number, value: readWhole(line, `${LIST_NAME}: line ${number} isn't JSON, of one object on each line`) };
    }
  })();
  return messagesOfWhole(onLines, reading, "line");
}

function messagesOfSequence(bytes, reading) {
  const place = `${LIST_NAME}: record`;
  const inSequence = (function* () {
    let number = 0;
    for (let first = 0; first <= bytes.length; ) {
      const found = bytes.indexOf(0x1e, first);
      const behind = found < 0 ? bytes.length : found;
      const data = bytes.subarray(first, behind);
      first = behind + 1;
      if (data.every((byte) => byte === 0x20 || (byte >= 9 && byte <= 13))) continue;
      number += 1;
      yield { number, value: readWhole(utf8Text(data, `${place} ${number}`), `${place} ${number} isn't JSON`) };
    }
  })();
  return messagesOfWhole(inSequence, reading, "record");
}

function messagesOfDocuments(pieces, reading) {
  let path = memberPathOf(reading.ref || "ref");
  if (!path.elements && pieces.length && isCollection(pieces.peeked)) path = { elements: "features[]", member: path.member };
  const values = numbered(new Documents(pieces).valuesAt(path.elements));
  return messagesOfElements(values, path, reading, `${LIST_NAME}: element`);
}

// Whether bytes begin as a GeoJSON file of features.
function isCollection(bytes) {
  return COLLECTION.test(lenientUtf8.decode(bytes));
}

// Whether a line is an object with a reference where it usually is, or something else in its place.
function hasUsualMember(line) {
  try {
    return !isNothing(memberOf(pythonJson(strictUtf8.decode(line[0] === 0x1e ? line.subarray(1) : line)), "ref"));
  } catch {
    return false;
  }
}

// What doesn't look like JSON ends the search: whoever reads it then says so.
function placeOfReferences(pieces, base64) {
  const counts = new Map();
  try {
    for (const place of placesOfReferences(pieces, base64)) {
      if (USUAL_PLACES.has(place)) return place;
      counts.set(place, (counts.get(place) ?? 0) + 1);
      if (counts.size > MOST_PATHS) break;
    }
  } catch (error) {
    if (!(error instanceof ToolError)) throw error;
  }
  if (counts.size < 2) return [...counts.keys()][0] ?? null;
  const most = [...counts].sort(([, one], [, other]) => other - one);
  const listed = most.map(([path, count]) => `--ref ${quotedPath(path)} (${grouped(count)})`);
  throw new ToolError(`${LIST_NAME} has references in several members: choose one: ${listed.join(", ")}`);
}

// The places of what looks like a reference, and of whatever is where one usually is.
function* placesOfReferences(pieces, base64) {
  const looked = [];
  let size = 0;
  for (const piece of pieces) {
    if (size > MOST_LOOKED) break;
    looked.push(piece.map((byte) => (byte === 0x1e ? 0x20 : byte)));
    size += piece.length;
  }
  const places = new Places();
  for (const [event, value] of new Documents(looked).events()) {
    const place = places.of(event, value);
    if (event === "string") {
      if (USUAL_PLACES.has(place) || looksLikeAReference(value, base64)) yield place;
    } else if (USUAL_PLACES.has(place) && event !== "map_key" && event !== "null") {
      yield place;
    }
  }
}

// A path as a shell has it.
function quotedPath(path) {
  const isPlain = /^[\w@%+=:,./-]+$/.test(path);
  return shownTexts([isPlain ? path : `'${path.replaceAll("'", `'"'"'`)}'`]);
}
