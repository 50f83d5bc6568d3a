"use strict";
// JSON documents as a stream of events, as `ijson` gives them, with the place of each, and the values at one place.
//
//   new Documents(pieces).events()          [event, value], one after the other
//   new Documents(pieces).valuesAt("a[]")   the values there, each whole: without a place the documents, and the elements of arrays
//
// `pieces` are bytes as they are read, of 64 KiB at most: an error names the lines of the piece in which it is.

const MOST_DEPTH = 200;
const MOST_ELEMENT = 16 << 20;

class Documents {
  constructor(pieces) {
    this.pieces = pieces;
    this.bytes = joined(pieces);
    this.broken = firstNotUtf8(this.bytes);
    this.tokens = new Tokens(this.bytes);
    this.tokens.isCut = this.broken?.isCut ?? false;
    this.lines = 1;
    this.endsOfPiece = this.digits = 0;
    this.held = null;
    this.states = ["start"];
  }

  // Notes the next piece. Throws `ToolError` for what isn't UTF-8 and for an element that is too large.
  read(piece) {
    this.lines += this.endsOfPiece;
    this.endsOfPiece = 0;
    const { tokens, broken } = this;
    const before = tokens.end;
    tokens.end += piece.length;
    tokens.isLast = !piece.length;
    let toBroken = 0;
    for (let at = 0; at < piece.length; at += 1) {
      this.digits = isDigit(piece[at]) ? this.digits + 1 : 0;
      if (this.digits > MOST_DIGITS) throw new ToolError(`${LIST_NAME} has a number of more than 4,300 digits`);
      if (piece[at] !== 10) continue;
      this.endsOfPiece += 1;
      if (broken && before + at < broken.at) toBroken += 1;
    }
    if (broken && !broken.isCut && broken.at < tokens.end && piece.length) throw notUtf8(`${LIST_NAME}: line ${this.lines + toBroken}`);
    if (this.held === null) return;
    this.held += piece.length;
    if (this.held > MOST_ELEMENT) {
      throw new ToolError(`${LIST_NAME} has an element of more than 16 MiB: say by --ref where its records are, such as records[].ref`);
    }
  }

  *events() {
    for (const piece of [...this.pieces, new Uint8Array(0)]) {
      this.read(piece);
      const found = [];
      try {
        for (let token = this.tokens.next(); token !== null; token = this.tokens.next()) found.push(this.event(...token));
        if (this.tokens.isLast && (this.states.length > 1 || this.states[0] === "start")) throw new WalkError("parse error: premature EOF");
      } catch (error) {
        if (!(error instanceof WalkError)) throw error;
        const last = this.lines + this.endsOfPiece;
        const lines = this.lines === last ? `line ${last}` : `lines ${this.lines} to ${last}`;
        throw new ToolError(`${LIST_NAME} isn't JSON: ${error.message} in ${lines}`);
      }
      for (const one of found) if (one !== null) yield one;
    }
  }

  // The event of a token, or null for one that only parts others.
  event(kind, value) {
    const { states } = this;
    const state = states[states.length - 1];
    const set = (next) => (states[states.length - 1] = next);
    const refuse = (why) => {
      throw new WalkError(`parse error: ${why}`);
    };
    const ended = (event) => {
      states.pop();
      return [event, null];
    };
    if (state === "first name" || state === "name") {
      if (kind === "}" && state === "first name") return ended("end_map");
      if (kind !== "string") refuse("invalid object key (must be a string)");
      set("colon");
      return ["map_key", value];
    }
    if (state === "colon") {
      if (kind !== ":") refuse("object key and value must be separated by a colon (':')");
      set("member");
      return null;
    }
    if (state === "behind member") {
      if (kind === "}") return ended("end_map");
      if (kind !== ",") refuse("after key and value, inside map, I expect ',' or '}'");
      set("name");
      return null;
    }
    if (state === "behind element") {
      if (kind === "]") return ended("end_array");
      if (kind !== ",") refuse("after array element, I expect ',' or ']'");
      set("element");
      return null;
    }
    if (kind === "]" && state === "first element") return ended("end_array");
    if ("}],:".includes(kind)) refuse("unallowed token at this point in JSON text");
    set(state === "member" ? "behind member" : state === "start" || state === "done" ? "done" : "behind element");
    if (kind === "{") states.push("first name");
    if (kind === "[") states.push("first element");
    return kind === "{" ? ["start_map", null] : kind === "[" ? ["start_array", null] : [kind, value];
  }

  *valuesAt(elements) {
    const places = new Places();
    const events = this.events();
    let isThere = !elements;
    for (let next = events.next(); !next.done; next = events.next()) {
      const [event, value] = next.value;
      const place = places.of(event, value);
      isThere ||= event === "start_array" && `${place}[]` === elements;
      if (place !== elements && (elements || place !== "[]")) continue;
      if (event === "map_key" || event === "end_map" || event === "end_array") continue;
      if (event === "start_array" && !elements && place === "") continue;
      this.held = 0;
      const found = wholeValue(event, value, events, 0);
      this.held = null;
      if (event === "start_map" || event === "start_array") places.of("end_map", null);
      yield found;
    }
    if (!isThere) throw new ToolError(`${LIST_NAME} has no ${elements}: say by --ref where references are`);
  }
}

const tooDeep = () => new ToolError(`${LIST_NAME} has more than ${MOST_DEPTH} arrays and objects within each other`);

// The value that begins with an event, with what follows of it.
function wholeValue(event, value, events, depth) {
  if (depth > MOST_DEPTH) throw tooDeep();
  if (event === "start_array") {
    const found = [];
    for (let next = events.next(); next.value[0] !== "end_array"; next = events.next()) found.push(wholeValue(...next.value, events, depth + 1));
    return found;
  }
  if (event !== "start_map") return value;
  const found = new Map();
  for (let next = events.next(); next.value[0] !== "end_map"; next = events.next()) {
    const name = next.value[1];
    found.set(name, wholeValue(...events.next().value, events, depth + 1));
  }
  return found;
}

// Where the events of documents are, as paths have it.
class Places {
  constructor() {
    this.outer = [];
    this.place = "";
  }

  // The place of the next event: of a name that of its member.
  of(event, value) {
    if (event === "map_key") {
      const outer = this.outer[this.outer.length - 1];
      this.place = outer ? `${outer}.${value}` : value;
    } else if (event === "end_map" || event === "end_array") {
      this.place = this.outer.pop();
    } else if (event === "start_map" || event === "start_array") {
      const { place } = this;
      this.outer.push(place);
      if (this.outer.length > MOST_DEPTH) throw tooDeep();
      if (event === "start_array") this.place += "[]";
      return place;
    }
    return this.place;
  }
}
