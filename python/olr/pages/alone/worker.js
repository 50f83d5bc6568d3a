"use strict";
// The worker of the page that answers by itself: it unpacks the program and the map, and answers addresses as the server does.
//
// It is told { kind: "start", packed, data } first, then { kind: "ask", id, address, body, accept, from } and { kind: "drop", id }, where
// `from` counts the pieces that are there already. It tells { kind: "at", id } when it begins with a piece, { kind: "head", id, status, type },
// { kind: "piece", id, piece }, and { kind: "end", id }, { kind: "dropped", id } or { kind: "broken", id, text }; and { kind: "state", status }
// once it is ready, or can't be.

const JSON_TYPE = "application/json";
const LINES_TYPE = "application/x-ndjson";
const FEATURES_TYPE = "application/geo+json-seq";
// Records of a piece: they are answered before others get a turn.
const RECORDS_OF_PIECE = 100;
const QUESTIONS_OF_PROGRAM = ["candidates", "match", "places", "why"];
// Addresses whose answers may have more than one piece.
const LISTS = ["rows", "batch/places"];

// What questions are answered by: { program, sources, questions, tables, confidence, map, tiles }. The program has the bytes of the confidence.
let known = null;
// Why there are none, if the start failed.
let broken = null;
const dropped = new Set();

// ---- the start
async function begun({ packed, data }) {
  const files = await unpacked(packed);
  const { "olr.wasm": module, "sources.json": roads = null, "confidence.json": weights, ...ofMap } = files;
  const program = onPart(await Program.of(module, ofMap, weights), data.map.points);
  const { questions, tables, map, tiles } = data;
  const confidence = JSON.parse(new TextDecoder().decode(weights));
  return { program, sources: sourcesOf(roads), questions, tables, confidence, map, tiles };
}

// ---- addresses
// What an address answers: { status, type, pieces }, whose pieces are texts, and may come one after the other. The first ones are left out.
function answerOf({ address, body, accept, from }) {
  if (broken !== null) throw broken;
  const [path, query = ""] = address.split(/\?(.*)/s);
  if (from > 0 && !LISTS.includes(path)) return texted();
  const options = optionsOf(query);
  if (path === "health") return said({ map: known.map.shown, digest: known.map.digest });
  if (path === "messages") return lined(LINES_TYPE, messagesOf(body, options));
  if (path === "scene") return said(sceneAt(options));
  if (path === "rows") return lined(LINES_TYPE, rowsOf(body, numbersOf("places", options, known.questions, {}), from));
  if (path === "batch/places" && accept.includes(FEATURES_TYPE)) {
    return lined(FEATURES_TYPE, featuresOf(body, numbersOf("places", options, known.questions), from));
  }
  if (path === "show") return texted(shown(options));
  if (QUESTIONS_OF_PROGRAM.includes(path)) return texted(ownAnswer(questionOf(path, options, known.questions)));
  throw new Problem(404, "NotFound", "there is no such address");
}

const said = (value) => texted(JSON.stringify(value));
const texted = (...texts) => lined(JSON_TYPE, texts);
const lined = (type, pieces) => ({ status: 200, type, pieces });

// The program's own answer to a question, as it writes it.
function ownAnswer(question) {
  return throwing(known.program.answer(question.what, question.numbers, recordText(question.ref), question.after));
}

function shown(options) {
  const { ref, ...others } = Object.fromEntries(options);
  if (ref === undefined) throw badRequest("ref is missing: the text of a reference, in base64");
  for (const name of Object.keys(others)) throw badRequest(`${quoted(name)} is no option of this address`);
  return throwing(known.program.show(recordText(ref)));
}

// A text, or a fault as a problem.
function throwing({ text, fault }) {
  if (fault === null) return text;
  const { meaning } = faultOf(fault, known.tables.faults);
  throw new Problem(422, fault.split(" ")[0], meaning ? `${fault}: ${meaning}` : fault);
}

// ---- one reference
function sceneAt(options) {
  const { ref, numbers } = questionOf("places", options, known.questions, {});
  const { program, confidence, questions, tables, map, tiles } = known;
  const tolerances = Object.fromEntries(Object.keys(questions.tolerances).map((name) => [name, numbers[name]]));
  const text = recordText(ref);
  const ask = (what, others) => {
    const { text: answer, fault } = program.answer(what, { ...tolerances, ...others }, text);
    return fault === null ? exactJson(answer) : fault;
  };
  const drawn = (what, others = {}) => ask(what, { ...others, shape: true });
  const show = exactJson(throwing(program.show(text)));
  const ofPlaces = Object.fromEntries(Object.keys(questions.numbers.places).map((name) => [name, numbers[name]]));
  const [candidates, places, page] = [drawn("candidates"), drawn("places", likely(ofPlaces)), drawn("match", defaultsOf("match"))];
  const why = fitsSomewhere(places, page) ? null : drawn("why", defaultsOf("why"));
  const scene = sceneOf({ reference: ref, show, candidates, places, page, why, confidence, numbers, mapName: map.folder, tiles, tables });
  const [first = null] = scene.entries;
  const legs = first && ask("legs", { near: tables.near, at: first.cursor, format: "geojson" });
  const lines = exactJson(throwing(program.around(boxOf(scene))));
  return Object.assign(scene, notesOf(isFault(legs) ? null : legs, numbers.lowest, tables.near), linesDrawn(lines));
}

// As places are asked for that are shown.
const likely = (numbers) => ({ ...numbers, ...known.tables.likely });
const defaultsOf = (what) => Object.fromEntries(Object.entries(known.questions.numbers[what]).map(([name, number]) => [name, number.default]));

// ---- many
// The records of a body: lines of a key, a tab and a reference.
async function recordsOf(body) {
  const lines = (typeof body === "string" ? body : await body.text()).split("\n").filter(Boolean);
  return lines.map((line) => line.split(/\t(.*)/s).slice(0, 2));
}

// The lines of the program about records, a piece at a time.
async function* answered(body, settings, from) {
  const records = await recordsOf(body);
  for (let begin = from * RECORDS_OF_PIECE; begin < records.length; begin += RECORDS_OF_PIECE) {
    yield known.program.lines("places", likely(settings), records.slice(begin, begin + RECORDS_OF_PIECE));
  }
}

async function* rowsOf(body, numbers, from) {
  const asked = { numbers, confidence: known.confidence, tables: known.tables };
  for await (const lines of answered(body, numbers, from)) yield lines.map((line) => `${rowText(rowOf(line, asked))}\n`).join("");
}

async function* featuresOf(body, numbers, from) {
  for await (const lines of answered(body, { ...numbers, shape: true }, from)) {
    yield lines.map((line) => featureLine(line, known.tables, known.sources)).join("");
  }
}

async function* messagesOf(body, options) {
  const known = ["format", "ref", "key", "base64"];
  for (const name of options.keys()) {
    if (!known.includes(name)) throw badRequest(`${quoted(name)} is no option of this address: it has ${known.join(", ")}`);
  }
  let rows;
  try {
    requireListSize(body.size);
    rows = readList(await unpackedList(new Uint8Array(await body.arrayBuffer())), Object.fromEntries(options));
  } catch (error) {
    if (!(error instanceof ToolError)) throw error;
    throw new Problem(422, "UnreadableList", error.message);
  }
  yield rows.map((row) => `${JSON.stringify(row)}\n`).join("");
}

// ---- telling
const turn = () => new Promise((done) => {
  const { port1, port2 } = new MessageChannel();
  port1.onmessage = done;
  port2.postMessage(null);
});

// Why something isn't answered, as a problem.
function problemOf(error) {
  if (error instanceof Problem) return error;
  if (error instanceof ToolError) return new Problem(503, "MapRefused", error.message);
  // What the program says before any record, as that there is no memory for its map.
  const fault = faultOf(error.message.replace(/^olr: /, ""), known === null ? {} : known.tables.faults);
  return new Problem(503, fault.meaning ? fault.text.split(" ")[0] : "ProgramFailed", faultText(fault));
}

async function answer(question) {
  const { id } = question;
  const tell = (kind, more = {}) => postMessage({ kind, id, ...more });
  const encoder = new TextEncoder();
  let isHeaded = false;
  const head = (status, type) => {
    if (!isHeaded) tell("head", { status, type });
    isHeaded = true;
  };
  try {
    if (dropped.delete(id)) return tell("dropped");
    tell("at");
    const { status, type, pieces } = answerOf(question);
    for await (const piece of pieces) {
      head(status, type);
      tell("piece", { piece: encoder.encode(piece) });
      await turn();
      if (dropped.delete(id)) return tell("dropped");
      tell("at");
    }
    head(status, type);
  } catch (error) {
    if (isHeaded) return tell("broken", { text: error.message });
    const problem = problemOf(error);
    head(problem.status, "application/problem+json");
    tell("piece", { piece: encoder.encode(JSON.stringify(problem.document())) });
  }
  return tell("end");
}

// Begins, and tells whether it could.
async function start(told) {
  try {
    known = await begun(told);
    postMessage({ kind: "state", status: "ready" });
  } catch (error) {
    broken = error;
    postMessage({ kind: "state", status: "failed" });
  }
}

// A list is answered piece by piece, and other questions get their turn in between.
let started = null;
addEventListener("message", ({ data: told }) => {
  if (told.kind === "start") started = start(told);
  else if (told.kind === "drop") dropped.add(told.id);
  else started.then(() => answer(told));
});
