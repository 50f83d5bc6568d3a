"use strict";
// A list of references: it is read by the server, asked as a stream, and shown as a table.
//
//   const list = listOf({ place, data, fields, onChoose: (row, event) => ... });
//
// `place` is its section, and `fields` are those of options.js. `list.read(body, reading, isWanted)` reads a text or file, of which `reading`
// says { format, ref, key, base64 }, and throws a Trouble if it isn't understood; if it isn't wanted any more then, all stays as it is.
// `list.ask(options)` asks for the likeliest places of all rows, some at a time, `list.rowOf(state)` finds the row of a state, and
// `list.choose(row)` marks one. `list.restore(options, first)` shows what the tab has kept, or `first` if that is a list as it is kept, and
// asks for what isn't answered, or was with other options; `list.isOf(map)` says which map is served, so that answers of another one are
// asked for anew. `say(text)` is told what has begun and ended.
// References that are asked at once. The server gives others a turn between two lots.
const AT_ONCE = 500;

function listOf({ place, data, fields, say, onChoose }) {
  const find = (selector) => place.querySelector(selector);
  const [bar, words, stop, goOn] = ["progress", "#answered", "#stop", "#go-on"].map(find);
  const numbers = new Intl.NumberFormat("en");
  const grouped = (value) => numbers.format(value);
  let rows = [];
  let table = null;
  let note = "";
  let options = {};
  let running = null;
  let map = null;

  // ---- reading
  const read = async (body, reading, isWanted) => {
    if (body.size > data.body) throw new Trouble(`The list has ${grouped(body.size)} bytes. Here it may have ${grouped(data.body)} at most: olr-tools match reads any file.`, false);
    const query = queryOf(Object.entries(reading).filter(([, value]) => value));
    const response = await asked(`messages?${query}`, { method: "POST", body, headers: { "Content-Type": "application/octet-stream" } });
    const found = [];
    for await (const lines of linesOf(response)) found.push(...lines.map((line) => JSON.parse(line)));
    if (!isWanted()) return false;
    if (!found.length) throw new Trouble("The list has no reference in it.", false);
    halt();
    const isCut = found.length > data.rows;
    note = isCut ? `The list is longer: its first ${grouped(data.rows)} references are here. olr-tools match takes any number.` : "";
    rows = found.slice(0, data.rows).map((row, index) => ({ ...row, own: row.fault, index, ...UNASKED }));
    show();
    return true;
  };
  // What an answer says of a row, and docs/SERVE.md of each.
  const UNASKED = {
    verdict: "waiting",
    probability: null,
    none_of_these: null,
    reasons: null,
    total: null,
    margin: null,
    turns_back: null,
    cut_off: false,
    fault: null,
    no_probabilities: null,
  };

  // ---- the table
  const show = () => {
    find("#rows").replaceChildren();
    place.hidden = false;
    delete place.dataset.state;
    const probability = { number: true, text: (value) => value.toFixed(3) };
    table = sortedTable({
      place: find("#rows"),
      caption: "References",
      columns: [
        { title: "record", number: true, value: (row) => row.record, text: grouped },
        { title: "key", value: (row) => row.key, mark: () => "key" },
        { title: "verdict", value: (row) => row.verdict, mark: (row) => `is-${row.verdict}` },
        { title: "probability", ...probability, value: (row) => row.probability },
        { title: "none of these", ...probability, value: (row) => row.none_of_these },
        { title: "turns back", value: (row) => (row.turns_back ? "turns back" : "") },
        { title: "total", number: true, value: (row) => row.total, text: grouped },
        { title: "margin", number: true, value: (row) => row.margin, text: grouped },
        { title: "fault or reasons", value: (row) => row.fault || row.reasons, mark: () => "reasons" },
        { title: "reference", value: (row) => row.reference, mark: () => "reference" },
      ],
      rows,
      choices: [
        { title: "Verdict", value: (row) => row.verdict },
        { title: "Probability", value: (row) => shareOf(row.probability) },
      ],
      isLong: true,
      say,
      onChoose: (index, event) => onChoose(rows[index], event),
    });
  };

  const shareOf = (value) => (value === null ? "" : value >= 0.9 ? "0.9 and above" : value >= 0.5 ? "0.5 to 0.9" : "below 0.5");

  // ---- asking
  const left = () => rows.filter((row) => row.verdict === "waiting");
  const tell = (state, text = "") => {
    const waiting = left().length;
    const isNew = place.dataset.state !== state;
    place.dataset.state = state;
    Object.assign(bar, { max: rows.length, value: rows.length - waiting });
    const done = `${grouped(rows.length - waiting)} of ${grouped(rows.length)} answered`;
    words.textContent = [`${done}.`, text, ofAnswers(), note].filter(Boolean).join(" ");
    if (isNew) say(words.textContent);
    bar.hidden = state === "done";
    stop.hidden = state !== "asking";
    goOn.hidden = state === "asking" || !waiting;
  };
  const ofAnswers = () => {
    const cut = rows.filter((row) => row.cut_off).length;
    const lacking = rows.find((row) => row.no_probabilities);
    return [cut && `${grouped(cut)} may have more places: give a greater look.`, lacking && sentence(lacking.no_probabilities)].filter(Boolean).join(" ");
  };
  const fill = (answer) => {
    const row = rows[Number(answer.key)];
    for (const name of Object.keys(UNASKED)) row[name] = answer[name];
    if (row.verdict === "fault") row.verdict = "refused";
    // Of a message with a fault of its own an empty reference is asked.
    if (row.own) row.fault = row.own;
    return row;
  };
  // Rows that have changed are shown together, some times a second.
  const changed = new Set();
  let timer = null;
  const flush = () => {
    clearTimeout(timer);
    timer = null;
    table.update(changed);
    changed.clear();
  };
  const take = (line) => {
    changed.add(fill(JSON.parse(line)).index);
    timer = timer || setTimeout(() => { flush(); tell("asking"); }, 250);
  };
  const askSome = async (some, signal) => {
    const body = some.map((row) => `${row.index}\t${row.reference}\n`).join("");
    const more = { method: "POST", body, headers: { "Content-Type": "text/plain" }, signal };
    const response = await asked(`rows?${queryOf(Object.entries(options))}`, more);
    for await (const lines of linesOf(response)) {
      if (signal.aborted) return;
      lines.forEach(take);
    }
    if (some.some((row) => row.verdict === UNASKED.verdict)) throw new Trouble(BROKEN_OFF, true);
  };
  const goOnAsking = async () => {
    halt();
    const mine = new AbortController();
    running = mine;
    tell("asking");
    let trouble = "";
    try {
      for (let rest = left(); rest.length && !mine.signal.aborted; rest = left()) await askSome(rest.slice(0, AT_ONCE), mine.signal);
    } catch (error) {
      if (mine.signal.aborted) return;
      if (!(error instanceof Trouble)) throw error;
      trouble = error.message;
    }
    if (mine.signal.aborted) return;
    running = null;
    flush();
    tell(trouble ? "failed" : "done", trouble);
  };
  const halt = () => {
    if (running) running.abort();
    running = null;
    if (table) flush();
  };
  const ask = (given) => {
    halt();
    options = given;
    const others = rows.filter((row) => row.verdict !== UNASKED.verdict);
    others.forEach((row) => Object.assign(row, UNASKED));
    table.update(others.map((row) => row.index));
    return goOnAsking();
  };
  stop.addEventListener("click", () => {
    halt();
    tell("stopped", "Stopped.");
  });
  goOn.addEventListener("click", goOnAsking);
  for (const change of ["beforeprint", "afterprint"]) addEventListener(change, () => table && table.print(change === "beforeprint"));

  // ---- what goes out
  const saveButton = find("#save-geojson");
  let saving = null;
  const shownRows = () => table.shown().map((index) => rows[index]);
  find("#save-csv").addEventListener("click", () => save("references.csv", "text/csv;charset=utf-8", csvOf(shownRows())));
  const saveGeojson = async () => {
    const some = shownRows();
    const mine = new AbortController();
    saving = mine;
    const step = (count) => { saveButton.textContent = `Stop saving: ${grouped(count)} of ${grouped(some.length)}`; };
    step(0);
    try {
      const text = await geojsonOf(some, options, mine.signal, step);
      save("places.geojson", "application/geo+json", text);
    } catch (error) {
      if (!(error instanceof Trouble) && !mine.signal.aborted) throw error;
      if (!mine.signal.aborted) say(words.textContent = error.message);
    } finally {
      endSaving(mine);
    }
  };
  const endSaving = (mine) => {
    mine.abort();
    if (saving !== mine) return;
    saving = null;
    saveButton.textContent = "Save GeoJSON";
  };
  saveButton.addEventListener("click", () => (saving ? endSaving(saving) : saveGeojson()));

  // ---- through a reload
  const GIVEN = ["record", "key", "reference", "own"];
  const textWith = (names) => () => {
    if (!table) return null;
    const { state } = place.dataset;
    return JSON.stringify({ map, options, state, note, names, rows: rows.map((row) => names.map((name) => row[name])) });
  };
  addEventListener("pagehide", () => keep(textWith([...GIVEN, ...Object.keys(UNASKED)]), textWith(GIVEN)));
  const restore = (given, first) => {
    const found = kept() || first;
    if (!found) return;
    ({ map, options, note } = found);
    const named = (values) => Object.fromEntries(values.map((value, at) => [found.names[at], value]));
    rows = found.rows.map((values, index) => ({ ...UNASKED, ...named(values), index }));
    show();
    if (JSON.stringify(options) !== JSON.stringify(given)) ask(given);
    else if (left().length && !["stopped", "failed"].includes(found.state)) goOnAsking();
    else tell(left().length ? "stopped" : "done");
  };
  const isOf = (name) => {
    if (table && map !== null && map !== name) ask(options);
    map = name;
  };

  const rowOf = ({ ref, key, record }) => rows.find((row) => row.reference === ref && String(row.record) === String(record) && row.key === key);
  const choose = (row) => table && table.choose(row ? row.index : -1);
  const close = () => {
    halt();
    if (saving) endSaving(saving);
    [rows, table] = [[], null];
    find("#rows").replaceChildren();
    place.hidden = true;
    delete place.dataset.state;
  };
  return { read, ask, restore, isOf, rowOf, choose, close, first: () => rows[0], focus: () => table.focus(), isThere: () => table !== null };
}
