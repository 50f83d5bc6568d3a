"use strict";
// The page: a reference or a list of them, options, and the picture of what was chosen. Its state is its address.
(() => {
  const find = (id) => document.getElementById(id);
  const data = JSON.parse(find("data").textContent);
  const COALESCED = 70;
  let state = null;
  let running = null;

  // What changes is told to those who don't see it, one after the other.
  const say = (text) => {
    const line = document.createElement("p");
    line.textContent = text;
    find("status").append(line);
    while (find("status").children.length > 3) find("status").firstChild.remove();
  };

  const picture = pictureOf({
    map: find("map"),
    panel: find("panel"),
    tiles: data.tiles,
    onChoose: (index) => {
      state = { ...state, place: index === 0 ? null : String(index + 1) };
      write("replace");
    },
  });
  const fields = fieldsOf({
    place: find("options"),
    profiles: data.profiles,
    profile: data.profile,
    groups: [{ title: "Tolerances", numbers: data.tolerances }, { title: "Places", numbers: data.numbers }],
    onChange: () => change(fields.values()),
  });
  const list = listOf({
    place: find("list"),
    data,
    fields,
    say,
    onChoose: (row, event) => follow(row, event.type === "click" ? "push" : "replace"),
  });

  // ---- states
  // Browsers refuse to change the address too often, as keys that are held down would do.
  let pending = null;
  let timer = null;
  const settle = () => {
    clearTimeout(timer);
    if (pending !== null) history.replaceState(null, "", pending);
    pending = null;
  };
  const write = (how) => {
    const address = addressOf(state);
    if (how === "push") {
      settle();
      if (address !== location.search) history.pushState(null, "", address);
    } else {
      pending = address;
      clearTimeout(timer);
      timer = setTimeout(settle, COALESCED);
    }
  };
  // Shows a state, as a new step of the browser's history, or in place of the last one; or as a step that is there.
  const go = (next, how = null) => {
    state = next;
    if (how) write(how);
    find("ref").value = state.ref;
    fields.set(state.options);
    const changed = Object.entries(state.options).map(([name, value]) => `${name} ${value}`).join(", ");
    find("options-button").textContent = changed ? `Options: ${changed}` : "Options";
    find("row").textContent = [state.record && `record ${state.record}`, state.key && `key ${state.key}`].filter(Boolean).join(", ");
    draw();
  };
  const follow = (row, how) => go({ ...state, ref: row.reference, key: row.key, record: String(row.record), place: null }, how);
  const change = (options) => {
    go({ ...state, options, place: null }, "push");
    if (list.isThere()) list.ask(options);
  };

  // ---- the picture
  const draw = async () => {
    if (running) running.abort();
    const mine = new AbortController();
    running = mine;
    for (const id of ["hint", "help"]) find(id).hidden = Boolean(state.ref);
    find("about").hidden = !state.ref;
    find("problem").hidden = true;
    if (!state.ref) return nothing();
    document.body.dataset.state = "asking";
    linkAnswers();
    try {
      // Keys that are held down go over many rows.
      await new Promise((done) => { setTimeout(done, COALESCED); });
      if (running !== mine) return undefined;
      const scene = await askedJson(`scene?${queryOf([["ref", state.ref], ...Object.entries(state.options)])}`, { signal: mine.signal });
      if (running !== mine) return undefined;
      find("panel").hidden = false;
      picture.show(scene, state.place === null ? undefined : Number(state.place) - 1);
      told("ready", `${scene.reference}: ${scene.verdict.word}`, scene.verdict.text);
    } catch (error) {
      if (running !== mine) return undefined;
      nothing();
      if (!(error instanceof Trouble)) throw error;
      find("problem").hidden = false;
      find("problem").querySelector("p").textContent = error.message;
      find("problem").querySelector("button").hidden = !error.isPassing;
      told("failed", state.ref, error.message);
    }
    return undefined;
  };
  const nothing = () => {
    picture.clear();
    find("panel").hidden = true;
    told("empty", data.title, "");
  };
  const told = (word, title, text) => {
    document.body.dataset.state = word;
    document.title = title;
    if (text) say(text);
  };
  const links = ["match", "places", "why", "candidates", "show"].map((what) => {
    const link = document.createElement("a");
    Object.assign(link, { target: "_blank", rel: "noopener", textContent: what });
    find("answers").append(link, " ");
    return [what, link];
  });
  const linkAnswers = () => links.forEach(([what, link]) => {
    const names = what === "show" ? [] : ["profile", ...data.tolerances.map((number) => number.name), ...data.names[what]];
    link.href = `${what}?${queryOf([["ref", state.ref], ...Object.entries(state.options).filter(([name]) => names.includes(name))])}`;
  });

  // ---- the reference
  find("ask").addEventListener("submit", (event) => {
    event.preventDefault();
    // A field that isn't seen can't say what is wrong.
    if (!find("options").checkValidity()) unfold("options-button", "options", true);
    if (!fields.isRight()) return;
    list.choose(null);
    go({ ...state, ref: referenceOf(find("ref").value), key: null, record: null, place: null }, "push");
  });
  find("ref").addEventListener("paste", (event) => {
    const text = event.clipboardData.getData("text").trim();
    if (!/[\n\t]/.test(text)) return;
    event.preventDefault();
    find("list-text").value = text;
    readList(new Blob([text]));
  });
  find("problem").querySelector("button").addEventListener("click", () => draw());
  addEventListener("popstate", () => {
    const before = state;
    pending = null;
    go(stateOf(location.search, fields.names));
    const row = list.rowOf(state);
    list.choose(row);
    if (list.isThere() && JSON.stringify(before.options) !== JSON.stringify(state.options)) list.ask(state.options);
  });

  // ---- what is unfolded
  const unfold = (button, form, isOpen) => {
    find(form).hidden = !isOpen;
    find(button).setAttribute("aria-expanded", String(isOpen));
  };
  for (const [button, form] of [["options-button", "options"], ["list-button", "list-form"]]) {
    find(button).addEventListener("click", () => {
      unfold(button, form, find(form).hidden);
      if (!find(form).hidden) find(form).querySelector("input, select, textarea").focus();
    });
  }

  // ---- the list
  let source = null;
  const readList = async (body) => {
    source = body;
    const problem = find("list-problem");
    problem.hidden = true;
    document.body.dataset.list = "reading";
    try {
      const valueIn = (name) => find(`list-${name}`).value.trim();
      const reading = { format: valueIn("format"), ref: valueIn("ref"), key: valueIn("key"), base64: valueIn("base64") };
      if (!await list.read(body, reading, () => source === body)) return;
    } catch (error) {
      if (source !== body) return;
      document.body.dataset.list = "failed";
      problem.textContent = error.message;
      say(error.message);
      problem.hidden = false;
      unfold("list-button", "list-form", true);
      if (!(error instanceof Trouble)) throw error;
      return;
    }
    document.body.dataset.list = "read";
    unfold("list-button", "list-form", false);
    const row = list.rowOf(state) || list.first();
    list.choose(row);
    list.focus();
    if (!list.rowOf(state)) follow(row, "push");
    list.ask(state.options);
  };
  find("list-form").addEventListener("submit", (event) => {
    event.preventDefault();
    const text = find("list-text").value;
    if (text.trim()) readList(new Blob([text]));
    else if (source) readList(source);
    else find("list-text").focus();
  });
  const takeFile = (file) => {
    find("list-text").value = "";
    readList(file);
  };
  find("list-file").addEventListener("change", (event) => event.target.files[0] && takeFile(event.target.files[0]));
  find("close").addEventListener("click", () => {
    list.close();
    find("ref").focus();
  });
  let depth = 0;
  const mark = (change) => {
    depth = change ? depth + change : 0;
    document.body.classList.toggle("dropping", depth > 0);
  };
  addEventListener("dragenter", () => mark(1));
  addEventListener("dragleave", () => mark(-1));
  addEventListener("dragover", (event) => event.preventDefault());
  addEventListener("drop", (event) => {
    mark(0);
    const { files } = event.dataTransfer;
    const text = event.dataTransfer.getData("text");
    if (!files.length && (!text || event.target.closest("input, textarea"))) return;
    event.preventDefault();
    takeFile(files[0] || new Blob([text]));
  });

  // ---- the start
  askedJson("health").then(({ map, digest }) => {
    find("served").textContent = `map ${map}`;
    list.isOf(JSON.stringify(digest));
  }).catch(() => {});
  go(stateOf(location.search, fields.names), "replace");
  list.restore(state.options, state.ref ? null : data.list);
  if (data.list && list.isThere() && !state.ref) follow(list.first(), "replace");
  list.choose(list.rowOf(state));
  find("ref").focus();
  document.body.dataset.ready = "yes";
})();
