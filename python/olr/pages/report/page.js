// The page of a report: counts as tables, a map, and the table of references.
(() => {
  const find = (id) => document.getElementById(id);
  const data = JSON.parse(find("data").textContent);
  const add = (place, tag, text, kind = "") => {
    const made = document.createElement(tag);
    made.textContent = text;
    if (kind) made.className = kind;
    place.append(made);
    return made;
  };

  const { pathOf, lines, sceneOf } = scenesOf(data);
  const shapes = data.shapes.map((shape) => (typeof shape.path === "number" ? { ...shape, path: pathOf(data.scenes[shape.row].paths[shape.path]) } : shape));

  // ---- counts
  find("title").textContent = data.title;
  data.summary.forEach((text) => add(find("summary"), "p", text));
  for (const [name, text] of Object.entries(data.facts)) {
    add(find("facts"), "dt", name);
    add(find("facts"), "dd", text);
  }
  for (const section of data.sections) {
    const place = add(find("sections"), "section", "");
    add(place, "h2", section.title);
    section.texts.forEach((text) => add(place, "p", text, "small"));
    const tables = add(place, "div", "", "tables");
    section.tables.forEach((table) => tableOfBars({ place: add(tables, "div", ""), ...table }));
  }
  find("left-out").textContent = data.left_out;
  if (data.again) {
    find("again").querySelector("a").href = data.again;
    find("again").hidden = false;
  }
  find("cut").textContent = data.cut
    ? `Behind them are the ${data.lines.length.toLocaleString("en")} most important lines of the map near them; ${data.cut.toLocaleString("en")} others aren't drawn.`
    : "Behind them are the lines of the map near them.";

  // ---- the page of a reference: that of view, with the lines around from those of all
  const escaped = (text) => text.replace(/[&<>"']/g, (sign) => `&#${sign.charCodeAt(0)};`);
  const pageOf = (index) => {
    const scene = sceneOf(index);
    const values = {
      POLICY: escaped(document.querySelector("meta[http-equiv]").content),
      TITLE: escaped(`${scene.reference}: ${scene.verdict.word}`),
      LICENCES: find("licences").textContent,
      LEAFLET_CSS: find("leaflet-css").textContent,
      LEAFLET_JS: find("leaflet-js").textContent,
      DATA: JSON.stringify(scene).replace(/</g, "\\u003c"),
    };
    return data.view.replace(/@(POLICY|TITLE|LICENCES|LEAFLET_CSS|LEAFLET_JS|DATA)@/g, (_, name) => values[name]);
  };
  // A row with an address has a page that answers, in this file.
  const open = (index) => {
    if (data.rows[index].live) {
      window.open(data.rows[index].live, "_blank", "noopener");
      return;
    }
    if (!data.scenes[index]) return;
    const page = new Blob([pageOf(index)], { type: "text/html;charset=utf-8" });
    window.open(URL.createObjectURL(page), "_blank");
  };

  // ---- the command of the program that gives the answer of the chosen row
  const tell = (index) => {
    const scene = data.scenes[index];
    find("command").textContent = scene ? scene.command : "";
    find("same").hidden = !find("command").textContent;
  };

  // ---- the map and the table
  const kinds = {
    unique: { title: "unique", colour: "#0072b2" },
    ambiguous: { title: "ambiguous", colour: "#e69f00", dash: "10 4", mark: "square" },
    open: { title: "open", colour: "#cc79a7", dash: "10 3 2 3", mark: "triangle" },
    none: { title: "none: the straight line through its points", colour: "#d55e00", dash: "3 5", weight: 2 },
    refused: { title: "refused: the straight line through its points", colour: "#1a1a1a", dash: "1 4", weight: 2 },
    lacking: { title: "a point without a candidate", colour: "#d55e00", mark: "cross" },
  };
  const named = (row) => (row.key === null ? `record ${row.record}` : `record ${row.record}, ${row.key}`);
  const map = mapOfMany({
    place: find("map"),
    legend: find("legend"),
    kinds,
    shapes,
    roads: lines,
    tiles: data.tiles,
    name: (index) => `${named(data.rows[index])}: ${data.rows[index].verdict}`,
    onChoose: (index) => { table.choose(index); tell(index); },
  });
  data.rows.forEach((row, index) => { row.scene = data.scenes[index]; });
  const grouped = (value) => value.toLocaleString("en");
  const has = (name) => data.rows.some((row) => row[name] !== undefined);
  const probability = { number: true, text: (value) => value.toFixed(3) };
  const columns = [
    { title: "record", number: true, value: (row) => row.record },
    { title: "key", value: (row) => row.key, mark: () => "key" },
    { title: "verdict", value: (row) => row.verdict },
    { title: "total", number: true, value: (row) => row.total, text: grouped },
    { title: "points", number: true, value: (row) => row.points },
    { title: "margin", number: true, value: (row) => row.margin, text: grouped },
    { title: "probability", name: "probability", ...probability, value: (row) => row.probability },
    { title: "none of these", name: "none_of_these", ...probability, value: (row) => row.none_of_these },
    { title: "turns back", name: "turns_back", value: (row) => row.turns_back },
    { title: "length, m", number: true, value: (row) => row.length, text: (value) => value.toLocaleString("en", { minimumFractionDigits: 1 }) },
    { title: "fault or reason", value: (row) => row.reason, mark: () => "reason" },
    ...data.kept.map((name, at) => ({ title: name, value: (row) => row.kept[at], mark: () => "kept" })),
    { title: "page", value: (row) => (row.scene || row.live ? "open" : null), act: open, label: (row) => `open the page of ${named(row)}` },
  ];
  const table = sortedTable({
    place: find("rows"),
    caption: "References",
    columns: columns.filter((column) => !column.name || has(column.name)),
    rows: data.rows,
    choices: [
      { title: "Verdict", value: (row) => row.verdict },
      { title: "Cause", value: (row) => row.cause || "" },
    ],
    onShow: map.show,
    onChoose: (index) => { map.choose(index); tell(index); },
    onOpen: open,
  });
  find("all").addEventListener("click", map.fit);
  document.body.dataset.ready = "yes";
})();
