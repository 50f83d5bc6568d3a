// The page of a comparison: counts, the table of the references that change, and a map of both places of each.
(() => {
  const find = (id) => document.getElementById(id);
  const data = JSON.parse(find("data").textContent);
  const add = (place, tag, text = "") => {
    const made = document.createElement(tag);
    made.textContent = text;
    place.append(made);
    return made;
  };

  // ---- counts
  for (const [name, text] of Object.entries(data.facts)) {
    add(find("facts"), "dt", name);
    add(find("facts"), "dd", text);
  }
  const counts = (caption, heading, rows) => {
    const whole = rows.reduce((sum, row) => sum + row[2], 0);
    if (rows.length) tableOfBars({ place: add(find("counts"), "div"), caption, heading, rows, whole });
  };
  counts("Of all references", "change", data.changes);
  counts("Of those with a place on both maps", "certainty", data.certainties);
  find("agreeing").textContent = data.agreeing || "";
  find("moved").textContent = data.moved || "";
  find("left-out").textContent = data.left_out;

  // ---- the map and the table
  const kinds = {
    old: { title: "place on the old map", colour: "#e69f00", weight: 8, mark: "square" },
    new: { title: "place on the new map", colour: "#0072b2", weight: 3, dash: "9 5" },
  };
  const grouped = (value) => value.toLocaleString("en");
  const metres = (value) => value.toLocaleString("en", { minimumFractionDigits: 1, maximumFractionDigits: 1 });
  const share = (value) => value.toFixed(3);
  const named = (row) => `record ${row.record}${row.key === null ? "" : `, ${row.key}`}: ${row.change}`;
  let shown = [];
  let chosen = -1;
  // The chosen one alone, or all that the table shows.
  const draw = () => {
    const isOne = shown.includes(chosen);
    map.show(isOne ? [chosen] : shown);
    map.choose(isOne ? chosen : -1);
    find("all").disabled = !isOne;
    const commands = isOne ? data.rows[chosen].commands : [];
    find("commands").replaceChildren();
    for (const text of commands) add(add(find("commands"), "p"), "code", text).className = "command";
    find("same").hidden = !commands.length;
  };
  const choose = (index) => { chosen = index; draw(); };
  const map = mapOfMany({
    place: find("map"),
    legend: find("legend"),
    kinds,
    shapes: data.shapes,
    roads: data.roads,
    name: (index) => named(data.rows[index]),
    onChoose: (index) => { table.choose(index); choose(index); },
  });
  const table = sortedTable({
    place: find("rows"),
    caption: "Each with both places",
    columns: [
      { title: "record", number: true, value: (row) => row.record, text: grouped },
      { title: "key", value: (row) => row.key, mark: () => "key" },
      { title: "change", value: (row) => row.change },
      { title: "reason", value: (row) => row.reason },
      { title: "certainty", value: (row) => row.certainty },
      { title: "agreement", number: true, value: (row) => row.agreement, text: share },
      { title: "moved by", number: true, value: (row) => row.moved, text: metres },
      { title: "old alone", number: true, value: (row) => row.old_alone, text: metres },
      { title: "new alone", number: true, value: (row) => row.new_alone, text: metres },
      { title: "remedy", value: (row) => row.remedy },
      { title: "old verdict", value: (row) => row.old },
      { title: "old probability", number: true, value: (row) => row.old_probability, text: share },
      { title: "new verdict", value: (row) => row.new },
      { title: "new probability", number: true, value: (row) => row.new_probability, text: share },
      ...data.kept.map((name, at) => ({ title: name, value: (row) => row.kept[at], mark: () => "kept" })),
    ],
    rows: data.rows,
    choices: [
      { title: "Change", value: (row) => row.change },
      { title: "Certainty", value: (row) => row.certainty || "" },
    ],
    onShow: (indices) => { shown = indices; draw(); },
    onChoose: choose,
  });
  find("all").addEventListener("click", () => { table.choose(-1); choose(-1); map.fit(); });
  document.body.dataset.ready = "yes";
})();
