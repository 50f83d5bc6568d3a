// The page on which somebody says of messages, one after the other, whether the place that is drawn is right, and saves that as a file.
(() => {
  const find = (id) => document.getElementById(id);
  const data = JSON.parse(find("data").textContent);
  const { rows } = data;
  const { sceneOf } = scenesOf(data);
  const picture = pictureOf({ map: find("map"), panel: find("panel"), tiles: data.tiles });
  const table = sortedTable({
    place: find("rows"),
    caption: "Messages to check",
    rows,
    columns: [
      { title: "record", number: true, value: (row) => row.record },
      { title: "key", value: (row) => row.key, mark: () => "key" },
      ...data.kept.map((name, at) => ({ title: name, value: (row) => row.kept[at], mark: () => "kept" })),
      { title: "checked", value: (row) => row.answer },
    ],
    choices: [{ title: "Checked", value: (row) => row.answer || "" }],
    onChoose: (index) => go(index),
  });

  // ---- what was clicked: the numbers of rows with answers, in the order of the clicks. The last one of a row counts.
  let isKept = true;
  const stored = (act) => {
    try {
      return act(localStorage);
    } catch {
      isKept = false;
      return null;
    }
  };
  const clicks = JSON.parse(stored((store) => store.getItem(data.name)) || "[]");
  const take = () => {
    rows.forEach((row) => { row.answer = ""; });
    clicks.forEach(([index, answer]) => { rows[index].answer = answer; });
    table.update(rows.map((_, index) => index));
    stored((store) => store.setItem(data.name, JSON.stringify(clicks)));
  };

  // ---- the message that is shown
  let at = 0;
  const go = (index) => {
    at = (index + rows.length) % rows.length;
    picture.show(sceneOf(at));
    tell();
  };
  const tell = () => {
    const row = rows[at];
    find("which").textContent = `${at + 1} of ${rows.length}: ${row.key}`;
    find("said").textContent = data.kept.map((name, number) => `${name}: ${row.kept[number] ?? "-"}`).join(", ");
    for (const answer of ["right", "wrong"]) find(answer).setAttribute("aria-pressed", String(row.answer === answer));
    const many = (answer) => rows.filter((one) => one.answer === answer).length;
    const done = many("right") + many("wrong");
    find("undo").disabled = !clicks.length;
    find("save").disabled = !done;
    const parts = [`${done} of ${rows.length} checked: ${many("right")} right, ${many("wrong")} wrong.`];
    if (done < data.least) parts.push(`${data.least} are needed.`);
    if (done === rows.length) parts.push("All are checked: save the file.");
    if (!isKept) parts.push("This browser keeps nothing: save the file before you leave the page.");
    find("count").textContent = parts.join(" ");
    table.choose(at);
    if (find("rows").contains(document.activeElement)) table.focus();
  };
  const check = (answer) => {
    clicks.push([at, answer]);
    take();
    const next = rows.map((_, step) => (at + 1 + step) % rows.length).find((index) => !rows[index].answer);
    go(next === undefined ? at : next);
  };
  const undo = () => {
    if (!clicks.length) return;
    const [index] = clicks.pop();
    take();
    go(index);
  };
  const save = () => {
    const lines = rows.filter((row) => row.answer).map((row) => `${row.start}${row.answer}\n`);
    const link = document.createElement("a");
    link.href = URL.createObjectURL(new Blob(["key,likeliest\n", ...lines], { type: "text/csv" }));
    link.download = data.file;
    link.click();
    setTimeout(() => URL.revokeObjectURL(link.href), 60_000);
  };

  // ---- buttons and keys
  const acts = { right: () => check("right"), wrong: () => check("wrong"), undo, before: () => go(at - 1), after: () => go(at + 1), save };
  for (const [id, act] of Object.entries(acts)) find(id).addEventListener("click", act);
  const keys = { r: acts.right, w: acts.wrong, u: undo, ArrowLeft: acts.before, ArrowRight: acts.after };
  document.addEventListener("keydown", (event) => {
    const act = keys[event.key];
    const focused = document.activeElement;
    if (!act || event.ctrlKey || event.altKey || event.metaKey || focused.matches("[type=search], select")) return;
    // Arrows move the map that has the focus, and letters may be typed by what somebody says.
    if (event.key.length > 1 ? find("map").contains(focused) : !find("toggle-keys").checked) return;
    act();
    event.preventDefault();
  });

  find("title").textContent = data.title;
  find("texts").replaceChildren(...data.texts.map((text) => Object.assign(document.createElement("p"), { textContent: text })));
  find("next").textContent = data.command;
  find("drawn").textContent = data.drawn.join(" ");
  find("save").textContent = `Save ${data.file}`;
  take();
  go(Math.max(rows.findIndex((row) => !row.answer), 0));
  document.body.dataset.ready = "yes";
})();
