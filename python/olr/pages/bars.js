// A table of counts with bars.
//
//   tableOfBars({ place, caption, heading, rows: [[label, note, count], ..], whole });
//
// `whole` is what the shares are of. Each bar has its number and its share beside it as texts.
function tableOfBars({ place, caption, heading, rows, whole }) {
  const table = document.createElement("table");
  table.className = "bars";
  table.createCaption().textContent = caption;
  const cell = (line, tag, text, kind = "") => {
    const made = document.createElement(tag);
    made.textContent = text;
    if (kind) made.className = kind;
    line.append(made);
    return made;
  };
  const head = table.createTHead().insertRow();
  for (const [text, kind] of [[heading, ""], ["number", "number"], ["share", "number"]]) cell(head, "th", text, kind).scope = "col";
  cell(head, "td", "", "bar");
  const body = table.createTBody();
  for (const [label, note, count] of rows) {
    const line = body.insertRow();
    const name = cell(line, "th", label);
    name.scope = "row";
    if (note) cell(name, "div", note, "small");
    cell(line, "td", count.toLocaleString("en"), "number");
    const share = whole ? (100 * count) / whole : 0;
    cell(line, "td", `${share.toFixed(1)} %`, "number");
    const bar = cell(line, "td", "", "bar");
    bar.setAttribute("aria-hidden", "true");
    cell(bar, "span", "").style.width = `${Math.min(share, 100).toFixed(2)}%`;
    if (!count) bar.firstChild.hidden = true;
  }
  place.append(table);
}
