// A table that sorts, filters and is walked through by keys.
//
//   const table = sortedTable({ place, caption, columns, rows, choices, isLong, say, onShow, onChoose, onOpen });
//
// `place` is the element that gets it. A column is { title, value: (row) => text, number or null } and may have `text: (value, row) =>
// text`, `number: true` (right-aligned), `mark: (row) => class of the cell`, and `act: (index) => ...`: then its cell is a button, if it
// has a text, and `label: (row) => text` names it. A choice is { title, value: (row) => text }. `onShow(indices)` is told which rows are shown, in their
// order; `onChoose(index)` which one was chosen; `onOpen(index)` is for Enter. Indices are those of `rows`.
// `table.choose(index)` chooses a row from elsewhere, and brings it into sight; -1 chooses none. `table.update(indices)` shows rows anew
// that have changed, `table.focus()` brings the keys to the chosen row, and `table.shown()` has the indices of what is shown. `onChoose` is
// told of the event too. `say(text)` is told how many rows are found, for a live region of the page; else the table has its own one.
// With `isLong` the rows have one height, by the page's styles, and the document has those in sight and some around; `table.print(isNow)`
// puts all of them there, or away again.
function sortedTable({ place, caption, columns, rows, choices = [], isLong = false, say = null, onShow = () => {}, onChoose = () => {}, onOpen = () => {} }) {
  const made = (tag, text = "", kind = "") => {
    const element = document.createElement(tag);
    element.textContent = text;
    if (kind) element.className = kind;
    return element;
  };
  // Texts sort by the numbers in them: a collator that does so itself takes twice as long.
  const order = new Intl.Collator("en");
  const keyOf = (value) => (typeof value === "string" ? value.replace(/[0-9]+/g, (digits) => digits.padStart(20, "0")) : value);
  let arranged = rows.map((_, index) => index);
  let shown = arranged;
  let chosen = -1;
  let sorted = { column: -1, sign: 1 };

  // ---- what is shown: a text and choices
  const tools = made("div", "", "tools");
  const field = (title, input) => {
    const label = made("label", `${title} `);
    label.append(input);
    tools.append(label);
    return input;
  };
  const search = field("Search", made("input"));
  search.type = "search";
  const selects = choices.map((choice) => field(choice.title, made("select")));
  const count = () => selects.forEach((select, number) => {
    const counts = new Map();
    const wanted = select.value;
    if (wanted) counts.set(wanted.slice(1), 0);
    for (const row of rows) {
      const value = choices[number].value(row);
      counts.set(value, (counts.get(value) || 0) + 1);
    }
    const ordered = [...counts].sort((one, other) => order.compare(keyOf(one[0]), keyOf(other[0])));
    const options = ordered.map(([value, times]) => new Option(`${value || "without"} (${times})`, `=${value}`));
    select.replaceChildren(new Option(`all (${rows.length})`, ""), ...options);
    select.value = wanted;
  });
  const status = made("p", "", "status");
  if (!say) status.setAttribute("role", "status");
  tools.append(status);

  // ---- the table
  const table = made("table", "", "sorted");
  // Arrows go from row to row then, and aren't a screen reader's own keys.
  table.setAttribute("role", "grid");
  table.append(made("caption", caption));
  const head = table.createTHead().insertRow();
  head.setAttribute("aria-rowindex", "1");
  const headings = columns.map((column, number) => {
    const heading = made("th");
    heading.scope = "col";
    if (column.number) heading.className = "number";
    if (column.act) {
      heading.className = "act";
      heading.textContent = column.title;
    } else {
      const button = made("button", column.title);
      button.type = "button";
      button.addEventListener("click", () => sort(number));
      heading.append(button);
      heading.setAttribute("aria-sort", "none");
    }
    head.append(heading);
    return heading;
  });
  const body = table.createTBody();
  const textOf = (column, row) => {
    const value = column.value(row);
    return isLacking(value) ? "" : column.text ? column.text(value, row) : String(value);
  };
  const isLacking = (value) => value === null || value === undefined || value === "";
  const cellOf = (column, number, index) => {
    const text = textOf(column, rows[index]);
    const cell = made(number ? "td" : "th", column.act ? "" : text);
    if (!number) cell.scope = "row";
    if (isLong && text.length > 12) cell.title = text;
    if (column.number) cell.classList.add("number");
    if (column.mark) cell.classList.add(column.mark(rows[index]));
    if (column.act) cell.classList.add("act");
    if (column.act && text) {
      const button = made("button", text);
      button.type = "button";
      if (column.label) button.setAttribute("aria-label", column.label(rows[index]));
      button.addEventListener("click", () => column.act(index));
      cell.append(button);
    }
    return cell;
  };
  const frame = made("div", "", "frame");
  frame.append(table);
  place.append(tools, frame);

  // ---- what is in the document: all rows that are shown, or those in sight, some around, and the one that has the keys
  const AROUND = 20;
  const lines = new Map();
  let isPrinted = false;
  const fill = (index) => lines.get(index).replaceChildren(...columns.map((column, number) => cellOf(column, number, index)));
  const lineOf = (index, at) => {
    if (!lines.has(index)) {
      lines.set(index, made("tr"));
      lines.get(index).dataset.index = String(index);
      fill(index);
    }
    const line = lines.get(index);
    line.tabIndex = index === reached ? 0 : -1;
    line.setAttribute("aria-rowindex", String(at + 2));
    line[index === chosen ? "setAttribute" : "removeAttribute"]("aria-current", "true");
    return line;
  };
  const gapOf = (height) => {
    const gap = made("tr", "", "gap");
    gap.setAttribute("aria-hidden", "true");
    gap.style.height = `${height}px`;
    return gap;
  };
  const drawn = () => {
    if (!isLong || isPrinted) return shown.map((index, at) => lineOf(index, at));
    const some = body.querySelector("[data-index]");
    const height = (some && some.getBoundingClientRect().height) || 30;
    const many = Math.min(shown.length, Math.ceil(frame.clientHeight / height) + 2 * AROUND);
    const first = Math.min(Math.max(0, Math.floor(frame.scrollTop / height) - AROUND), shown.length - many);
    const places = new Set(Array.from({ length: many }, (_, at) => first + at));
    const there = shown.indexOf(reached);
    if (there >= 0) places.add(there);
    const found = [];
    let next = 0;
    for (const at of [...places].sort((one, other) => one - other)) {
      if (at > next) found.push(gapOf((at - next) * height));
      found.push(lineOf(shown[at], at));
      next = at + 1;
    }
    if (shown.length > next) found.push(gapOf((shown.length - next) * height));
    return found;
  };
  const paint = () => {
    const focused = document.activeElement;
    const wanted = drawn();
    const kept = new Set(wanted);
    // What is in its place already stays there.
    for (const line of [...body.rows]) {
      if (kept.has(line)) continue;
      line.remove();
      if (isLong) lines.delete(Number(line.dataset.index));
    }
    let next = body.firstChild;
    for (const line of wanted) {
      if (line === next) next = next.nextSibling;
      else body.insertBefore(line, next);
    }
    if (focused !== document.activeElement && body.contains(focused)) focused.focus({ preventScroll: true });
  };

  // ---- order
  const sort = (number) => {
    sorted = { column: number, sign: sorted.column === number ? -sorted.sign : 1 };
    headings.forEach((heading, other) => {
      if (columns[other].act) return;
      heading.setAttribute("aria-sort", other !== number ? "none" : sorted.sign > 0 ? "ascending" : "descending");
    });
    arrange();
    filter();
  };
  const arrange = () => {
    const values = rows.map((row) => keyOf(columns[sorted.column].value(row)));
    const compare = (one, other) => {
      const [left, right] = [values[one], values[other]];
      if (isLacking(left) || isLacking(right)) return isLacking(left) - isLacking(right) || one - other;
      const step = typeof left === "number" && typeof right === "number" ? left - right : order.compare(left, right);
      return sorted.sign * step || one - other;
    };
    arranged = rows.map((_, index) => index).sort(compare);
  };
  // Texts are made when they are searched for.
  const texts = [];
  const has = (index, word) => {
    texts[index] = texts[index] || columns.map((column) => (column.act ? "" : textOf(column, rows[index]))).join("\n").toLowerCase();
    return texts[index].includes(word);
  };
  const update = (indices) => {
    for (const index of indices) {
      if (lines.has(index)) fill(index);
      texts[index] = undefined;
    }
    if (sorted.column >= 0) arrange();
    count();
    filter();
  };
  const filter = () => {
    const words = search.value.toLowerCase().split(/\s+/).filter(Boolean);
    const isShown = (index) =>
      selects.every((select, number) => !select.value || select.value === `=${choices[number].value(rows[index])}`) &&
      words.every((word) => has(index, word));
    shown = arranged.filter(isShown);
    status.textContent = `${shown.length} of ${rows.length} rows`;
    table.setAttribute("aria-rowcount", String(shown.length + 1));
    reach();
    paint();
    onShow(shown);
  };
  const filterAndSay = () => {
    filter();
    if (say) say(status.textContent);
  };
  search.addEventListener("input", filterAndSay);
  selects.forEach((select) => select.addEventListener("change", filterAndSay));

  // ---- the chosen row: one row at a time can be reached by the tabulator
  let reached = -1;
  const reach = () => { reached = shown.includes(chosen) ? chosen : shown.length ? shown[0] : -1; };
  const focus = () => lines.has(reached) && lines.get(reached).focus({ preventScroll: true });
  const mark = (index) => {
    chosen = index;
    reach();
    paint();
  };
  const choose = (index) => {
    mark(index);
    if (index < 0 || index !== reached) return;
    // In the frame alone: the page itself stays where it is.
    const { offsetTop: top, offsetHeight: height } = lines.get(index);
    frame.scrollTop = Math.min(Math.max(frame.scrollTop, top + height - frame.clientHeight), top - head.offsetHeight);
    if (isLong) paint();
  };
  body.addEventListener("click", (event) => {
    const line = event.target.closest("tr");
    if (!line || !line.dataset.index) return;
    mark(Number(line.dataset.index));
    onChoose(chosen, event);
  });
  body.addEventListener("keydown", (event) => {
    const line = event.target.closest("tr");
    if (!line || event.altKey) return;
    // The browser's own search finds only what is in the document: the first Ctrl-F is for the table's.
    if (isLong && (event.ctrlKey || event.metaKey) && event.key === "f") {
      search.select();
      event.preventDefault();
    }
    if (event.ctrlKey || event.metaKey) return;
    const index = Number(line.dataset.index);
    const at = shown.indexOf(index);
    const to = { ArrowDown: at + 1, ArrowUp: at - 1, PageDown: at + 10, PageUp: at - 10, Home: 0, End: shown.length - 1 }[event.key];
    if (event.key === "Enter" && event.target === line) {
      onOpen(index);
    } else if (to !== undefined) {
      const next = shown[Math.min(Math.max(to, 0), shown.length - 1)];
      choose(next);
      lines.get(next).focus({ preventScroll: true });
      onChoose(next, event);
    } else {
      return;
    }
    event.preventDefault();
  });
  if (isLong) {
    frame.addEventListener("scroll", paint, { passive: true });
    new ResizeObserver(paint).observe(frame);
  }
  const print = (isNow) => {
    isPrinted = isNow;
    paint();
  };

  count();
  filter();
  return { choose, update, focus, print, shown: () => shown };
}
