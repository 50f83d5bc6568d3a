"use strict";
// The picture of a scene: a map, and a panel that says what is on it. One entry, a place or a matching, is drawn at a time.
//
//   const picture = pictureOf({ map, panel, tiles, onChoose: (index) => ... });
//
// `map` is an element with a size, and `panel` one that gets the sections; `tiles` is a URL or null. `picture.show(scene, index)` draws a
// scene in place of the one before, with the entry of that index, by default the first one; -1 draws none. `view/scene.py` says what a
// scene is. `picture.clear()` draws nothing. `onChoose` is told which entry the user chose.
function pictureOf({ map: place, panel, tiles = null, onChoose = () => {} }) {
  panel.innerHTML = `
    <header>
      <p id="verdict"></p>
      <p id="verdict-text"></p>
      <p id="looking"></p>
      <p id="reference"></p>
      <p id="same" class="small" hidden>The program's own answer: <code id="command" class="command"></code></p>
    </header>
    <section id="fits" hidden>
      <h2>Where it fits</h2>
      <div role="radiogroup" aria-label="Where it fits">
        <div id="entries"></div>
        <ul id="probability"></ul>
        <details id="more"><summary id="more-title"></summary><div id="more-entries"></div></details>
      </div>
    </section>
    <section id="why" hidden>
      <h2>Why nothing fits</h2>
      <ul id="reasons"></ul>
      <h2>What helps</h2>
      <ul id="remedies"></ul>
    </section>
    <section>
      <h2>What the reference says</h2>
      <ol id="points"></ol>
      <p id="offsets" class="small"></p>
    </section>
    <section id="legend" aria-label="Legend">
      <h2>Legend</h2>
      <div id="samples"></div>
      <p id="cut" class="small"></p>
      <label><input type="checkbox" id="toggle-candidates" checked><span>show candidates</span></label>
    </section>
    <section id="keys">
      <h2>Keys</h2>
      <p><kbd>&uarr;</kbd> <kbd>&darr;</kbd> the next one in the list, <kbd>1</kbd> to <kbd>9</kbd> that one,
      <kbd>0</kbd> none, <kbd>c</kbd> candidates, <kbd>f</kbd> the whole picture, <kbd>+</kbd> <kbd>&minus;</kbd> zoom</p>
      <label><input type="checkbox" id="toggle-keys" checked><span>letters and digits act</span></label>
    </section>`;
  const find = (id) => panel.querySelector(`#${id}`);
  const toggle = find("toggle-candidates");
  const made = (tag, text = "", kind = "") => {
    const element = document.createElement(tag);
    element.textContent = text;
    if (kind) element.className = kind;
    return element;
  };
  // A text would be taken for markup.
  const tip = (text) => () => made("span", text);

  const map = L.map(place, { zoomSnap: 0.25, zoomControl: false, fadeAnimation: false });
  map.attributionControl.setPrefix(false);
  L.control.zoom({ position: "topleft" }).addTo(map);
  L.control.scale({ imperial: false, maxWidth: 200 }).addTo(map);
  if (tiles) L.tileLayer(tiles, { maxZoom: 22, maxNativeZoom: 19 }).addTo(map);
  const roads = L.canvas({ padding: 0.5, tolerance: 4 });
  const [ground, rays, said, candidates, shown, arrows] = Array.from({ length: 6 }, () => L.layerGroup().addTo(map));
  const layers = [ground, rays, said, candidates, shown, arrows];

  let scene = null;
  let spots = [];
  let legs = [];
  let others = [];
  let ranked = [];
  let chosen = -1;

  // ---- the map's own lines, on a canvas: these greys are seen on light and on dark; the colours of all else are in the styles
  const width = (line) => (line.class <= 2 ? 6 : line.class <= 4 ? 4 : 2.5);
  const colour = (line) => (line.class <= 2 ? "#6f6f6f" : line.class <= 4 ? "#7d7d7d" : "#8a8a8a");
  const drawGround = () => {
    for (const line of scene.lines.slice().reverse()) {
      L.polyline(line.path, { renderer: roads, color: colour(line), weight: width(line) })
        .bindTooltip(tip(`line ${line.id}, class ${line.class}, ${line.form}, ${line.length}`), { sticky: true })
        .addTo(ground);
    }
  };

  // ---- the reference
  const wedge = ([lat, lon], [from, to]) => {
    const centre = map.latLngToLayerPoint([lat, lon]);
    const rim = [from, (from + to) / 2, to].map((degrees) => {
      const angle = (degrees * Math.PI) / 180;
      return map.layerPointToLatLng(centre.add([Math.sin(angle) * 90, -Math.cos(angle) * 90]));
    });
    return [[lat, lon], ...rim];
  };
  const drawRays = () => {
    rays.clearLayers();
    for (const point of scene.points) {
      const style = { className: "ray", weight: 1.5, dashArray: "4 3", fillOpacity: 0.14 };
      L.polygon(wedge(point.spot, point.direction), { ...style, interactive: false }).addTo(rays);
    }
  };
  const drawReference = () => {
    scene.points.forEach((point, index) => {
      if (point.leg) {
        const leg = L.polyline([point.spot, spots[index + 1]], { className: "leg", weight: 1.5, dashArray: "2 6", interactive: false })
          .bindTooltip(tip(`leg ${index + 1}: ${point.leg}`), { permanent: true, direction: "bottom", offset: [0, 14], className: "leg-label" })
          .addTo(said);
        legs.push(leg);
      }
      const html = `<div class="pin"><b>${index + 1}</b><i></i></div>`;
      L.marker(point.spot, { icon: L.divIcon({ className: "", html, iconSize: [32, 38], iconAnchor: [16, 38] }), alt: `point ${index + 1}`, keyboard: false, zIndexOffset: 1000 })
        .bindTooltip(tip(`point ${index + 1}: ${point.text}`), { direction: "top", offset: [0, -38] })
        .addTo(said);
    });
  };

  // ---- the candidates, each by its rank
  const near = () => (scene.why ? scene.why.near : []);
  const drawCandidates = () => {
    ranked = scene.candidates.map((point, index) =>
      point.map((one) => {
        const html = `<i></i><b>${index + 1}: ${one.rank}</b>`;
        return L.marker(one.spot, { icon: L.divIcon({ className: "rank", html, iconSize: [0, 0] }), keyboard: false })
          .bindTooltip(tip(`point ${index + 1}, candidate ${one.rank}: line ${one.line} at ${(one.at / 10).toFixed(1)} m, penalty ${one.penalty}`))
          .addTo(candidates);
      }),
    );
    for (const one of near().filter((line) => line.not.length)) {
      L.marker(one.spot, { icon: L.divIcon({ className: "rank near", html: "<i></i>", iconSize: [0, 0] }), keyboard: false })
        .bindTooltip(tip(`line ${one.line}: not ${one.not.join(", ")}`))
        .addTo(candidates);
    }
  };
  // Labels of candidates that lie in one spot stand one below the other.
  const placeLabels = () => {
    for (const point of ranked) {
      const taken = [];
      for (const marker of point) {
        const at = map.latLngToLayerPoint(marker.getLatLng());
        const free = (slot) => taken.every(([x, y]) => Math.abs(x - at.x) > 32 || Math.abs(y - at.y - 17 * slot) > 12);
        let slot = 0;
        while (!free(slot)) slot += 1;
        taken.push([at.x, at.y + 17 * slot]);
        if (marker.getElement()) marker.getElement().style.setProperty("--slot", String(slot));
      }
    }
    // Where points stand close on the screen, there is room for the labels of what is chosen alone.
    const at = spots.map((spot) => map.latLngToLayerPoint(spot));
    const close = (one, two, most) => Math.hypot(at[one].x - at[two].x, at[one].y - at[two].y) < most;
    ranked.forEach((point, index) => {
      const crowded = at.some((_, other) => other !== index && close(index, other, 90));
      point.forEach((marker) => marker.getElement() && marker.getElement().classList.toggle("crowded", crowded));
    });
    legs.forEach((leg, index) => leg.getTooltip().getElement().classList.toggle("hidden", close(index, index + 1, 190)));
  };

  // ---- one entry of the list
  const drawArrows = () => {
    arrows.clearLayers();
    if (chosen < 0) return;
    const entry = scene.entries[chosen];
    const path = (entry.outer || entry.route).map((spot) => map.latLngToLayerPoint(spot));
    let left = 45;
    for (let index = 1; index < path.length; index += 1) {
      const step = path[index].subtract(path[index - 1]);
      const size = Math.hypot(step.x, step.y);
      let along = left;
      for (; along < size; along += 90) {
        const spot = map.layerPointToLatLng(path[index - 1].add(step.multiplyBy(along / size)));
        const turn = (Math.atan2(step.y, step.x) * 180) / Math.PI;
        const icon = L.divIcon({ className: "arrow", html: "<span>&#9654;</span>", iconSize: [13, 13] });
        const arrow = L.marker(spot, { icon, interactive: false, keyboard: false }).addTo(arrows);
        // A style in the markup would need a laxer policy.
        arrow.getElement().firstChild.style.transform = `rotate(${turn.toFixed(1)}deg)`;
      }
      left = along - size;
    }
  };
  const line = (path, kind, style) => path && path.length > 1 && L.polyline(path, { className: kind, lineCap: "butt", interactive: false, ...style }).addTo(shown);
  // Where other paths of the first entry lie apart from those of their legs: the scenes of many references have none.
  const apart = ({ leg, other }) => {
    const steps = (path) => path.slice(1).map((spot, index) => [path[index], spot]);
    const common = new Set(steps(leg).map(String));
    const stretches = [];
    let isApart = false;
    for (const step of steps(other)) {
      const wasApart = isApart;
      isApart = !common.has(String(step));
      if (isApart && !wasApart) stretches.push([step[0]]);
      if (isApart) stretches.at(-1).push(step[1]);
    }
    return stretches;
  };
  const draw = () => {
    shown.clearLayers();
    ranked.flat().forEach((marker) => marker.getElement() && marker.getElement().classList.remove("chosen"));
    if (chosen >= 0) {
      const entry = scene.entries[chosen];
      line(entry.outer, "outer", { weight: 16 });
      line(entry.inner, "casing", { weight: 9 });
      line(entry.inner, "inner", { weight: 6 });
      line(entry.route, "route", { weight: 2, dashArray: "7 5" });
      if (chosen === 0) others.forEach((path) => line(path, "other", { weight: 5, dashArray: "8 4" }));
      for (const end of entry.ends) L.circleMarker(end, { className: "end", radius: 6, weight: 2, fillOpacity: 1, interactive: false }).addTo(shown);
      if (entry.spot) L.marker(entry.spot, { icon: L.divIcon({ className: "star", html: "&#9733;", iconSize: [30, 30] }), interactive: false, keyboard: false }).addTo(shown);
      entry.ranks.forEach((rank, index) => {
        const marker = ranked[index] && ranked[index][rank - 1];
        if (marker && marker.getElement()) marker.getElement().classList.add("chosen");
      });
    }
    drawArrows();
  };
  const choose = (index) => {
    chosen = index;
    if (index >= 0 && !scene.entries[index].members) find("more").open = true;
    panel.querySelectorAll(".entry").forEach((label, number) => {
      label.classList.toggle("chosen", number === index);
      label.querySelector("input").checked = number === index;
    });
    draw();
  };
  const chooseAndTell = (index) => { choose(index); onChoose(index); };

  // ---- the panel
  const fill = (id, elements) => find(id).replaceChildren(...elements);
  const items = (texts) => texts.map((text) => made("li", text));
  const labelOf = (entry, index) => {
    const label = made("label", "", "entry");
    const input = made("input");
    Object.assign(input, { type: "radio", name: "entry", value: String(index) });
    input.addEventListener("change", () => chooseAndTell(index));
    const text = made("div", "", "text");
    const title = made("b", entry.title);
    title.append(made("span", entry.probability || (entry.members && !index ? "likeliest" : ""), "gap"));
    const parts = [`${entry.total} penalty points`, entry.gap ? `gap ${entry.gap}` : "", entry.length, entry.members].filter(Boolean);
    text.append(title, made("div", parts.join(", ")));
    if (entry.facts.length) text.append(made("div", entry.facts.join(", "), "facts"));
    if (entry.reasons) text.append(made("div", `${entry.reasons}.`, "reasons small"));
    // What is said of other paths is of the first entry.
    if (!index) text.append(...(scene.notes || []).map((note) => made("div", note, "note small")));
    const rest = [`legs ${entry.legs}`, `lines ${entry.lines}`, `cursor ${entry.cursor}`];
    text.append(...rest.map((it) => made("div", it, "small")));
    label.append(input, text);
    return label;
  };
  const pointOf = (point) => {
    const item = made("li", point.text);
    if (point.leg) item.append(made("div", `then ${point.leg}`, "small"));
    return item;
  };
  // A line may end between two words, but not behind the dashes of an option.
  const wordsOfCommand = (command) => command.split(/( )/).map((word) => (word.startsWith("-") ? made("span", word, "option") : word));
  const fillPanel = () => {
    find("verdict").textContent = scene.verdict.word === "none" ? "nothing fits" : scene.verdict.word;
    find("verdict-text").textContent = scene.verdict.text;
    find("looking").textContent = scene.looking;
    fill("probability", items(scene.probability));
    find("reference").textContent = scene.reference;
    find("command").replaceChildren(...wordsOfCommand(scene.command));
    find("same").hidden = !scene.command;
    const labels = scene.entries.map(labelOf);
    const rest = labels.filter((_, index) => !scene.entries[index].members);
    fill("entries", labels.filter((label) => !rest.includes(label)));
    fill("more-entries", rest);
    find("more").open = false;
    find("more").hidden = !rest.length;
    find("more-title").textContent = rest.length === 1 ? "One more matching" : `${rest.length} more matchings`;
    find("fits").hidden = !scene.entries.length;
    find("why").hidden = !scene.why;
    const { texts, remedies } = scene.why || { texts: [], remedies: [] };
    fill("reasons", items(texts));
    fill("remedies", items(remedies.length ? remedies : ["no single change of a tolerance, and no map without bans"]));
    fill("points", scene.points.map(pointOf));
    find("offsets").textContent = scene.offsets;
    find("cut").textContent = scene.cut || scene.more ? `${scene.more ? "More" : scene.cut} lines further out aren't drawn.` : "";
    fillSamples();
  };

  // ---- the legend
  const SAMPLES = [
    ["a point of the reference", '<circle cx="23" cy="7" r="7" class="of-ray"/><path d="M23 14v6" class="of-leg" stroke-width="2"/>'],
    ["its direction; at the last point that back along the road", '<path d="M2 18L40 3L44 12Z" class="of-ray" fill-opacity=".14" stroke-dasharray="4 3"/>'],
    ["a leg, with the length that its path should have", '<path d="M2 10h42" class="of-leg" stroke-dasharray="2 6" stroke-width="2"/>'],
    ["a candidate, as point: rank; filled if it is the chosen one", '<rect x="18" y="5" width="9" height="9" transform="rotate(45 23 10)" class="of-mark" stroke-width="2"/>'],
    ["a line nearby that is no candidate", '<circle cx="23" cy="10" r="5" class="of-mark" stroke-width="2" stroke-dasharray="2 2"/>', () => near().length],
    ["the location, halfway between the two dots that it lies between", '<text x="23" y="18" text-anchor="middle" font-size="22" class="of-star" stroke-width=".7">\u2605</text>', () => scene.entries.some((entry) => entry.spot)],
    ["the outer part: the location lies within it", '<path d="M2 10h42" class="of-outer" stroke-width="16"/>', () => scene.entries.some((entry) => entry.outer)],
    ["the inner part: the location covers it", '<path d="M2 10h42" class="of-casing" stroke-width="9"/><path d="M2 10h42" class="of-inner" stroke-width="6"/>', () => scene.entries.some((entry) => entry.outer)],
    ["the path between the candidates", '<path d="M2 10h42" class="of-route" stroke-width="2" stroke-dasharray="7 5"/>', () => scene.entries.length],
    ["another path, as short or nearly so", '<path d="M2 10h42" class="of-other" stroke-width="5" stroke-dasharray="8 4"/>', () => others.length],
    ["lines of the map, the wider the more important", '<path d="M2 6h42" stroke="#6f6f6f" stroke-width="6"/><path d="M2 16h42" stroke="#8a8a8a" stroke-width="2.5"/>'],
  ];
  const fillSamples = () => {
    const there = SAMPLES.filter(([, , isThere]) => !isThere || isThere());
    fill("samples", there.map(([text, inside]) => {
      const row = made("div");
      row.innerHTML = `<svg viewBox="0 0 46 20" aria-hidden="true">${inside}</svg>`;
      row.append(made("span", text));
      return row;
    }));
  };
  // Letters may be typed by what somebody says, so they can be turned off. Where nothing can be kept they act again the next time.
  const KEYS = "olr keys";
  const letters = find("toggle-keys");
  try {
    letters.checked = localStorage.getItem(KEYS) !== "off";
  } catch {
    letters.checked = true;
  }
  letters.addEventListener("change", () => {
    try {
      localStorage.setItem(KEYS, letters.checked ? "on" : "off");
    } catch {
      // It is forbidden.
    }
  });
  toggle.addEventListener("change", () => {
    map[toggle.checked ? "addLayer" : "removeLayer"](candidates);
    if (!scene) return;
    placeLabels();
    draw();
  });

  // ---- what is seen, and keys
  // Whether all is seen, and nobody has moved it since.
  let isWhole = false;
  const whole = () => {
    const seen = L.latLngBounds(spots);
    scene.entries.forEach((entry) => entry.route.forEach((spot) => seen.extend(spot)));
    near().forEach((one) => seen.extend(one.spot));
    others.flat().forEach((spot) => seen.extend(spot));
    map.fitBounds(seen, { padding: [70, 70], maxZoom: 18, animate: false });
    isWhole = true;
  };
  const resize = () => {
    const wasWhole = isWhole;
    map.invalidateSize({ animate: false });
    if (scene && wasWhole) whole();
  };
  map.on("movestart", () => { isWhole = false; });
  const isTyped = (element) => element && element.matches("input:not([type=radio], [type=checkbox]), select, textarea");
  document.addEventListener("keydown", (event) => {
    if (!scene || event.defaultPrevented || event.ctrlKey || event.altKey || event.metaKey) return;
    if (isTyped(document.activeElement)) return;
    const many = scene.entries.length;
    const inList = document.activeElement && document.activeElement.name === "entry";
    const inMap = place.contains(document.activeElement);
    if (!letters.checked && event.key.length === 1) return;
    if (/^[0-9]$/.test(event.key) && Number(event.key) <= many) chooseAndTell(Number(event.key) - 1);
    else if (event.key === "c") toggle.click();
    else if (event.key === "f") whole();
    else if (!inList && !inMap && many > (chosen < 0 ? 0 : 1) && (event.key === "ArrowDown" || event.key === "ArrowUp")) {
      chooseAndTell((Math.max(chosen, 0) + (event.key === "ArrowDown" ? (chosen < 0 ? 0 : 1) : many - 1)) % many);
      event.preventDefault();
    }
  });
  map.on("zoomend", () => {
    if (!scene) return;
    drawRays();
    drawArrows();
    placeLabels();
  });

  // ---- one scene after the other
  const clear = () => {
    scene = null;
    chosen = -1;
    [spots, legs, others, ranked] = [[], [], [], []];
    layers.forEach((layer) => layer.clearLayers());
    panel.querySelectorAll("#verdict, #verdict-text, #looking, #reference, #command, #offsets, #cut").forEach((element) => { element.textContent = ""; });
    ["entries", "probability", "more-entries", "reasons", "remedies", "points"].forEach((id) => fill(id, []));
    ["fits", "why", "same"].forEach((id) => { find(id).hidden = true; });
  };
  const show = (next, index = next.entries.length ? 0 : -1) => {
    clear();
    scene = next;
    spots = scene.points.map((point) => point.spot);
    others = (scene.others || []).flatMap(apart);
    fillPanel();
    map.invalidateSize({ animate: false });
    map.setView(spots[0], 16, { animate: false });
    drawGround();
    drawReference();
    drawCandidates();
    whole();
    drawRays();
    placeLabels();
    choose(Math.min(index, scene.entries.length - 1));
  };
  new ResizeObserver(resize).observe(place);
  // On paper there is another width, which the styles give.
  for (const change of ["beforeprint", "afterprint"]) {
    addEventListener(change, () => {
      place.classList.toggle("printed", change === "beforeprint");
      resize();
    });
  }
  return { show, clear };
}
