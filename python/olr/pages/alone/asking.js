"use strict";
// The page that answers by itself: what it asks of addresses goes to a worker, which has the program and the map, and not to a server.
// It stands in for `fetch`, so that the page is the one of the server.
(() => {
  const packed = document.getElementById("packed").textContent;
  const data = JSON.parse(document.getElementById("data").textContent);
  const source = document.getElementById("worker").textContent;
  // How many milliseconds the worker has to let a question go that was dropped.
  const PATIENCE = 300;
  const asked = new Map();
  let worker = null;
  // The question that the worker is at.
  let current = null;
  let count = 0;

  const tellState = (state) => { document.body.dataset.program = state; };
  const begin = () => {
    tellState("starting");
    current = null;
    const address = URL.createObjectURL(new Blob([source], { type: "text/javascript" }));
    const begun = new Worker(address);
    URL.revokeObjectURL(address);
    begun.addEventListener("message", ({ data: told }) => begun === worker && take(told));
    begun.addEventListener("error", ({ message }) => begun === worker && fail(message));
    begun.postMessage({ kind: "start", packed, data });
    worker = begun;
  };

  // The worker's script failed: all that is asked is answered with a problem, and the worker is begun again once something is asked.
  const fail = (text) => {
    const others = [...asked.values()];
    asked.clear();
    worker.terminate();
    worker = null;
    const problem = JSON.stringify({ title: "ProgramFailed", status: 503, detail: `the program ended: ${text}` });
    for (const one of others) {
      if (one.isDropped) continue;
      if (one.controller) one.controller.error(broken(text));
      else one.answer(new Response(problem, { status: 503, headers: { "Content-Type": "application/problem+json" } }));
    }
  };
  const broken = (text) => new DOMException(text, "NetworkError");

  const take = ({ id, kind, ...more }) => {
    if (kind === "state") tellState(more.status);
    if (kind === "at") current = id;
    const one = asked.get(id);
    if (!one) return;
    if (kind === "head") headed(one, more);
    if (kind === "piece") added(one, more.piece);
    if (["end", "dropped", "broken"].includes(kind)) ended(id, one, kind, more.text);
  };

  // (a list that goes on in another worker has its stream already)
  const headed = (one, { status, type }) => {
    if (one.controller) return;
    const stream = new ReadableStream({ start: (controller) => { one.controller = controller; } });
    one.answer(new Response(stream, { status, headers: { "Content-Type": type } }));
  };
  const added = (one, piece) => {
    one.question.from += 1;
    if (!one.isDropped) one.controller.enqueue(piece);
  };
  const ended = (id, one, kind, text) => {
    asked.delete(id);
    if (one.isDropped) return;
    if (kind === "end") one.controller.close();
    else one.controller.error(broken(text));
  };

  const drop = (id, reason) => {
    const one = asked.get(id);
    if (!one) return;
    one.isDropped = true;
    one.refuse(reason);
    if (one.controller) one.controller.error(reason);
    if (worker) worker.postMessage({ kind: "drop", id });
    setTimeout(() => look(id), PATIENCE);
  };

  // Where the worker is still at a question that was dropped, it is begun again. Where it is at another one, it lets the dropped one go later.
  const look = (id) => {
    if (!asked.has(id)) return;
    if (current === id) restart();
    else setTimeout(() => look(id), PATIENCE);
  };

  // Another worker goes on with all that isn't dropped, behind the pieces that are there.
  const restart = () => {
    worker.terminate();
    begin();
    for (const [id, one] of asked) {
      if (one.isDropped) asked.delete(id);
      else worker.postMessage(one.question);
    }
  };

  window.fetch = (address, { body = null, headers = {}, signal = null } = {}) => new Promise((answer, refuse) => {
    if (signal && signal.aborted) {
      refuse(signal.reason);
      return;
    }
    count += 1;
    const id = count;
    const question = { kind: "ask", id, address, body, accept: headers.Accept || "", from: 0 };
    asked.set(id, { question, answer, refuse, controller: null, isDropped: false });
    if (worker === null) begin();
    worker.postMessage(question);
    if (signal) signal.addEventListener("abort", () => drop(id, signal.reason), { once: true });
  });

  // The program's own answers have no address here: they are opened as files.
  document.addEventListener("click", async (event) => {
    const link = event.target.closest && event.target.closest("#answers a");
    if (!link) return;
    event.preventDefault();
    const response = await fetch(link.getAttribute("href"));
    const address = URL.createObjectURL(new Blob([await response.blob()], { type: "application/json" }));
    window.open(address, "_blank", "noopener");
    setTimeout(() => URL.revokeObjectURL(address), 60_000);
  });

  begin();
})();
