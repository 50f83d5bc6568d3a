"use strict";
// Asks the server.

// What went wrong, as a sentence. `isPassing`: the same may work later.
class Trouble extends Error {
  constructor(text, isPassing) {
    super(text);
    this.isPassing = isPassing;
  }
}

const BROKEN_OFF = "The answer broke off: the server has ended, or a process took too long.";
const GONE = "The server can't be reached: it has ended, or the connection is broken.";

// The answer of an address. Throws a Trouble, and an AbortError where `signal` says so.
async function asked(address, more = {}) {
  let response;
  try {
    response = await fetch(address, more);
  } catch (error) {
    throw error.name === "AbortError" ? error : new Trouble(GONE, true);
  }
  if (response.ok) return response;
  throw await troubleOf(response);
}

// The JSON of an address. Throws as `asked`.
async function askedJson(address, more) {
  const response = await asked(address, more);
  try {
    return await response.json();
  } catch (error) {
    throw error.name === "AbortError" ? error : new Trouble(GONE, true);
  }
}

async function troubleOf(response) {
  const { status } = response;
  const problem = await response.json().catch(() => ({}));
  const detail = problem.detail || `The server answered ${status} ${response.statusText}`.trim();
  const before = { 503: problem.title === "Busy" ? "The server is busy: " : "", 504: "It took too long: " }[status] || "";
  return new Trouble(sentence(before + detail), status >= 500 || status === 429);
}

function sentence(text) {
  return text.charAt(0).toUpperCase() + text.slice(1) + (/[.!?]$/.test(text) ? "" : ".");
}

// The lines of an answer, while it comes. Throws a Trouble where it ends before its end.
async function* linesOf(response) {
  const reader = response.body.pipeThrough(new TextDecoderStream()).getReader();
  let rest = "";
  for (;;) {
    let piece;
    try {
      piece = await reader.read();
    } catch (error) {
      throw error.name === "AbortError" ? error : new Trouble(BROKEN_OFF, true);
    }
    if (piece.done) break;
    const lines = (rest + piece.value).split("\n");
    rest = lines.pop();
    yield lines;
  }
  if (rest) yield [rest];
}
