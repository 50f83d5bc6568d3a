"use strict";
// The query of an address as a question, with the names, ranges and refusals of the server's addresses.
//
//   const { what, ref, after, numbers } = questionOf("places", optionsOf("ref=CwVF&radius=50"), tables);
//
// `tables` comes from Python: { tolerances, numbers, options, profiles, profile }, of which `numbers` has those of each question besides the
// tolerances, `options` the words of what else it has, none where it is given or not, and `profile` is the one where none is named. Throws a
// Problem for what isn't understood.

// Why a question has no answer: as the problem documents of the server.
class Problem extends Error {
  constructor(status, title, detail) {
    super(detail);
    Object.assign(this, { status, title });
  }

  document() {
    const { status, title, message: detail } = this;
    return { type: `docs#${title}`, title, status, detail };
  }
}

const badRequest = (detail) => new Problem(400, "BadRequest", detail);

// The options of a query. A plus sign stands for itself, as base64 has it.
function optionsOf(query) {
  const options = new Map();
  for (const item of query ? query.split("&") : []) {
    const at = item.indexOf("=");
    const [name, value] = (at < 0 ? [item, ""] : [item.slice(0, at), item.slice(at + 1)]).map(unescaped);
    if (options.has(name)) throw badRequest(`${quoted(name)} is given twice`);
    options.set(name, value);
  }
  return options;
}

function unescaped(text) {
  try {
    return decodeURIComponent(text);
  } catch {
    throw badRequest("the query isn't UTF-8");
  }
}

function questionOf(what, options, tables, others = undefined) {
  const given = new Map(options);
  const take = (name) => {
    const value = given.get(name);
    given.delete(name);
    return value;
  };
  const ref = take("ref");
  if (ref === undefined) throw badRequest("ref is missing: the text of a reference, in base64");
  const after = what === "match" ? take("after") : undefined;
  return { what, ref, after, numbers: numbersOf(what, given, tables, others) };
}

// All numbers of a question, by their names, and its other options that are given: `others` has those that it may have.
function numbersOf(what, options, tables, others = tables.options[what]) {
  const { profile = tables.profile, ...given } = Object.fromEntries(options);
  if (!Object.hasOwn(tables.profiles, profile)) {
    throw badRequest(`${quoted(profile)} is no profile: the profiles are ${Object.keys(tables.profiles).join(", ")}`);
  }
  const own = tables.numbers[what];
  const [numbers, more] = [{ ...tables.profiles[profile] }, {}];
  for (const [name, number] of Object.entries(own)) numbers[name] = number.default;
  for (const [name, value] of Object.entries(given)) {
    if (Object.hasOwn(numbers, name)) numbers[name] = numberOf(name, value, own[name] || tables.tolerances[name]);
    else if (Object.hasOwn(others, name)) more[name] = wordOf(name, value, others[name]);
    else {
      const known = ["ref", ...(what === "match" ? ["after"] : []), "profile", ...Object.keys(numbers), ...Object.keys(others)];
      throw badRequest(`${quoted(name)} is no option of /${what}: it has ${known.join(", ")}`);
    }
  }
  return { ...numbers, ...more };
}

function numberOf(name, text, { least, greatest, unit }) {
  const value = Number(text);
  if (!/^[0-9]{1,7}$/.test(text) || value < least || value > greatest) {
    throw badRequest(`${name} is a whole number of ${unit} from ${least} to ${greatest}`);
  }
  return value;
}

// One of the words of an option, or whether one without words is given.
function wordOf(name, text, words) {
  const known = words.length ? words : ["false", "true"];
  if (!known.includes(text)) throw badRequest(`${name} is ${known.join(" or ")}`);
  return words.length ? text : text === "true";
}

// A text as Python shows it, for plain ones.
function quoted(text) {
  return text.includes("'") && !text.includes('"') ? `"${text}"` : `'${text.replaceAll("\\", "\\\\").replaceAll("'", "\\'")}'`;
}

// The words of numbers and options: of one without words its name, if it is given.
function wordsOf(settings) {
  const given = Object.entries(settings).filter(([, value]) => value !== false);
  return given.flatMap(([name, value]) => (value === true ? [`--${name}`] : [`--${name}`, String(value)]));
}

// A text as a part of a record, so that its answer or fault is that of the text itself.
const MOST_REFERENCE = 344;

function recordText(reference) {
  const text = reference.replace(/^[ \t\r\n]+|[ \t\r\n]+$/g, "");
  if (new TextEncoder().encode(text).length > MOST_REFERENCE) return "A".repeat(MOST_REFERENCE + 1);
  return text.replaceAll("\n", "!").replaceAll("\0", "!");
}
