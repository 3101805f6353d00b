// What the operator says of joining: whether strangers can, whom to ask, and the rules.

import { ask } from "./api.js";
import { el } from "./dom.js";

const NOTHING = { door: "unknown", contact: "", rules: "" };
let told = null;

// The file of settings: lines `name = value`. Those that begin with a blank go on with the value.
function settingsOf(text) {
  const its = {};
  let last = "head";
  for (const line of text.split("\n").filter((it) => !/^\s*([#;]|$)/.test(it))) {
    const found = /^([a-z-]+)\s*[=:]\s*(.*)$/.exec(line);
    if (found) [, last, its[last]] = found;
    else its[last] = `${its[last] ?? ""}\n${line}`;
  }
  return Object.fromEntries(Object.entries(its).map(([name, value]) => [name, value.trim()]));
}

/** { door, contact, rules }; the door is open, invitation or closed, or unknown. */
export async function joining() {
  told ??= ask("/joining", { quiet: true });
  const { value } = await told;
  if (!value) told = null;
  const its = { ...NOTHING, ...settingsOf(value ?? "") };
  return its["joins-a-day"] === "0" ? { ...its, door: "closed" } : its;
}

/** Whom to ask, once that is known. */
export function contact() {
  const place = el("span");
  joining().then((it) => place.append(it.contact));
  return place;
}
