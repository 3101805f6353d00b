// Long lists of items with a box that narrows them.

import { counted, el, fill } from "./dom.js";
import { hrefOf, ownNumber } from "./paths.js";
import { shown } from "./safe_text.js";
import { isArrivingBelow, note, notedOf } from "./scroll_place.js";

const CHUNK = 100;
const ROW_REMS = 2.26;
const SHORT = 12;

function itemRow({ path, name }) {
  return el("div", { role: "listitem" },
    el("a", { href: hrefOf(path) }, el("code", {}, ownNumber(path)), " ", shown(name)));
}

/**
 * Rows that are made when they are first shown: 100 at once, the others when there is time, or at
 * once too on a page that is shown again further down.
 */
class Rows {
  constructor(items) {
    this.items = items;
    this.made = new Array(items.length);
    this.turn = 0;
    this.list = el("div", { class: "items", role: "list" });
  }

  chunk(numbers) {
    const rows = numbers.map((it) => this.made[it] ??= itemRow(this.items[it]));
    const chunk = el("div", { class: "chunk", role: "presentation" }, ...rows);
    chunk.style.containIntrinsicSize = `auto ${rows.length * ROW_REMS}rem`;
    return chunk;
  }

  show(numbers) {
    const mine = this.turn += 1;
    fill(this.list, this.chunk(numbers.slice(0, CHUNK)));
    const add = (from) => this.list.append(this.chunk(numbers.slice(from, from + CHUNK)));
    const later = (from) => requestAnimationFrame(() => setTimeout(() => {
      if (mine !== this.turn || from >= numbers.length) return;
      add(from);
      later(from + CHUNK);
    }));
    if (!isArrivingBelow()) later(CHUNK);
    else for (let from = CHUNK; from < numbers.length; from += CHUNK) add(from);
  }
}

/**
 * A list of items, with a box where it is long.
 * @param {{path: string, name: string}[]} items
 * @param {string} what what they are called
 */
export function itemList(items, what) {
  if (items.length === 0) return el("p", { class: "none" }, `No ${what}.`);
  const rows = new Rows(items);
  const all = [...items.keys()];
  if (items.length < SHORT) {
    rows.show(all);
    return rows.list;
  }
  const texts = items.map(({ path, name }) => `${ownNumber(path)} ${name}`.toLowerCase());
  const count = el("output", { "aria-live": "polite" }, counted(items.length));
  const box = el("input", {
    type: "search", id: `narrow-${what.replace(/\W/g, "-")}`, autocomplete: "off",
    spellcheck: "false",
  });
  // Where the page is opened anew the list is whole again.
  box.value = notedOf(box.id) ?? "";
  const narrow = () => {
    const words = box.value.toLowerCase().split(/\s+/).filter(Boolean);
    const some = all.filter((it) => words.every((word) => texts[it].includes(word)));
    rows.show(some);
    const of = ` of ${counted(items.length)}`;
    fill(count, counted(some.length) + (words.length ? of : ""));
  };
  narrow();
  box.addEventListener("input", () => { narrow(); note(box.id, box.value); });
  return [
    el("p", { class: "narrow" }, el("label", { for: box.id }, `Narrow the ${what}`), box, count),
    rows.list];
}
