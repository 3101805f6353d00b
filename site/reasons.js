// Reasons of rejections: ready ones, and those that this browser used last.

import { keep, recall } from "./browser_store.js";
import { el } from "./dom.js";

const PLACE = "reasons";
const MOST_USED = 4;
const LONGEST = 80;
const READY = [
  "There is no source for it.", "The source says another name.", "It isn't about this number.",
  "The vendor's name isn't said again.", "It is no name.",
];

const used = () => {
  const all = recall("localStorage", PLACE);
  return Array.isArray(all) ? all.filter((it) => typeof it === "string") : [];
};

/** Keeps a reason as one that was used. */
export function noteReason(words) {
  const all = [words, ...used().filter((it) => it !== words)].slice(0, MOST_USED);
  keep("localStorage", PLACE, all);
}

/** A list whose choice is put into a box: reasons that were used last, and ready ones. */
export function readyReasons(box) {
  const put = () => {
    box.value = list.value;
    list.value = "";
    box.dispatchEvent(new Event("input", { bubbles: true }));
    box.focus();
  };
  const short = (words) => (words.length > LONGEST ? `${words.slice(0, LONGEST)}…` : words);
  const option = (words) => el("option", { value: words }, short(words));
  const list = el("select", { "aria-label": "Ready reasons", onchange: put },
    el("option", { value: "" }, "Ready reasons …"),
    [...new Set([...used(), ...READY])].map(option));
  return list;
}
