// Texts of others as they are shown: what can't be seen, turns the direction of its neighbours or
// passes for a Latin letter is marked.

import { el, several } from "./dom.js";

const SCRIPTS = [
  "Cyrillic", "Greek", "Armenian", "Georgian", "Cherokee", "Hebrew", "Arabic", "Han", "Hiragana",
  "Katakana", "Hangul", "Devanagari", "Thai", "Coptic", "Lisu",
].map((name) => [name, new RegExp(`\\p{Script=${name}}`, "u")]);

const PLAIN = /^[!-~](?:[ -~]*[!-~])?$/;
const UNSEEN = /[\p{C}\p{Zl}\p{Zp}\p{Default_Ignorable_Code_Point}\u2800\u3164\uffa0]/u;
const BLANK = /\p{Zs}/u;
const LETTER = /\p{L}/u;
// Latin letters that nobody takes for others: those of European languages and of Vietnamese.
const USUAL = /[a-zA-Z\u00aa\u00b5\u00ba\u00c0-\u0130\u0132-\u024f\u1e00-\u1eff]/;
const MARK_OR_NUMBER = /[\p{M}\p{Nd}\p{Nl}]/u;
// A character; or the marks of a letter from the third on, as many as there are.
const CELL = /(?<more>(?<=\p{M}\p{M})\p{M}+)|./gsu;
// Strokes and points that look like those of ASCII, and the wide forms of ASCII.
const LOOKALIKE = /[\u2010-\u2012\u2015\u2024\u2044\u2212\u2215\u2236\ua789\uff01-\uff5e]/;

const codeOf = (char) => `U+${char.codePointAt(0).toString(16).toUpperCase().padStart(4, "0")}`;

function scriptOf(char) {
  return SCRIPTS.find(([, form]) => form.test(char))?.[0] ?? codeOf(char);
}

/** What is said of a character: { sign, unseen }, or null of one that needs no sign. */
function judge(char, isEdge) {
  if (char === "\t") return { sign: "tab", unseen: true };
  if (char === " ") return isEdge ? { sign: "blank", unseen: true } : null;
  if (char >= "!" && char <= "~") return null;
  if (UNSEEN.test(char) || BLANK.test(char)) return { sign: codeOf(char), unseen: true };
  if (LETTER.test(char)) return USUAL.test(char) ? null : { sign: scriptOf(char), unseen: false };
  if (MARK_OR_NUMBER.test(char) || LOOKALIKE.test(char)) return { sign: codeOf(char) };
  return null;
}

/** The characters of a text, each with what is said of it. */
function cellsOf(text) {
  const found = [...text.matchAll(CELL)];
  const first = found.findIndex(([it]) => it !== " ");
  const last = found.findLastIndex(([it]) => it !== " ");
  return found.map(({ 0: char, groups: { more } }, at) => ({
    char,
    judged: more ? { sign: `+${several([...more].length, "mark")}`, unseen: true }
      : judge(char, at < first || at > last),
  }));
}

function signOf({ sign, unseen }, letters) {
  const title = unseen ? `not shown as it is: ${sign}` : `${letters}: ${sign}`;
  return el("span", { class: "sign", title }, sign);
}

/** Cells as nodes: runs of one kind together, and behind each run that has one its sign. */
function nodesOf(cells) {
  const nodes = [];
  for (let from = 0, to; from < cells.length; from = to) {
    const { judged } = cells[from];
    const same = (it) => it.judged?.sign === judged?.sign && !it.judged?.unseen;
    to = from + 1;
    if (!judged?.unseen) while (to < cells.length && same(cells[to])) to += 1;
    const run = cells.slice(from, to).map((it) => it.char).join("");
    if (!judged) nodes.push(run);
    else if (judged.unseen) nodes.push(signOf(judged));
    else nodes.push(el("span", { class: "foreign" }, run), signOf(judged, run));
  }
  return nodes;
}

/** A text of somebody else, in an element of its own. */
export function shown(text) {
  return PLAIN.test(text) ? el("bdi", {}, text) : el("bdi", {}, ...nodesOf(cellsOf(text)));
}

/** The same for places that hold text alone: titles, labels, notices. */
export function spelled(text) {
  if (PLAIN.test(text)) return text;
  return cellsOf(text).map(({ char, judged }) => (
    !judged ? char : judged.unseen ? `[${judged.sign}]` : `${char}[${judged.sign}]`)).join("");
}

/** Two texts, with marks on what the one has and the other has not: [before, after]. */
export function compared(before, after) {
  const [one, two] = [cellsOf(before), cellsOf(after)];
  const least = Math.min(one.length, two.length);
  let front = 0;
  while (front < least && one[front].char === two[front].char) front += 1;
  let back = 0;
  const same = () => one[one.length - 1 - back].char === two[two.length - 1 - back].char;
  while (back < least - front && same()) back += 1;
  return [one, two].map((cells) => el("bdi", {},
    nodesOf(cells.slice(0, front)),
    cells.length > front + back
      ? el("mark", {}, nodesOf(cells.slice(front, cells.length - back))) : null,
    nodesOf(cells.slice(cells.length - back))));
}
