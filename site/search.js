// An index of names, and what is found in it.

import { parentOf, parse, withParents } from "./paths.js";
import { devicesIn, pathsOf } from "./pasted.js";

const WORTH = {
  vendor: 0, class: 1, device: 2, subclass: 3, generic: 4, interface: 5, subsystem: 6,
};
const LONGEST = 500;
const ELSEWHERE = 40, IN_WORD = 20, LATER = 10, GOES_ON = 4;

// Vendors come first, those with the most entries before the others; the rest in their order.
function ordered(names) {
  const sizes = new Map();
  for (const path of names.keys()) {
    const vendor = path.slice(3, 7);
    if (!path.startsWith("PD/")) sizes.set(vendor, (sizes.get(vendor) ?? 0) + 1);
  }
  const paths = [...names.keys()].sort();
  const isVendor = (it) => it.length === 7 && it.startsWith("PC/");
  const size = (it) => sizes.get(it.slice(3));
  return [...paths.filter(isVendor).sort((one, other) => size(other) - size(one)),
    ...paths.filter((it) => !isVendor(it))];
}

// What is searched in for an item: its own name, and in the lines below it those above it.
function textOf(path, names) {
  const { kind, numbers } = parse(path);
  const above = [parentOf(path)];
  // A subsystem is found by its device's and by both vendors' names.
  if (kind === "subsystem") above.push(`PC/${numbers[0]}`, `PC/${numbers[2]}`);
  const low = (it) => names.get(it)?.toLowerCase() ?? "";
  return [path, ...above.filter(Boolean)].map(low).join("\n");
}

function put(index, at, path) {
  const { kind, numbers } = parse(path);
  const text = textOf(path, index.names);
  index.paths[at] = path;
  index.texts[at] = text;
  index.owns[at] = text.includes("\n") ? text.indexOf("\n") : text.length;
  index.worths[at] = WORTH[kind];
  if (kind !== "device") return;
  if (!index.devices.has(numbers[1])) index.devices.set(numbers[1], new Set());
  index.devices.get(numbers[1]).add(path);
}

/** What searches need to know of names, a Map by paths. */
export function indexOf(names) {
  const index = {
    names, paths: [], texts: [], owns: [], worths: [], devices: new Map(), last: null,
  };
  ordered(names).forEach((path, at) => put(index, at, path));
  return index;
}

/** Changes the name of one item, or adds or removes it; those below it are found as before. */
export function learn(index, path, name) {
  index.last = null;
  const at = index.paths.indexOf(path);
  if (name === null) {
    index.names.delete(path);
    if (at >= 0) index.texts[at] = "";
    index.devices.get(parse(path).numbers[1])?.delete(path);
  } else {
    index.names.set(path, name);
    put(index, at < 0 ? index.paths.length : at, path);
  }
}

/** The paths of vendors and classes that a bare number means, and the devices of that number. */
function bare(query, { names, devices }) {
  const digits = /^(?:0x)?([0-9a-f]{2,8})$/.exec(query)?.[1];
  if (!digits) return { first: [], last: [] };
  const [a, b, c, d] = [0, 2, 4, 6].map((it) => digits.slice(it, it + 2));
  const means = {
    2: [`PD/${a}`], 4: [`PC/${digits}`, `PD/${a}/${b}`], 6: [`PD/${a}/${b}/${c}`],
    8: [`PC/${a}${b}/${c}${d}`],
  }[digits.length] ?? [];
  return { first: means.filter((it) => names.has(it)), last: [...devices.get(digits) ?? []] };
}

// A device without a name comes before its vendor, a subsystem that is asked for alone behind its
// device.
function meant(numbers, isAlone, { names }) {
  const all = pathsOf(numbers);
  const named = all.filter((it) => names.has(it));
  const device = `PC/${numbers[0]}/${numbers[1]}`;
  const vendor = [`PC/${numbers[0]}`].filter((it) => names.has(it));
  if (named.length === 0) return [device, ...vendor];
  return isAlone && !names.has(all[0]) ? [...named, all[0]] : named;
}

/** The paths that the numbers in a query mean: { first, last, isPasted }. */
function numbered(text, index) {
  const query = text.trim().toLowerCase();
  const path = query.replace(/^p[cds]\//, (it) => it.toUpperCase());
  if (parse(path)) return { first: [path], last: [] };
  const devices = devicesIn(text);
  const found = devices.flatMap((it) => meant(it, devices.length === 1, index));
  if (found.length === 0) return bare(query, index);
  return { first: [...new Set(found)], last: [], isPasted: true };
}

const isWordCode = (code) => (
  (code >= 48 && code <= 57) || (code >= 97 && code <= 122) || code > 127);

/** How far a text is from what was asked; -1 where it lacks a word. */
function distance(whole, own, words) {
  let sum = 0;
  for (const word of words) {
    const at = whole.indexOf(word);
    if (at < 0) return -1;
    if (at >= own) sum += ELSEWHERE;
    else if (at > 0) sum += isWordCode(whole.charCodeAt(at - 1)) ? IN_WORD : LATER;
    if (isWordCode(whole.charCodeAt(at + word.length))) sum += GOES_ON;
  }
  return sum;
}

// Who types on narrows what was found before: only that is searched then.
function candidates({ last }, words) {
  const isNarrower = last?.words.every((old) => words.some((it) => it.includes(old)));
  return isNarrower ? last.found : null;
}

// Vendors and classes with the words as words of their own come before what is below others.
function bucketOf(far, count, worth) {
  return worth <= WORTH.class && far < IN_WORD * count ? Math.floor(far / IN_WORD) + worth
    : far + worth;
}

// Letters and digits apart: rtx4090 and AX-210 are found as RTX 4090 and AX210.
const apart = (query) => query.match(/\p{L}+|\p{N}+/gu) ?? [];

/**
 * The items whose names have all words of a query: { first, count }, of which the first are the
 * likeliest, at most so many. Distances are small numbers: each has its bucket.
 */
function byNames(index, query, words, { seen, most }) {
  const { paths, texts, owns, worths } = index;
  const among = candidates(index, words);
  const total = among?.length ?? paths.length;
  const found = new Int32Array(total);
  const buckets = [];
  let count = 0;
  for (let turn = 0; turn < total; turn += 1) {
    const at = among ? among[turn] : turn;
    const far = distance(texts[at], owns[at], words);
    if (far < 0) continue;
    found[count] = at;
    count += 1;
    const isWhole = owns[at] === query.length && texts[at].startsWith(query);
    const bucket = buckets[isWhole ? 0 : bucketOf(far, words.length, worths[at])] ??= [];
    if (bucket.length < most + seen.size) bucket.push(at);
  }
  index.last = { words, found: found.subarray(0, count) };
  const first = [];
  for (const bucket of buckets) {
    for (const at of bucket ?? []) {
      if (first.length < most && !seen.has(paths[at])) first.push(paths[at]);
    }
  }
  const twice = [...seen].filter((it) => distance(textOf(it, index.names), 0, words) >= 0).length;
  return { first, count: count - twice };
}

/**
 * What is found for a text: { rows, count }, the likeliest first, at most so many rows. A number
 * without a name has a row too, and isn't counted.
 */
export function search(index, text, most) {
  const query = text.trim().slice(0, LONGEST).toLowerCase();
  if (!query) return { rows: [], count: 0 };
  const { first, last, isPasted } = numbered(text, index);
  const seen = new Set([...first, ...last]);
  const find = (words) => byNames(index, query, [...new Set(words)], { seen, most });
  let named = isPasted ? { first: [], count: 0 } : find(query.split(/\s+/));
  const isNone = !isPasted && named.count === 0 && seen.size === 0;
  if (isNone && apart(query).length > 1) named = find(apart(query));
  const all = [...first, ...named.first, ...last];
  const nameOf = (path) => index.names.get(path);
  const rows = all.slice(0, most).map((path) => ({
    path, name: nameOf(path) ?? null, above: withParents(path).slice(0, -1).map(nameOf),
  }));
  const isNamed = (path) => nameOf(path) !== undefined;
  return { rows, count: first.filter(isNamed).length + named.count + last.length };
}

/** The items directly below a path ("" for vendors and classes). */
export function childrenOf({ names }, of) {
  const isChild = of === "" ? (it) => it.length === 7 || it.length === 5
    : (it) => it.startsWith(of.slice(0, 3)) || it.startsWith("PS/");
  return [...names.keys()].filter((it) => isChild(it) && (parentOf(it) ?? "") === of).sort()
    .map((path) => ({ path, name: names.get(path) }));
}

const SHOWN = 500;

/** How names differ from ours, each a Map by paths, with the first rows of each group. */
export function difference(theirs, ours) {
  const added = [], renamed = [], missing = [];
  for (const [path, name] of theirs) {
    const now = ours.get(path);
    if (now === undefined) added.push({ path, name });
    else if (now !== name) renamed.push({ path, name, now });
  }
  for (const [path, name] of ours) if (!theirs.has(path)) missing.push({ path, name });
  const same = theirs.size - added.length - renamed.length;
  const group = (rows) => ({ count: rows.length, rows: rows.slice(0, SHOWN) });
  return { added: group(added), renamed: group(renamed), missing: group(missing), same };
}
