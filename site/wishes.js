// What a text asks to be named: lines of pci.ids or a diff of it, numbers with names, lines of
// lspci and other texts that have numbers.

import { grouped } from "./grouped.js";
import { parse, withParents } from "./paths.js";
import { numbersIn, pathsOf, subsystemIn } from "./pasted.js";

/** Why a line isn't taken. */
export const LEFT = {
  unknown: "not understood",
  homeless: "what it is below is neither in the text nor found in the published file",
  removal: "removals are proposed one by one",
};

const NAMED = /^\s*([0-9a-f]{4}):([0-9a-f]{4})(?: ([0-9a-f]{4}):([0-9a-f]{4}))?\s+(\S.*)$/i;
const OF_LSPCI = /\[[0-9a-f]{4}\]|\(rev |: /i;
const HAS_HUNKS = /^@@ .*@@/m;
const HEAD = /^(?:@@|--- |\+\+\+ |diff |index |\\ )|^-- ?$/;
const EMPTY = /^[ \t]*(?:#|$)/;

// Lines of pci.ids by their tabs: the sign of a class, the numbers, the name.
const LINES = [
  /^(C |)([0-9a-f]{4}|[0-9a-f]{2})(?: {2,}|\t[ \t]*)(?![0-9a-f]{4}\s*$)(\S.*)$/i,
  /^\t()([0-9a-f]{4}|[0-9a-f]{2})[ \t]+(\S.*)$/i,
  /^\t\t()([0-9a-f]{4}[ \t][0-9a-f]{4}|[0-9a-f]{2})[ \t]+(\S.*)$/i,
];
const GENERIC = /^S ([0-9a-f]{4})\s*$/i;

/** A line of pci.ids as { depth, digits, name, front }, or null; `S 1af4` has no name. */
function entryIn(line) {
  const block = GENERIC.exec(line);
  if (block) return { depth: 0, digits: block[1].toLowerCase(), name: null, front: "PS" };
  const depth = /^\t*/.exec(line)[0].length;
  const found = LINES[depth]?.exec(line);
  if (!found) return null;
  const digits = found[2].replace(/\s/, "").toLowerCase();
  const front = digits.length === 2 ? "PD" : "PC";
  if (depth === 0 && (front === "PD") !== (found[1] !== "")) return null;
  return { depth, digits, name: found[3].trimEnd(), front };
}

const linesOf = (text) => text.split(/\r?\n/).map((it, at) => ({ line: at + 1, text: it }));

/** The hunks of a diff, each a list of entries; and the lines that are added and are none. */
function hunksOf(text) {
  const hunks = [[]], left = [];
  for (const it of linesOf(text)) {
    const sign = it.text[0];
    const entry = entryIn(it.text.slice(1));
    if (HEAD.test(it.text)) hunks.push([]);
    else if (entry && " +-".includes(sign)) hunks.at(-1).push({ ...it, ...entry, sign });
    else if (sign === "+" && !EMPTY.test(it.text.slice(1))) left.push({ ...it, why: LEFT.unknown });
  }
  return { hunks, left };
}

/** What a line alone names: { name, and numbers or an entry's place } for each; [] for nothing. */
function namedIn(text) {
  const named = NAMED.exec(text);
  if (named && !OF_LSPCI.test(named[5])) {
    const numbers = named.slice(1, 5).filter(Boolean).map((it) => it.toLowerCase());
    return [{ numbers, name: named[5].trimEnd() }];
  }
  // Where a text was copied from a terminal, tabs are blanks.
  const entry = entryIn(text.replace(/^(?: {8}){1,2}/, (it) => "\t".repeat(it.length / 8)));
  return entry ? [entry] : numbersIn(text).map((numbers) => ({ numbers, name: "" }));
}

/** The entries and numbers of another text, as one hunk, and the lines that are none. */
function wholeOf(text) {
  const hunk = [], left = [];
  let device = null;       // the last one that a line of lspci named
  for (const it of linesOf(text)) {
    const below = device && subsystemIn(it.text);
    const found = below ? [] : namedIn(it.text);
    if (below) device.splice(2, 2, ...below);
    hunk.push(...found.map((one) => ({ ...it, ...one, sign: "+" })));
    // What lspci -v says of a device besides.
    const isBeside = EMPTY.test(it.text) || (device && /^[ \t]/.test(it.text));
    if (found.length) device = found.at(-1).numbers ?? null;
    else if (!below && !isBeside) left.push({ ...it, why: LEFT.unknown });
  }
  return { hunks: [hunk], left };
}

/** Finds what lines are below that have nothing above them in the text: by others beside them. */
class Homes {
  constructor(names) {
    this.names = names;
  }

  withName({ depth, digits, name }) {
    const keyOf = (path) => {
      const parts = path.split("/");
      return `${parts.length - 2} ${parts.at(-1)} ${this.names.get(path)}`;
    };
    this.paths ??= grouped(this.names.keys(), keyOf);
    return this.paths.get(`${depth} ${digits} ${name}`) ?? [];
  }

  /** What most of some entries of one depth are below; null for nothing, or two alike. */
  of(entries) {
    const found = entries.flatMap((it) => this.withName(it));
    const homes = [...grouped(found, (it) => it.slice(0, it.lastIndexOf("/")))];
    const [best, next] = homes.sort(([, one], [, other]) => other.length - one.length);
    return best && best[1].length !== next?.[1].length ? best[0] : null;
  }
}

/** What the entries of a hunk are below until one says so: [top, and what is below that]. */
function homeOf(hunk, homes) {
  const top = hunk.findIndex((it) => it.depth === 0);
  const loose = top < 0 ? hunk : hunk.slice(0, top);
  const first = loose.findIndex((it) => it.depth === 1);
  const seconds = (first < 0 ? loose : loose.slice(0, first)).filter((it) => it.depth === 2);
  const second = homes.of(seconds);
  const own = homes.of(loose.filter((it) => it.depth === 1));
  return [own ?? second?.slice(0, second.lastIndexOf("/")) ?? null, second];
}

function pathIn({ depth, digits, front, numbers }, above) {
  if (numbers) return pathsOf(numbers)[0];
  if (depth === 0) return `${front}/${digits}`;
  const home = above[depth - 1];
  return home && (front === "PD") === home.startsWith("PD") ? `${home}/${digits}` : null;
}

/** The entries of a hunk, each with its path, or null where that can't be known. */
function placed(hunk, homes) {
  const above = homeOf(hunk, homes);
  return hunk.map((it) => {
    const path = pathIn(it, above);
    if (!it.numbers && !(it.depth === 0 && it.sign === "-")) above.splice(it.depth, 2, path);
    return { ...it, path };
  });
}

// What a row is below has to be there first.
function withMissing(rows, names) {
  const all = new Map();
  for (const [path, name] of rows) {
    const missing = names.size ? withParents(path).filter((it) => !names.has(it)) : [path];
    for (const it of missing) if (!all.has(it)) all.set(it, rows.get(it) ?? "");
    all.set(path, name);
  }
  return [...all].map(([path, name]) => ({ path, name }));
}

/**
 * What a text asks to be named: { rows, same, left }: each path once with its name, "" where the
 * text has none, behind those above it that have no name; how many lines say what is so already;
 * and the lines that aren't taken, each with its number and why.
 * @param {string} text
 * @param {Map} names of the published file, by paths
 */
export function wishesIn(text, names) {
  const { hunks, left } = HAS_HUNKS.test(text) ? hunksOf(text) : wholeOf(text);
  const homes = new Homes(names);
  const entries = hunks.flatMap((it) => placed(it, homes)).filter((it) => it.name !== null);
  const added = entries.filter((it) => it.sign === "+");
  const isSo = ({ path, name }) => name !== "" && names.get(path)?.trimEnd() === name;
  const isWish = (it) => parse(it.path ?? "") && !isSo(it);
  const rows = new Map();
  for (const { path, name } of added.filter(isWish)) rows.set(path, name || (rows.get(path) ?? ""));
  const gone = entries.filter(({ sign, path }) => sign === "-" && names.has(path)
    && !added.some((it) => it.path === path));
  const homeless = added.filter((it) => it.path === null);
  left.push(...homeless.map((it) => ({ ...it, why: LEFT.homeless })),
    ...gone.map((it) => ({ ...it, why: LEFT.removal })));
  return {
    rows: withMissing(rows, names),
    same: added.filter(isSo).length,
    left: left.sort((one, other) => one.line - other.line)
      .map(({ line, text: its, why }) => ({ line, text: its, why })),
  };
}
