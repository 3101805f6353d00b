// Reads a pci.ids file by its bytes: its entries, or its first fault with the line and the least
// kind that holds there. The registry judges an import by the same rules; this is a second
// implementation of them, and tests compare it with the program's `check` and `tidy`.

import { MOST_ENTRIES, MOST_FILE, MOST_NAME } from "./limits.js";

const LF = 10;

const DEEP = 2, ORPHAN = 3, BAD_ID = 4, NO_NAME = 5, BAD_NAME = 6, TWICE = 7, NO_VENDOR = 8;

const utf8 = new TextDecoder("utf-8", { fatal: true, ignoreBOM: true });

function decoded(bytes) {
  try {
    return utf8.decode(bytes);
  } catch {
    return null;
  }
}

/** The lines in front of the first that is no text, and the number of that one, or 0. */
function linesOf(bytes) {
  let text = decoded(bytes);
  let bad = 0;
  if (text === null) {
    let from = 0;
    for (bad = 1; ; bad += 1) {
      const to = bytes.indexOf(LF, from);
      if (decoded(bytes.subarray(from, to < 0 ? bytes.length : to)) === null) break;
      from = to + 1;
    }
    text = decoded(bytes.subarray(0, from));
  }
  const lines = text.split("\n");
  if (lines.at(-1) === "") lines.pop();
  return { lines, bad };
}

const CONTROL = /[\u0000-\u0008\u000a-\u001f\u007f]/;
const SKIPPED = /^[ \t]*(#|$)/;
const UNKNOWN_BLOCK = /^[ABD-RT-Z] /;
const GENERIC_BLOCK = /^S ([0-9a-f]{4})[ \t]*$/i;
const FOUR = /^([0-9a-f]{4})[ \t]+/i;
const TWO = /^([0-9a-f]{2})[ \t]+/i;
const NUMBERS = {
  vendor: FOUR,
  device: FOUR,
  generic: FOUR,
  subclass: TWO,
  interface: TWO,
  class: /^C ([0-9a-f]{2})[ \t]+/i,
  subsystem: /^([0-9a-f]{4})[ \t]([0-9a-f]{4})[ \t]+/i,
};
// What is below an open block, at depths 1 and 2.
const BELOW = { vendor: ["device", "subsystem"], class: ["subclass", "interface"] };

/** Whether a text is a name by its characters and length, where it isn't empty. */
function isName(name) {
  if (CONTROL.test(name)) return false;
  return name.length <= MOST_NAME / 3 || new TextEncoder().encode(name).length <= MOST_NAME;
}

/** Opens what a line of depth 0 opens: null where it is no entry, else what to read, or a fault. */
function openTop(state, rest) {
  state.first = null;
  if (rest.startsWith("S ")) {
    const vendor = GENERIC_BLOCK.exec(rest)?.[1].toLowerCase();
    if (!vendor) return { fault: BAD_ID };
    if (!state.names.has(`PC/${vendor}`)) return { fault: NO_VENDOR };
    state.top = { kind: "generic", path: `PS/${vendor}` };
    return null;
  }
  if (UNKNOWN_BLOCK.test(rest)) {
    state.top = { kind: "unknown" };
    return null;
  }
  return rest.startsWith("C ") ? { kind: "class", front: "PD" } : { kind: "vendor", front: "PC" };
}

/** What a nested line has to be: null where it is skipped, else what to read, or a fault. */
function nested({ top, first }, depth) {
  if (top?.kind === "unknown") return null;
  if (depth > (top?.kind === "generic" ? 1 : 2)) return { fault: DEEP };
  if (!top || (depth === 2 && !first)) return { fault: ORPHAN };
  if (top.kind === "generic") return { kind: "generic", front: top.path };
  return { kind: BELOW[top.kind][depth - 1], front: depth === 1 ? top.path : first };
}

/** Takes a line: 0, or the kind of its fault. */
function take(state, line) {
  if (SKIPPED.test(line)) return 0;
  const depth = /^\t*/.exec(line)[0].length;
  const rest = line.slice(depth);
  const wanted = depth === 0 ? openTop(state, rest) : nested(state, depth);
  if (wanted === null) return 0;
  if (wanted.fault) return wanted.fault;
  const found = NUMBERS[wanted.kind].exec(rest);
  if (!found) return BAD_ID;
  const name = rest.slice(found[0].length);
  if (name === "") return NO_NAME;
  if (!isName(name)) return BAD_NAME;
  const path = `${wanted.front}/${found.slice(1).join("").toLowerCase()}`;
  if (state.names.has(path)) return TWICE;
  state.isFull = state.names.size === MOST_ENTRIES;
  if (!state.isFull) state.names.set(path, name);
  if (depth === 0) state.top = { kind: wanted.kind, path };
  else if (depth === 1) state.first = path;
  return 0;
}

/** The bytes of a file that was chosen; of one that is too large only so many that it shows. */
export const bytesOf = async (file) => (
  new Uint8Array(await file.slice(0, MOST_FILE + 1).arrayBuffer()));

/**
 * Reads a file.
 * @param {Uint8Array} bytes
 * @param {number} [mostBytes] the published file may be longer than a file that is imported
 * @returns {Object} { names }, a Map by paths in the order of the file; or { line, kind } of the
 *   first fault; or { isTooLarge }; or { hasTooMany } entries
 */
export function read(bytes, mostBytes = MOST_FILE) {
  if (bytes.length > mostBytes) return { isTooLarge: true };
  const { lines, bad } = linesOf(bytes);
  const state = { names: new Map(), top: null, first: null, isFull: false };
  for (let at = 0; at < lines.length; at += 1) {
    const kind = take(state, lines[at].replace(/\r$/, ""));
    if (kind) return { line: at + 1, kind };
    if (state.isFull) return { hasTooMany: true };
  }
  return bad ? { line: bad, kind: 1 } : { names: state.names };
}
