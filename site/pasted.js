// Numbers in texts that people paste: of lspci, of Windows' device manager, modaliases, or typed.

import { NUMBERS } from "./paths.js";

const H = "([0-9a-f]{4})";
const form = (text, flags = "gi") => new RegExp(text, flags);

// Each with the places of vendor, device, subsystem vendor and subsystem among what it finds. The
// first that finds something in a line is taken.
const FORMS = [
  // Windows: PCI\VEN_8086&DEV_1237&SUBSYS_11001AF4&REV_02
  [form(`VEN_${H}&DEV_${H}(?:&SUBSYS_${H}${H})?`), [0, 1, 3, 2]],
  // The kernel: pci:v00008086d00001237sv00001AF4sd00001100bc06sc00i00
  [form(`pci:v0000${H}d0000${H}(?:sv0000${H}sd0000${H})?`), [0, 1, 2, 3]],
  // lspci -nn has the numbers in brackets behind the names.
  [form(`\\[${H}:${H}\\]`), [0, 1]],
  [form(`^\\s*(?:0x)?${H}[:\\s]+(?:0x)?${H}[\\s,:]+(?:0x)?${H}[:\\s]+(?:0x)?${H}\\s*$`),
    [0, 1, 2, 3]],
  // lspci -n, and what people type.
  [form(`(?<![0-9a-f:.])${H}:${H}(?![0-9a-f:])`), [0, 1]],
  [form(`^\\s*(?:0x)?${H}[\\s/,]+(?:0x)?${H}\\s*$`), [0, 1]],
];
const BELOW = form(`^\\s*subsystem:?.*?(?<![0-9a-f])${H}:${H}(?![0-9a-f])`, "i");

/** The devices that a line names, as `devicesIn` has them. */
export function numbersIn(line) {
  for (const [one, places] of FORMS) {
    const numbersOf = (found) => places.map((at) => found[at + 1]?.toLowerCase()).filter(Boolean);
    const found = [...line.matchAll(one)].map(numbersOf);
    if (found.length) return found;
  }
  return [];
}

/** The subsystem in a line `Subsystem: ..` of lspci, as two numbers, or null. */
export const subsystemIn = (line) => (
  BELOW.exec(line)?.slice(1).map((it) => it.toLowerCase()) ?? null);

/**
 * The devices that a text names, in its order, each once: [vendor, device] or [vendor, device,
 * subsystem vendor, subsystem]. A line `Subsystem: ..` below a device of lspci belongs to that one.
 */
export function devicesIn(text) {
  const found = [];
  for (const line of text.split(/\r?\n| \| /)) {
    const below = subsystemIn(line);
    if (!below) found.push(...numbersIn(line));
    else if (found.length) found.at(-1).splice(2, 2, ...below);
  }
  return [...new Map(found.map((it) => [it.join(), it])).values()];
}

/** The paths that such numbers may mean, the deepest first. */
export function pathsOf([a, b, c, d]) {
  const paths = [`PC/${a}/${b}`, `PS/${a}/${b}`];
  return d ? [`PC/${a}/${b}/${c}${d}`, ...paths] : paths;
}

const FAMILIES = [
  ["vendor", "device", "subsystem"], ["class", "subclass", "interface"], ["generic"],
];

/**
 * What a paste into the boxes of a kind's numbers fills: { kind, at, digits }, where the kind is
 * the one that has boxes for all of them; or null where it is for no other boxes.
 * @param {string} kind
 * @param {number} at the box that it is pasted into
 * @param {string} text
 */
export function pastedInto(kind, at, text) {
  const [device] = devicesIn(text);
  if (device) {
    const takesTwo = NUMBERS[kind][1]?.[1] === 4;
    return { kind: device[3] ? "subsystem" : takesTwo ? kind : "device", at: 0, digits: device };
  }
  const digits = /^\s*[0-9a-f]+(?:[:\s/]+[0-9a-f]+)+\s*$/i.test(text)
    ? text.trim().split(/[:\s/]+/) : [];
  const family = FAMILIES.find((it) => it.includes(kind));
  const deeper = family.slice(family.indexOf(kind));
  const fits = deeper.find((it) => NUMBERS[it].length >= at + digits.length);
  return digits.length < 2 || !fits ? null : { kind: fits, at, digits };
}
