// What looks odd in a name, beside the names that the list has. It stops nobody: there are devices
// that are called so.

import { parse, wholeNumber } from "./paths.js";

const LEGAL = new RegExp("\\b(?:corporation|corp|incorporated|inc|limited|ltd|co|company|gmbh"
  + "|ag|llc|plc|technolog(?:y|ies)|international|systems?|group)\\b.*$", "i");

/** What a vendor is called in short: "Intel" of "Intel Corporation". */
const shortOf = (vendor) => vendor.replace(/[,[(].*$/, "").replace(LEGAL, "").trim();

/** The vendor whose name is beside this one wherever it is shown, or null. */
function vendorOf(path) {
  const { kind, numbers } = parse(path);
  if (kind === "device" || kind === "generic") return `PC/${numbers[0]}`;
  return kind === "subsystem" ? `PC/${numbers[2]}` : null;
}

const beginsWith = (name, word) => word.length > 1
  && name.toLowerCase().startsWith(`${word.toLowerCase()} `);

const isShouted = (name) => !/\p{Ll}/u.test(name) && /\b[A-Z]{6,}\b.*\b[A-Z]{5,}\b/.test(name);

const EMPTY = new RegExp("^(?:unknown|unnamed|device|test|todo|tbd|n/a|none|\\?+)"
  + "(?:\\s+(?:device|[0-9a-f]{4}))?$", "i");

const RULES = [
  [(name) => /^[ \t]|[ \t]$/.test(name), "It has a blank at an end; that would be in the file."],
  [(name) => /\S(?: {2,}|\t)\S/.test(name), "It has two blanks in a row."],
  [(name) => /\(\s*rev(?:ision)?\b|\brev(?:ision)?\.? ?[0-9a-f]{1,2}$/i.test(name),
    "It has a revision: lspci shows that itself, and all revisions share the name."],
  [(name) => /[®™©]|\((?:r|tm|c)\)/i.test(name),
    "It has a sign of a trademark: the list does without."],
  [isShouted, "It is all in capitals: write words as words, and only abbreviations in capitals."],
  [(name) => EMPTY.test(name), "It says nothing: an entry without a name is better."],
  [(name) => /^(["'“‘]).*["'”’]$/.test(name), "It is in quotes."],
  [(name) => /https?:\/\/|www\./i.test(name), "It has an address: put that into the note."],
  [(name) => /[^ -~\t]/.test(name), "It has letters that some programs can't show: write it in"
    + " ASCII where that says the same."],
  [(name, path) => name.toLowerCase().includes(wholeNumber(path).toLowerCase())
    && wholeNumber(path).includes(":"), "It has its own number in it."],
];

/**
 * What looks odd in a name: a sentence for each.
 * @param {string} name
 * @param {string} path
 * @param {function(string): string=} nameOf the name at a path, where it is known
 */
export function oddities(name, path, nameOf = () => undefined) {
  if (name === "") return [];
  const found = RULES.filter(([isOdd]) => isOdd(name, path)).map(([, words]) => words);
  const vendor = vendorOf(path) && nameOf(vendorOf(path));
  const short = vendor ? shortOf(vendor) : "";
  if (beginsWith(name, short)) {
    found.unshift(`It begins with the vendor, ${short}, whose name is shown in front of it.`);
  }
  return found;
}
