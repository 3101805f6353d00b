// What answers mean, in plain words.

import { counted } from "./dom.js";
import { MOST_ENTRIES, MOST_FILE, MOST_NAME } from "./limits.js";

const REFUSALS = {
  1: "This isn't a path such as PC/8086/1237, with digits in lower case.",
  2: `A name has 1 to ${counted(MOST_NAME)} bytes, no blank in front and no control characters.`,
  3: "A field is missing, too long, or has characters that the registry doesn't take.",
  4: "The registry doesn't know this account. An administrator has to add it first.",
  5: "This account's rank is too low for that.",
  7: "There is no such proposal.",
  8: "It isn't pending any more: somebody decided on it or withdrew it meanwhile.",
  9: "Only its author can withdraw a proposal.",
  10: "Nobody decides on their own proposal, or sets their own rank.",
  11: "The entry that it would be below isn't in the registry yet. That has to be approved first.",
  12: "Other entries are under this one. They have to be removed first.",
  13: "Nothing would change: it is so already.",
  15: "The registry is full.",
  16: "The registry was out of memory just now.",
  17: "The registry's disk failed just now.",
  18: "The registry has failed and is about to start again.",
  20: "The request was malformed.",
  21: `That is too long: the registry takes at most ${counted(MOST_FILE)} bytes.`,
  22: "The request was encoded in a way that the registry doesn't take.",
  23: "The request was cut off on its way.",
  24: "There is no such page.",
  25: "There is no such entry.",
  26: "These flags ask for things that don't go together.",
  27: "There is no text for these numbers.",
  28: "The address of the request was malformed.",
  29: "There is no such account.",
  30: "The entry was renamed, added or removed since it was shown: nothing was done. Look again.",
};

/** The kinds of faults of a file. */
export const KINDS = {
  1: "the line isn't UTF-8 text",
  2: "it has more tabs in front than any entry there can have",
  3: "there is no entry above it that it could belong to",
  4: "it doesn't begin with a number of the right length, in hex digits, and a space or a tab",
  5: "there is no name after the number",
  6: `the name has a control character or is longer than ${counted(MOST_NAME)} bytes`,
  7: "an earlier line has the same number already",
  8: "the vendor of this block has no line of its own above",
};

/** A refusal in words: the answer's object with its number. */
export function refusalWords(refusal) {
  if (refusal.why) return refusal.why;
  if (refusal.refused !== 14) {
    return REFUSALS[refusal.refused] ?? `The registry refused it (${refusal.word}).`;
  }
  if (!refusal.line) return `The file has more than ${counted(MOST_ENTRIES)} entries.`;
  const kind = KINDS[refusal.kind] ?? `kind ${refusal.kind}`;
  return `Line ${refusal.line.toLocaleString("en")} of the file is faulty: ${kind}.`;
}

const TROUBLES = {
  offline: "There is no connection to the server.",
  stopped: "The registry isn't running at the moment.",
  slow: "The registry doesn't answer.",
  busy: "The server has too much to do at the moment.",
  store: "The registry is out of memory, or its disk failed.",
  login: "The account and the password weren't accepted.",
  ended: "You are logged out by now: log in again.",
  foreign: "The server took this for a request of another site and refused it.",
  large: `That is too long: at most ${counted(MOST_FILE)} bytes are taken.`,
  odd: "The server's answer can't be understood here.",
  file: "The file isn't held any more since the page was loaded again. Choose it once more.",
  account: "Another account is logged in by now.",
  restored: "The registry was restored from a backup since this was sent, and the number may be"
    + " another proposal's by now. Look at it before you decide anew.",
  elsewhere: "Another tab is sending it.",
  forgotten: "It was forgotten in another tab, so it isn't sent again.",
  undone: "It was taken back.",
  left: "It isn't known whether this was done. It is kept at the foot of the window.",
};

/** What stood in the way of an answer, in words. */
export const troubleWords = (trouble) => TROUBLES[trouble] ?? TROUBLES.odd;

/** What came of a command that was not accepted, in words. */
export function answerWords(answer) {
  if (answer.refusal) return refusalWords(answer.refusal);
  return troubleWords(answer.trouble) + (answer.certain ? " Nothing was done." : "");
}

/** The ranks, by their numbers. */
export const RANKS = ["contributor", "moderator", "senior moderator", "administrator"];

/** "a moderator", "an administrator". */
export const oneOf = (rank) => `${/^a/.test(RANKS[rank]) ? "an" : "a"} ${RANKS[rank]}`;

/** The states of proposals. */
export const STATES = {
  pending: "Pending", approved: "Approved", rejected: "Rejected", withdrawn: "Withdrawn",
};
