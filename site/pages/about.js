// What moderators ask for before they decide on a proposal of the queue.

import { el, fill, link, several } from "../dom.js";
import { recordOf } from "../known.js";
import { hrefOf, wholeNumber } from "../paths.js";
import { shown } from "../safe_text.js";
import { changedSince, changedWords } from "../stale.js";
import { submissionsFor } from "../submissions.js";
import { chainOf, kindOf, stateMark, wishOf } from "../widgets.js";
import { STATES } from "../words.js";

const MOST_BEFORE = 5;
const STATES_IN_ORDER = ["approved", "rejected", "withdrawn", "pending"];

/** What came of an account's proposals, in words. */
export function recordWords(record) {
  if (!record) return "what came of its proposals isn't known at the moment";
  const { counts, isAll } = record;
  const words = STATES_IN_ORDER.filter((it) => counts[it]).map((it) => `${counts[it]} ${STATES[it].toLowerCase()}`).join(", ");
  return isAll ? words : `${words} of the latest`;
}

const row = (word, ...value) => [el("dt", {}, word), el("dd", {}, ...value)];

/**
 * What is to be known of a proposal: nodes, of which some are filled when the answers come.
 * @param {Object} it the proposal, as /queue has it
 * @param {?string} now what its item is called now, null for no name
 * @param {Object} around rivals, nameOf: as of `Card`
 */
export function aboutProposal(it, now, { rivals, nameOf }) {
  const record = el("span", {}, " …");
  recordOf(it.author).then((its) => fill(record, ` ${recordWords(its)}`));
  const before = el("div", { class: "before" });
  const since = el("dl", { class: "facts since" });
  showBefore(it, before);
  changedSince(it).then((its) => fill(since, changedWords(its).map((words) => row(...words))));
  const above = chainOf(it.path, (path) => nameOf(path) ?? undefined).slice(0, -1);
  return [el("dl", { class: "facts" },
    row(kindOf(it.path), above, " ", link(hrefOf(it.path), el("code", {}, wholeNumber(it.path)))),
    row("Now", now === null ? "no name" : shown(now)),
    row("By", link(`/decided?author=${it.author}`, it.author), record),
    row("Note", it.note === "" ? "–" : shown(it.note)),
    rivals.length ? row("For this number", rivalRows(it, rivals)) : null,
    row("Comments", link(`/proposals/${it.num}`, it.remarks ? several(it.remarks, "comment")
      : "none yet: comment"))), since, before];
}

// Side by side with the others that are for the same number.
function rivalRows(it, rivals) {
  const all = [it, ...rivals].sort((one, other) => one.num - other.num);
  return el("ol", { class: "rivals" }, all.map(({ num, name, author }) => el("li", {},
    link(`/proposals/${num}`, `#${num}`), " ", wishOf(name), ` by ${author}`,
    num === it.num ? " (this one)" : null)));
}

// What was decided for the same number.
async function showBefore(it, place) {
  const { value } = await submissionsFor(it.path);
  const isDecided = ({ state }) => state === "approved" || state === "rejected";
  const all = (value?.submissions ?? []).filter(isDecided);
  if (all.length === 0) return;
  const decidedRow = ({ num, name, state, reason }) => el("li", {},
    link(`/proposals/${num}`, `#${num}`), " ", wishOf(name), " ",
    stateMark(state, num > it.num ? " since then" : ""), reason ? [" ", shown(reason)] : null);
  fill(place, el("p", { class: "aside" }, "Decided for this number:"),
    el("ol", { class: "rivals" }, all.slice(0, MOST_BEFORE).map(decidedRow)));
}
