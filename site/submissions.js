// What was proposed: the registry's list of submissions, the latest first, and its rows.

import { ask } from "./api.js";
import { el, link, several } from "./dom.js";
import { when } from "./happened.js";
import { datesOf } from "./history.js";
import { spoken } from "./paths.js";
import { shown } from "./safe_text.js";
import { stateMark, wishOf } from "./widgets.js";

// The registry looks at so many submissions for a page that it may have few rows, or none, though
// more follow. Then it is asked on.
const ENOUGH = 20;
const MOST_QUESTIONS = 5;

/**
 * A page of submissions: { value: { before, submissions } }, or an answer without a value. More
 * follow where `before` isn't 0.
 * @param {Object} which path, author, before: each where it is wanted
 * @param {Object} [how] as of `ask`; questions: how many at most; isWanted: which rows, all if not
 *   given
 */
export async function submissions(which, how = {}) {
  const { questions = MOST_QUESTIONS, isWanted = () => true, ...asking } = how;
  const given = Object.entries(which).filter(([, value]) => value);
  const query = new URLSearchParams(given);
  const rows = [];
  for (let turn = 1; ; turn += 1) {
    const answer = await ask(`/submissions?${query}`, asking);
    if (!answer.value) return answer;
    rows.push(...answer.value.submissions.filter(isWanted));
    const { before } = answer.value;
    if (before === 0 || rows.length >= ENOUGH || turn >= questions) {
      return { value: { before, submissions: rows } };
    }
    query.set("before", before);
  }
}

/** The submissions for a path, as many as one question finds. */
export const submissionsFor = (path) => submissions({ path }, { questions: 1, quiet: true });

/** The date that says most of a proposal: when it was decided, or made; null where neither is. */
function dateWords({ num, state }, dates) {
  const decided = state === "pending" ? undefined : dates?.decided(num);
  const proposed = dates?.proposed(num);
  if (decided) return [" ", when(decided)];
  return proposed ? [" proposed ", when(proposed)] : null;
}

/** The rows of submissions with their dates. */
export async function submissionList(rows, shared = {}, isNews = () => false) {
  const dates = await datesOf(rows.map((it) => it.num));
  return el("ol", { class: "items" }, rows.map((it) => submissionRow(it, shared, isNews(it), dates)));
}

/**
 * The row of a submission. What all rows of a list share isn't said.
 * @param {Object} it the submission, as /submissions has it
 * @param {Object} [shared] path, author
 * @param {boolean} [isNews] whether it was decided since it was seen last
 * @param {Object} [dates] as of `datesOf`
 */
function submissionRow(it, shared, isNews, dates) {
  const by = it.decider && it.state !== "withdrawn" ? ` by ${it.decider}` : "";
  return el("li", {}, el("a", { href: `/proposals/${it.num}` },
    el("code", {}, `#${it.num}`), " ", wishOf(it.name), " ",
    el("small", {},
      shared.path ? null : [el("code", {}, spoken(it.path)), " "],
      shared.author ? null : `by ${it.author} `,
      stateMark(it.state, by), isNews ? " (new)" : null, dateWords(it, dates),
      it.remarks ? ` ${several(it.remarks, "comment")}` : null,
      it.reason ? [": ", shown(it.reason)] : null)));
}

/** A link to the page with those before these, or null at the end. */
export function olderLink(address, which, before) {
  const given = Object.entries({ ...which, before }).filter(([, value]) => value);
  const href = `${address}?${new URLSearchParams(given)}`;
  return before ? el("p", {}, el("a", { class: "button", href }, "Older ones")) : null;
}
