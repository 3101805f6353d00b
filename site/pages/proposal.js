// A proposal: what it proposes, its comments, and deciding on it.

import { account, learnRank, maySuffice } from "../account.js";
import { ask } from "../api.js";
import { deliberateButton } from "../deliberate_button.js";
import { counted, el, fill, link } from "../dom.js";
import { restoreLink, when } from "../happened.js";
import { changesOf, datesOf, topOf } from "../history.js";
import { MOST_TEXT } from "../limits.js";
import { learnName } from "../names.js";
import { tell } from "../notice.js";
import { rankFor, spoken, wholeNumber, withParents } from "../paths.js";
import { noteReason, readyReasons } from "../reasons.js";
import { latestRemarks, REMARKS, remarksAfter, standing } from "../remarks.js";
import { compared, shown } from "../safe_text.js";
import { carryOut, faultWords } from "../sending/command.js";
import { draftOf } from "../sending/draft.js";
import { dropSent, SentForm } from "../sending/form.js";
import { changedSince, changedWords } from "../stale.js";
import { chainOf, failed, kindOf, oneParagraph, stateMark, title, wishOf } from "../widgets.js";
import { answerWords, RANKS, refusalWords, STATES } from "../words.js";
import { textFault } from "./proposing.js";

/** The refusals of what isn't as it was shown: a proposal that is decided, a name that changed. */
export const DECIDED = 8;
export const CHANGED = 30;
const NEEDS_ACCOUNT = "Decisions are made under an account.";

/** The page of a proposal. */
export default async function proposal({ number, again }) {
  const [answer, dates] = await Promise.all([
    latestRemarks(number), datesOf([Number(number)]), learnRank()]);
  if (!answer.value) return failed(answer, again);
  const it = answer.value;
  const chain = withParents(it.path);
  const [since, changes, ...answers] = await Promise.all([
    changedSince(it), it.state === "approved" ? changesOf(topOf(it.path)) : null,
    ...chain.map((path) => ask(`/read/${path}`)),
  ]);
  const change = changes?.findLast((one) => one.num === it.num && one.path === it.path);
  const names = new Map(chain.map((path, at) => [path, answers[at].value?.name]));
  const own = answers.at(-1);
  // Nobody decides without having seen what it is called now.
  if (own.trouble) return failed(own, again);
  const isIdle = it.name === null ? own.refusal !== undefined : own.value?.name === it.name;
  // Said once the page is there: what is said while it loads takes the place of what was.
  const done = async (words, seconds = 4) => {
    await again();
    tell(words, seconds);
  };
  const text = `Proposal ${it.num}: ${it.name === null ? "remove" : it.name} · ${spoken(it.path)}`;
  return [
    title(text, `Proposal ${it.num} `, stateMark(it.state)),
    facts(it, names, { since, dates, change }),
    it.state === "pending" ? decisions(it, names.get(it.path), isIdle, done) : unsent(it),
    el("section", {}, el("h2", {}, "Comments"), remarks(it), commentForm(it, done)),
  ];
}

const dated = (time) => (time ? [", ", when(time)] : null);

function facts(it, names, { since, dates, change }) {
  const now = names.get(it.path);
  const isRename = it.state === "pending" && it.name !== null && now !== undefined;
  const [was, wish] = isRename ? compared(now, it.name) : [now && shown(now), wishOf(it.name)];
  const row = (word, ...value) => [el("dt", {}, word), el("dd", {}, ...value)];
  const isDecided = it.state === "approved" || it.state === "rejected";
  return el("dl", { class: "facts" },
    row(kindOf(it.path), chainOf(it.path, (path) => names.get(path)),
      now === undefined ? null : [" ", el("code", {}, wholeNumber(it.path))]),
    it.state === "pending" && was ? row("Now", el("del", {}, was)) : null,
    row(it.name === null ? "Removal" : "Name", el("ins", { class: "proposed" }, wish)),
    changedWords(since).map((words) => row(...words)),
    change?.was ? row("Before", el("del", {}, shown(change.was)), " ",
      restoreLink(it.path, change.was, "Restore the former name")) : null,
    row("By", link(`/decided?author=${it.author}`, it.author), dated(dates.proposed(it.num))),
    row("Note", it.note === "" ? "–" : shown(it.note)),
    isDecided ? row(STATES[it.state], `by ${it.decider}`, dated(dates.decided(it.num))) : null,
    it.reason ? row("Reason", shown(it.reason)) : null);
}

// A reason that was begun when somebody else decided isn't lost.
function unsent(it) {
  const draft = draftOf(...reasonPlace(it));
  if (!hasReason(it) || draft.key()) return null;
  const { reason } = draft.read();
  return el("p", { class: "aside" }, "The reason that you wrote wasn't sent: ", shown(reason));
}

// Anybody with an account may comment, as often as they like: the page begins with the latest, and
// gets earlier ones when somebody asks.
function remarks(it) {
  if (it.count === 0) return el("p", { class: "none" }, "None yet.");
  const list = el("ol", { class: "remarks" });
  const words = el("span", {});
  const place = el("span", { class: "said" });
  const button = el("button", { type: "button" }, "Show earlier ones");
  const line = el("p", {}, words, button, " ", place);
  const show = (rows) => {
    list.prepend(...rows.map(remarkRow));
    list.start = rows[0].place;
    line.hidden = list.start === 1;
    fill(words, `The latest ${counted(it.count - list.start + 1)} of ${counted(it.count)}. `);
  };
  button.onclick = async () => {
    const { start } = list;
    button.disabled = true;
    const answer = await remarksAfter(it.num, Math.max(0, start - 1 - REMARKS));
    button.disabled = false;
    fill(place, answer.value ? null : answerWords(answer));
    if (answer.value) show(answer.value.remarks.filter((remark) => remark.place < start));
  };
  show(it.remarks);
  return [line, list];
}

const remarkRow = ({ author, text }) => el("li", {},
  el("b", {}, author), el("p", { class: "words" }, shown(text)));

function commentForm(it, done) {
  const place = el("div", { class: "said" });
  const text = el("textarea", {
    id: "comment", rows: 3, required: true, "aria-describedby": "comment-hint",
  });
  const button = deliberateButton({ class: "main" }, "Comment");
  const submit = async (event) => {
    event.preventDefault();
    const words = oneParagraph(text.value);
    const fault = words ? textFault("A comment", words) : "There is nothing in it.";
    if (fault) { fill(place, faultWords(fault)); return; }
    const answer = await carryOut({
      route: "/comment", fields: { num: it.num, text: words }, about: `Comment on ${it.num}`,
      button, place, why: "Comments are made under an account.", sent,
    });
    if (answer?.value) done("Your comment is there.");
  };
  const form = el("form", { onsubmit: submit },
    el("label", { for: "comment" }, "Your comment"), text,
    el("small", { id: "comment-hint" },
      "One paragraph: line breaks become spaces. Everybody can read it, and it stays."),
    el("p", { class: "buttons" }, button), place);
  const sent = new SentForm(form, place, "comment");
  return form;
}

// What an author may do, and what others may.
function decisions(it, now, isIdle, done) {
  const needed = rankFor(it.path, it.name === null);
  if (!account()) {
    return el("p", { class: "aside" }, `Log in to comment, to withdraw your own, or, as a`
      + ` ${RANKS[needed]} or above, to decide.`);
  }
  if (account() === it.author) return withdrawal(it, done);
  if (!maySuffice(needed)) {
    return el("p", { class: "aside" }, `A ${RANKS[needed]} or above decides on this.`);
  }
  return decision(it, now, isIdle, done);
}

function withdrawal(it, done) {
  const place = el("div", { class: "said" });
  const onclick = async () => {
    const answer = await carryOut({
      route: "/withdraw", fields: { num: it.num }, about: `Withdraw ${it.num}`, button, place,
    });
    conclude(it, answer, "Withdrawn.", done);
  };
  const button = deliberateButton({ onclick }, "Withdraw");
  return el("div", { class: "decide" }, el("p", { class: "buttons" }, button), place);
}

/** Whether a decision is that of who is logged in. */
export const hasOwnDecision = ({ decider }) => account() !== null && decider === account();

/** Said of a decision that was made before by who makes it again. */
export const OWN_DECISION = "You decided on it already, perhaps in another tab.";

// Where the page isn't as things are by now it is made anew, and the words stay at its foot.
async function conclude(it, answer, words, done) {
  const { refusal } = answer ?? {};
  if (answer?.value) done(words);
  else if (refusal && [DECIDED, CHANGED].includes(refusal.refused)) {
    const { value } = await standing(it.num);
    done(value && hasOwnDecision(value) ? OWN_DECISION : refusalWords(refusal), 0);
  }
}

const deciding = new Set();

/**
 * Sends a decision, one at a time on each proposal, and returns its answer.
 * @param {Object} it the proposal
 * @param {Object} command
 * @param {function(function())} [begun] for one that can be taken back for a while: is called with
 *   what takes it back
 */
export async function decide(it, command, begun) {
  if (deciding.has(it.num)) return null;
  deciding.add(it.num);
  const words = command.route === "/confirm" ? "Approved" : "Rejected";
  const grace = begun ? { words, begun } : null;
  const answer = await carryOut({ ...command, grace, why: NEEDS_ACCOUNT })
    .finally(() => deciding.delete(it.num));
  if (answer?.value && command.fields.reason) noteReason(command.fields.reason);
  if (answer?.value && command.route === "/confirm") learnName(it.path, it.name);
  return answer;
}

/** The command that approves, while the item is called as it is shown; undefined is no name. */
export const approvalOf = (it, now, button) => ({
  route: "/confirm",
  fields: { num: it.num, was: now ?? "" },
  about: it.name === null ? `Approve ${it.num}: remove ${spoken(it.path)}`
    : `Approve ${it.num}: “${it.name}” for ${spoken(it.path)}`,
  button,
});

const reasonPlace = (it) => ["reason", `/proposals/${it.num}`];

/** Whether a reason was begun for a proposal, or sent without an answer. */
export function hasReason(it) {
  dropSent(...reasonPlace(it));
  return Boolean(draftOf(...reasonPlace(it)).read()?.reason);
}

/** The form of a reason, whose draft is the same in the queue and on the proposal's page. */
export function rejection(it, place, onsubmit) {
  const reason = el("input", {
    id: `reason-${it.num}`, name: "reason", required: true, maxlength: MOST_TEXT,
    autocomplete: "off",
  });
  const reject = deliberateButton({}, "Reject");
  const form = el("form", {
    class: "reject", onsubmit: (event) => { event.preventDefault(); onsubmit(); },
  }, el("label", { for: reason.id }, "Reason"), reason, readyReasons(reason), reject);
  const sent = new SentForm(form, place, ...reasonPlace(it));
  return { form, reason, reject, sent };
}

/** The command that rejects, or null where there is no reason. */
export function rejectionOf(it, { reason, reject, sent }, place) {
  const words = oneParagraph(reason.value);
  const fault = textFault("A reason", words);
  if (fault) {
    fill(place, faultWords(fault));
    return null;
  }
  return words === "" ? null : {
    route: "/reject", fields: { num: it.num, reason: words }, about: `Reject ${it.num}`,
    button: reject, place, sent,
  };
}

function decision(it, now, isIdle, done) {
  const place = el("div", { class: "said" });
  const onclick = async () => {
    const answer = await decide(it, { ...approvalOf(it, now, approve), place }, begun);
    conclude(it, answer, `${it.num} is approved.`, done);
  };
  // Who decided by a key takes it back by one.
  const begun = () => place.querySelector("button")?.focus();
  const approve = deliberateButton({ class: "main", onclick }, "Approve");
  const no = rejection(it, place, async () => {
    const command = rejectionOf(it, no, place);
    if (command) conclude(it, await decide(it, command, begun), `${it.num} is rejected.`, done);
  });
  return el("div", { class: "decide" },
    isIdle ? faultWords("Nothing would change: it is so already.") : null,
    el("p", { class: "buttons" }, approve), no.form, place);
}
