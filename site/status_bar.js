// The bar at the foot of the window: commands whose outcome isn't known, how their tries stand, and
// what came of those whose page was left meanwhile. It lies over the page, so that nothing shifts
// when it comes and goes.

import { account, watchAccount } from "./account.js";
import { isTooSoon, deliberateButton } from "./deliberate_button.js";
import { el, fill, link } from "./dom.js";
import { askToLogIn } from "./login.js";
import { tell } from "./notice.js";
import { bytesOf } from "./reader.js";
import { watchPages } from "./router.js";
import { spelled } from "./safe_text.js";
import {
  bringFile, forget, isWorking, keysAtWork, leave, owed, settle, stateOf, wantsFile, watchOutbox,
} from "./sending/queue.js";
import { answerWords, troubleWords } from "./words.js";

const LOOKS_EVERY = 1_000;
// What is answered at once isn't told of.
const TOLD_AFTER = 1_000;
const place = document.getElementById("owed");
const reports = [];          // { about, answer }
const rows = new Map();      // what is shown, by the keys of entries
let turn = 0;
let changedAt = -Infinity;
let lastTop = innerHeight;   // where the bar begins
let touched = innerHeight;   // from where on something changed

/** Tells what came of a command whose page isn't shown any more. */
export function report(entry, answer) {
  if (answer.trouble === "left") return;
  reports.push({ about: entry.about, answer });
  drawBar();
}

function outcomeWords(answer) {
  const { num } = answer.value ?? {};
  if (num) return ["done, as ", link(`/proposals/${num}`, `proposal ${num}`), "."];
  return answer.value ? "done." : answerWords(answer);
}

function reportRow(it) {
  const close = () => { reports.splice(reports.indexOf(it), 1); drawBar(); };
  return el("p", { role: "status" }, el("b", {}, spelled(it.about)), ": ",
    outcomeWords(it.answer), " ", deliberateButton({ class: "small", onclick: close }, "Close"));
}

async function askAgain(entry) {
  if (entry.account && !(await askToLogIn(`It was sent as ${entry.account}.`))) return;
  const answer = await settle(entry);
  if (answer.trouble === "elsewhere") tell("Another tab is sending it.", 4);
  else report(entry, answer);
}

function forgetIt(entry) {
  forget(entry.key);
  tell("It isn't sent again. A try that was under way may have been done all the same.", 8);
}

function fileBox(entry) {
  const box = el("input", { type: "file", id: `again-${entry.key}` });
  box.addEventListener("change", async () => {
    if (!box.files[0]) return;
    const bytes = await bytesOf(box.files[0]).catch(() => new Uint8Array());
    if (await bringFile(entry, bytes)) askAgain(entry);
    else tell("That is another file than the one that was sent.", 6);
  });
  return [el("label", { for: box.id }, "Choose the same file again to ask:"), " ", box, " "];
}

const small = (onclick, words) => [deliberateButton({ class: "small", onclick }, words), " "];
const forgets = (entry) => small(() => forgetIt(entry), "Forget it");

function triedWords(key) {
  const state = stateOf(key);
  if (!state) return "it is being sent.";
  const when = state.wait < 1_000 ? "a moment" : `${Math.round(state.wait / 1_000)} s`;
  return `${troubleWords(state.trouble)} It isn't known yet whether this was done. It is sent again`
    + ` in ${when}, and however often it is sent, it acts once.`;
}

// How it stands with a command: what is said of it, and what a person can do about it.
const STANDS = {
  held: {
    words: () => "it is sent in a moment.",
    ways: ({ key }) => [small(() => stateOf(key)?.undo(), "Undo"),
      small(() => stateOf(key)?.now(), "Send now")],
  },
  tried: {
    words: ({ key }) => triedWords(key),
    ways: ({ key }) => [small(() => stateOf(key)?.now(), "Send now"),
      small(() => leave(key), "Leave it for later")],
  },
  elsewhere: { words: () => "another tab is sending it.", ways: forgets },
  other: {
    words: ({ account: by }) => `no answer came. Log in as ${by} to ask again.`, ways: forgets,
  },
  file: {
    words: () => "no answer came, so it isn't known whether it was done.",
    ways: (entry) => [fileBox(entry), forgets(entry)],
  },
  owed: {
    words: () => "no answer came, so it isn't known whether it was done.",
    ways: (entry) => [small(() => askAgain(entry), "Ask again"), forgets(entry)],
  },
};

function standOf(entry, atWork) {
  if (stateOf(entry.key)?.undo) return "held";
  if (isWorking(entry.key)) return "tried";
  if (atWork.has(entry.key)) return "elsewhere";
  if (entry.account && account() !== null && account() !== entry.account) return "other";
  return wantsFile(entry) ? "file" : "owed";
}

/** The row of an entry. Its buttons stay the same while it stands the same. */
class Row {
  constructor(entry) {
    this.entry = entry;
    this.words = el("span", { role: "status" });
    this.ways = el("span");
    const by = entry.account ? `, by ${entry.account}: ` : ": ";
    this.element = el("p", {}, el("b", {}, spelled(entry.about)), by, this.words, " ", this.ways);
  }

  show(stand) {
    // What is said between two tries stays for the next try: the row keeps its height.
    const isTry = this.stand === "tried" && stand === "tried" && !stateOf(this.entry.key);
    const words = isTry ? this.words.textContent : STANDS[stand].words(this.entry);
    if (this.words.textContent !== words) this.words.textContent = words;
    if (this.stand === stand) return;
    this.stand = stand;
    fill(this.ways, STANDS[stand].ways(this.entry));
  }
}

// The first moment of a command isn't worth a word.
const isYoung = (entry) => isWorking(entry.key) && !stateOf(entry.key)
  && !rows.has(entry.key) && Math.abs(Date.now() - entry.at) < TOLD_AFTER;

// What can be taken back where it was done isn't told of here.
const isHeldThere = ({ key }) => stateOf(key)?.isShown?.();

// Draws it anew, where something in it has changed.
async function drawBar() {
  const mine = turn += 1;
  const atWork = await keysAtWork();
  if (mine !== turn) return;
  const entries = owed().filter((it) => !isYoung(it) && !isHeldThere(it));
  const { offsetHeight: height } = place;
  const now = [...reports, ...entries].map((it) => {
    const key = it.key ?? it;
    if (!rows.has(key)) rows.set(key, it.key ? new Row(it) : { element: reportRow(it) });
    rows.get(key).show?.(standOf(it, atWork));
    return rows.get(key).element;
  });
  const isOther = now.length !== place.childElementCount
    || now.some((it, at) => it !== place.children[at]);
  place.hidden = now.length === 0;
  if (isOther) keepOnly(place, now);
  if (isOther || place.offsetHeight !== height) settleDown();
  for (const [key, { element }] of rows) if (!now.includes(element)) rows.delete(key);
}

// Moves nothing that is there already: the focus stays. Where what had it goes, it goes on.
function keepOnly(parent, children) {
  const hadFocus = parent.contains(document.activeElement);
  for (const it of [...parent.children]) if (!children.includes(it)) it.remove();
  children.forEach((it, at) => {
    if (parent.children[at] !== it) parent.insertBefore(it, parent.children[at] ?? null);
  });
  if (!hadFocus || parent.contains(document.activeElement)) return;
  (parent.querySelector("button") ?? document.querySelector("main h1"))?.focus();
}

function settleDown() {
  changedAt = performance.now();
  const top = place.hidden ? innerHeight : place.getBoundingClientRect().top;
  touched = Math.min(top, lastTop);
  lastTop = top;
  document.documentElement.style.setProperty("--bar", `${place.offsetHeight}px`);
}

// A click that was meant for the bar as it was falls neither through to what it lay over nor onto
// another of its buttons. A key (detail 0) is meant for what has the focus.
function refuseFallen(event) {
  if (!isTooSoon(changedAt) || event.detail === 0 || event.clientY < touched) return;
  event.preventDefault();
  event.stopPropagation();
}

addEventListener("click", refuseFallen, { capture: true });
watchOutbox(drawBar);
watchAccount(drawBar);
watchPages(drawBar);
drawBar();
// What went out with its page is asked for once more: it acts once.
for (const entry of owed().filter((it) => it.isGoing && it.account === account())) {
  settle(entry).then((answer) => { if (!answer.value) report(entry, answer); });
}
// No event tells that another tab was closed while it was sending.
setInterval(() => { if (!document.hidden && owed().length) drawBar(); }, LOOKS_EVERY);
