import {
  account, authorization, learnRank, maySuffice, NONE, rank, rankOf, send,
} from "../account.js";
import { request } from "../api.js";
import { deliberateButton } from "../deliberate_button.js";
import { el, fill, link } from "../dom.js";
import { tell } from "../notice.js";
import { carryOut, faultWords } from "../sending/command.js";
import { SentForm } from "../sending/form.js";
import { submissions } from "../submissions.js";
import { title } from "../widgets.js";
import { answerWords, oneOf, RANKS } from "../words.js";

const SENIOR = 2;
const PAGE = 50;

// A blank keeps the place of what comes late.
const BLANK = "\u00a0";

function rankWords(name, rank) {
  if (rank === null) return BLANK;
  return rank === NONE ? `${name} is no account yet.` : `${name} is ${oneOf(rank)}.`;
}

// What came of the proposals of an account: of its latest ones, where there are many.
async function recordOf(author, place) {
  const { value } = await submissions({ author }, { questions: 1, quiet: true });
  if (!value) return;
  const counts = new Map();
  for (const { state } of value.submissions) counts.set(state, (counts.get(state) ?? 0) + 1);
  const words = [...counts].map(([state, count]) => `${count} ${state}`);
  fill(place, ", ", words.length ? words.join(", ") : "no proposals",
    value.before ? ` of the latest ${value.submissions.length}` : null);
}

// Locks an account or lets it in again. Done twice it is done once, so nothing is kept of it.
function lockButton(it, place, draw) {
  const path = it.state === "locked" ? "/unlock" : "/lock";
  const press = async () => {
    const answer = await send(path, authorization(), { who: it.account });
    if (answer.value) draw({ ...it, state: path === "/lock" ? "locked" : "open" });
    else fill(place, faultWords(answerWords(answer)));
  };
  return deliberateButton({ class: "small", onclick: press },
    `${path === "/lock" ? "Lock" : "Unlock"} ${it.account}`);
}

function standing({ account: name, rank: its, since, state }) {
  const words = its === null ? BLANK : RANKS[its] ?? "no account of the registry";
  return [words, since ? `, joined ${since}` : null,
    state === "open" ? null : [", ", el("b", {}, state), ": its ",
      link(`/queue?author=${name}`, "pending proposals")]];
}

// Nobody locks themselves, or an account of a higher rank.
const mayLock = (it) => it.state !== "left" && it.account !== account()
  && it.rank !== null && it.rank <= rank();

function accountRow(first) {
  const element = el("li");
  const record = el("span");
  const place = el("span");
  const draw = (it) => fill(element,
    el("span", {}, link(`/decided?author=${it.account}`, it.account), " ",
      el("small", {}, standing(it), record)),
    el("span", {}, mayLock(it) ? lockButton(it, place, draw) : null, place));
  draw({ ...first, rank: null });
  rankOf(first.account).then((its) => draw({ ...first, rank: its }));
  recordOf(first.account, record);
  return element;
}

function rowsOf(accounts) {
  const rest = accounts.slice(PAGE);
  const next = () => button.replaceWith(...rowsOf(rest));
  const button = rest.length ? el("button", { type: "button", onclick: next }, "More") : "";
  return [el("ul", { class: "accounts" }, accounts.slice(0, PAGE).map(accountRow)), button];
}

async function listed(place) {
  const headers = authorization();
  const answer = await request("GET", "/accounts", { headers, isOurs: true });
  fill(place, answer.value ? rowsOf(answer.value.accounts) : faultWords(answerWords(answer)));
}

function rankForm() {
  const place = el("div", { class: "said" });
  const who = el("input", {
    id: "who-name", required: true, pattern: "[a-z0-9\\-]{1,32}", autocomplete: "off",
    autocapitalize: "off", spellcheck: "false", title: "1 to 32 of a to z, 0 to 9 and -",
    onchange: () => look(),
  });
  const today = el("p", { class: "aside", role: "status" }, BLANK);
  const look = async () => {
    const name = who.value;
    const its = who.validity.valid ? await rankOf(name) : null;
    if (who.value === name) fill(today, rankWords(name, its));
  };
  const ranks = el("select", { id: "who-rank" },
    RANKS.map((word, value) => el("option", { value }, word)));
  const button = deliberateButton({ class: "main" }, "Set");
  const submit = async (event) => {
    event.preventDefault();
    const name = who.value, its = oneOf(ranks.value);
    const answer = await carryOut({
      route: "/account", fields: { who: name, rank: ranks.value },
      about: `Make ${name} ${its}`, button, place, why: "This is for administrators.", sent,
    });
    if (answer?.value) tell(`${name} is ${its} now.`, 5);
    look();
  };
  const form = el("form", { onsubmit: submit },
    el("p", {}, el("label", { for: "who-name" }, "Account"), who), today,
    el("p", {}, el("label", { for: "who-rank" }, "Rank"), ranks),
    el("p", { class: "buttons" }, button), place);
  const sent = new SentForm(form, place);
  look();
  return form;
}

/** The accounts that have a password, for senior moderators; their ranks, for administrators. */
export default async function people() {
  const list = el("div");
  if (account()) await learnRank();
  if (account() && maySuffice(SENIOR)) await listed(list);
  return [
    title("Accounts"),
    el("p", {}, "An administrator gives an account its rank, and makes it where it is new: its"
      + " password is set on the server then. Whoever has joined under a name has it: look at the"
      + " day before you give a rank."),
    rankForm(), list,
  ];
}
