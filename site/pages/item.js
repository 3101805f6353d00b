// An item: its name, its line in the file, what lspci shows, what is below it, what was proposed.

import { ask } from "../api.js";
import { el, fill, link, several } from "../dom.js";
import { feedLine } from "../feeds.js";
import { cause, exactly, restoreLink, when } from "../happened.js";
import { index, namesOf } from "../history.js";
import { itemList } from "../lists.js";
import * as names from "../names.js";
import {
  BELOW, KIND_WORDS, lineOf, lookupOf, parse, rankFor, wholeNumber, withParents,
} from "../paths.js";
import { shown } from "../safe_text.js";
import { correct, orCopy } from "../sooner.js";
import { submissionList, submissionsFor } from "../submissions.js";
import { copyButton, copyWords, crumbs, failed, kindOf, title } from "../widgets.js";
import { RANKS } from "../words.js";

const MANY = {
  vendor: "Devices", device: "Subsystems", class: "Subclasses", subclass: "Programming interfaces",
};
const SHORT_WAIT = 150;
const LATER = "\u00a0";

// On a phone what one came for is what is below the item.
const isFolded = (path) => BELOW[parse(path).kind].length > 0
  && matchMedia("(max-width: 40rem)").matches;
const MOST_PROPOSALS = 10;

/** The item as the registry has it, or as the file does: { answer, known, below, isCopy }. */
async function found(path, chain) {
  const hasBelow = BELOW[parse(path).kind].length > 0;
  const [children, ...answers] = await Promise.all([
    hasBelow ? ask(`/children?of=${path}`) : { value: [] },
    ...chain.map((it) => ask(`/read/${it}`)),
  ]);
  const own = answers.at(-1);
  const silent = [own, children].find((it) => it.trouble);
  if (silent && !own.refusal) return (await foundInFile(path, chain)) ?? { answer: silent };
  const known = new Map(chain.map((it, at) => [it, answers[at].value?.name]));
  return { answer: own, known, below: children.value ?? [] };
}

async function foundInFile(path, chain) {
  const [known, below] = await Promise.all([names.namesAt(chain), names.childrenOf(path)]);
  return known.has(path) ? { known, below, isCopy: true, answer: { value: true } } : null;
}

/** The page of an item. */
export default async function item({ path, again }) {
  if (!parse(path)) return failed({ refusal: { refused: 1 } });
  const chain = withParents(path);
  const asked = found(path, chain);
  const first = await orCopy(asked, () => foundInFile(path, chain));
  return first.isFirst ? fromFile(path, first, asked, again) : asFound(path, first, again);
}

/** As the registry answered, or as the file has it since it didn't. */
async function asFound(path, it, again) {
  const { answer, known, isCopy } = it;
  if (answer.refusal?.refused === 25) return absent(path, known);
  if (!answer.value) return failed(answer, again);
  const history = el("div", { class: "history" });
  // Waited for a moment, so that it comes with the page.
  const wait = new Promise((go) => { setTimeout(go, SHORT_WAIT); });
  const [text] = await Promise.all([
    isCopy ? undefined : lspciText(path),
    isCopy ? null : Promise.race([showHistory(path, history), wait]),
  ]);
  if (!isCopy && !history.firstChild) fill(history, historyPlace());
  return parts(path, it, facts(path, known.get(path), text), history);
}

/** As the file has it, until the registry answers. What that adds finds its room. */
function fromFile(path, first, asked, again) {
  const history = el("div", { class: "history" }, historyPlace());
  const own = facts(path, first.known.get(path), lookupOf(path) ? LATER : null);
  const place = el("div", {}, parts(path, { ...first, isCopy: false }, own, history));
  const asText = ({ known, below }) => JSON.stringify([[...known], below]);
  correct(place, asked, async (it) => {
    if (!it.answer.value || asText(it) !== asText(first)) return asFound(path, it, again);
    own.replaceWith(facts(path, first.known.get(path), await lspciText(path)));
    return null;
  });
  showHistory(path, history);
  return place;
}

function parts(path, { known, below, isCopy }, own, history) {
  return [
    crumbs(path, (it) => known.get(it)),
    heading(path, known),
    isCopy ? copyWords() : null,
    own,
    actions(path),
    isFolded(path) ? el("details", {}, el("summary", {}, "Proposals and history"), history)
      : history,
    lists(path, below),
    withParents(path).length === 1 ? follow(path) : null,
  ];
}

// The last of the page: nothing shifts.
function follow(path) {
  const place = el("div");
  feedLine(path, `What changed of ${wholeNumber(path)}`).then((it) => fill(place, it));
  return place;
}

function heading(path, known) {
  const above = withParents(path).slice(0, -1).map((it) => known.get(it)).filter(Boolean);
  const text = [`${wholeNumber(path)} ${known.get(path)}`, ...above.reverse()].join(" · ");
  return title(text, shown(known.get(path)));
}

/** What lspci shows: null where it shows nothing of its own, undefined where it isn't known. */
async function lspciText(path) {
  const query = lookupOf(path);
  if (!query) return null;
  const { value } = await ask(`/lookup?${query}`);
  return value === undefined ? undefined : String(value);
}

function facts(path, name, text) {
  const line = lineOf(path, name);
  return el("dl", { class: "facts" },
    el("dt", {}, "Kind"), el("dd", {}, kindOf(path)),
    el("dt", {}, "Path"), el("dd", {}, el("code", {}, path)),
    el("dt", {}, "In pci.ids"),
    el("dd", { class: "line" }, el("pre", {}, /^\t*/.exec(line)[0], shown(line.trimStart())),
      copyButton(line)),
    text ? [el("dt", {}, el("code", {}, "lspci -nn"), " shows"),
      el("dd", {}, el("pre", {}, shown(text)))] : null);
}

function actions(path) {
  const { kind } = parse(path);
  const button = (query, words) => el("a", { class: "button", href: `/propose?${query}` }, words);
  return el("details", { open: !isFolded(path) }, el("summary", {}, "Propose a change"),
    el("p", { class: "buttons" },
      button(`path=${path}`, "Propose another name"),
      button(`path=${path}&remove=yes`, "Propose its removal"),
      BELOW[kind].map((it) => button(`under=${path}&kind=${it}`,
        `Propose a ${KIND_WORDS[it].toLowerCase()}`))),
    el("p", { class: "aside" }, rankFor(path, false) === 2
      ? `A ${RANKS[2]} or above decides on names of this kind and on removals.`
      : `A ${RANKS[1]} or above decides on names of this kind,`
        + ` a ${RANKS[2]} or above on removals.`));
}

function lists(path, below) {
  const { kind } = parse(path);
  const generic = below.filter((it) => it.path.startsWith("PS/"));
  const direct = below.filter((it) => !it.path.startsWith("PS/"));
  const section = (words, items) => el("section", {}, el("h2", {}, words),
    itemList(items, words.toLowerCase()));
  return [
    MANY[kind] ? section(MANY[kind], direct) : null,
    generic.length ? section("Generic subsystems", generic) : null,
  ];
}

async function absent(path, known) {
  const history = el("div", { class: "history" });
  const [rows] = await Promise.all([namesOf(path), showHistory(path, history, false)]);
  const last = rows?.findLast((it) => it.was !== null);
  return [
    crumbs(path, (it) => known.get(it)),
    title(`${wholeNumber(path)} has no name`, el("code", {}, wholeNumber(path)), " has no name"),
    last ? el("p", {}, "It was called ", shown(last.was), " and was removed ", when(last.time), ".")
      : el("p", {}, "The registry has no entry for ", el("code", {}, path), "."),
    el("p", { class: "buttons" },
      last ? restoreLink(path, last.was, "Restore the former name") : null,
      el("a", { class: "button", href: `/propose?path=${path}` }, "Propose a name")),
    history,
  ];
}

const historyHeading = () => el("h2", {}, "Proposals and history");

// What comes later finds its room.
const later = () => el("div", { class: "said" });
const historyPlace = () => [historyHeading(), later(), later()];

// What it was called when, and what was proposed for this path: together, or each in its room.
async function showHistory(path, place, isThere = true) {
  const show = (at, nodes) => {
    const room = place.querySelectorAll(":scope > .said")[at];
    if (room && !room.firstChild) fill(room, nodes);
    return Boolean(room);
  };
  const past = Promise.all([namesOf(path), index()]).then(([rows, known]) => ({
    since: sinceWords(rows, known), names: rows?.length ? namesList(path, rows, isThere) : null,
  }));
  past.then(({ since, names }) => show(0, folded(since, names)));
  const { list, words } = await proposals(path, (await submissionsFor(path)).value);
  const { since, names } = await past;
  if (show(0, folded(since, names)) && show(1, folded(words, list))) return;
  if (list || names || isThere) {
    fill(place, historyHeading(), isThere ? el("p", { class: "aside" }, since) : null, names,
      list ?? el("p", { class: "aside" }, words));
  }
}

// What is long is opened by a click where it came late: nothing below it shifts.
const folded = (words, list) => (list ? el("details", {}, el("summary", {}, words), list) : words);

/** The names that an item had, the last first, each with its dates. */
function namesList(path, rows, isThere) {
  const row = (it, at) => {
    const next = rows[at + 1];
    const isNow = isThere && !next;
    return el("li", {}, el("p", {}, it.now === null ? el("em", {}, "removed") : shown(it.now), " ",
      el("small", {}, when(it.time), ", ", cause(it)), " ",
      it.now === null || isNow ? null : restoreLink(path, it.now)));
  };
  const first = rows[0].was === null ? null : el("li", {}, el("p", {}, shown(rows[0].was), " ",
    el("small", {}, `before ${exactly(rows[0].time)}`), " ", restoreLink(path, rows[0].was)));
  return el("ol", { class: "items changes" }, rows.map(row).reverse(), first);
}

/** The proposals for a path as { list, words }; without a list where there are none. */
async function proposals(path, page) {
  if (!page) return { words: "The proposals aren't known at the moment." };
  const { before, submissions: all } = page;
  const isMore = before > 0 || all.length > MOST_PROPOSALS;
  if (all.length === 0 && !isMore) return { words: "No proposals." };
  const rows = await submissionList(all.slice(0, MOST_PROPOSALS), { path });
  const more = link(`/decided?path=${path}`, "All proposals for this number");
  return {
    words: isMore ? "Proposals" : several(all.length, "proposal"),
    list: [rows, isMore ? el("p", {}, more) : null],
  };
}

function sinceWords(rows, known) {
  const last = rows?.at(-1);
  if (last) return ["It has its name since ", when(last.time), ", ", cause(last), "."];
  if (!rows || !known) return "It isn't known since when it has its name.";
  return `It had its name before ${exactly(known.began)}, when the history begins.`;
}
