// What changed: the latest, of a vendor or class, on a day, in a month.

import { counted, el, link, several } from "../dom.js";
import { feedLine } from "../feeds.js";
import { changeList, countWords, kindOfChange } from "../happened.js";
import { changesOf, changesOn, index, latest, month } from "../history.js";
import { hrefOf, wholeNumber } from "../paths.js";
import { shown } from "../safe_text.js";
import { failed, title } from "../widgets.js";

const MOST = 500;
const MOST_NAMED = 30;
const KINDS = ["added", "renamed", "removed"];

/** The vendor or class that somebody wrote: 8086, or 01. */
function topIn(text) {
  const digits = (text ?? "").trim().toLowerCase();
  if (/^[0-9a-f]{4}$/.test(digits)) return `PC/${digits}`;
  return /^[0-9a-f]{2}$/.test(digits) ? `PD/${digits}` : null;
}

function filters(query) {
  const kind = query.get("kind");
  const option = (value, words) => el("option", { value, selected: value === kind }, words);
  const field = (name, words, box) => el("p", {}, el("label", { for: name }, words), box);
  return el("form", { class: "filters", action: "/recent" },
    field("of", "Vendor or class", el("input", {
      id: "of", name: "of", class: "hex", size: 6, maxlength: 4, value: query.get("of") ?? "",
      placeholder: "8086", autocomplete: "off", spellcheck: "false",
    })),
    field("kind", "Kind", el("select", { id: "kind", name: "kind" }, option("", "all"),
      KINDS.map((it) => option(it, it)))),
    el("button", { class: "beside" }, "Show"));
}

const fitting = (rows, kind) => (KINDS.includes(kind)
  ? rows.filter((it) => (it.path ? kindOfChange(it) === kind : it[kind])) : rows);

/** Rows by their days, the latest first. */
function byDay(rows, counts) {
  const dayOf = (it) => it.time.slice(0, 10);
  const days = new Map(rows.map((it) => [dayOf(it), []]));
  rows.forEach((it) => days.get(dayOf(it)).push(it));
  return [...days].map(([day, its]) => el("section", {},
    el("h2", {}, link(`/recent/${day}`, day), " ",
      counts.has(day) ? el("small", {}, countWords(counts.get(day))) : null),
    changeList(its)));
}

/** How much changed on the days of months. */
async function countsOf(months) {
  const all = await Promise.all(months.map(month));
  return new Map(all.filter(Boolean).flatMap((it) => (
    Object.entries(it.days).map(([day, counts]) => [`${it.month}-${day}`, counts]))));
}

/** The page of a day. */
async function ofDay(day, query, again) {
  const rows = await changesOn(day);
  if (!rows) return failed({ trouble: "offline" }, again);
  const counts = Object.fromEntries(KINDS.map((kind) => (
    [kind, rows.filter((it) => kindOfChange(it) === kind).length])));
  const its = fitting(rows, query.get("kind")).reverse();
  return [
    title(`What changed on ${day}`),
    el("p", {}, rows.length ? `${countWords(counts)}.` : "Nothing.", " ",
      link("/recent", "The latest changes"), ", ",
      link(`/recent?month=${day.slice(0, 7)}`, `the month ${day.slice(0, 7)}`)),
    its.length > MOST ? el("p", { class: "aside" }, `The last ${MOST}; `,
      el("a", { href: `/history/${day}.jsonl` }, "all as JSON")) : null,
    changeList(its.slice(0, MOST)),
  ];
}

function table(caption, head, rows) {
  return rows.length === 0 ? null : el("section", {}, el("h2", {}, caption),
    el("table", {},
      el("thead", {}, el("tr", {}, head.map((it) => el("th", { scope: "col" }, it)))),
      el("tbody", {}, rows.map((cells) => el("tr", {}, cells.map((it) => el("td", {}, it)))))));
}

const most = (counts) => Object.entries(counts)
  .sort(([, one], [, other]) => other - one).slice(0, MOST_NAMED);

/** The page of a month: its days, vendors and people. */
async function ofMonth(name, again) {
  const it = await month(name);
  if (!it) return failed({ refusal: { refused: 24 } }, again);
  const number = (value) => counted(value ?? 0);
  const people = Object.entries(it.people).sort(([one], [other]) => (one < other ? -1 : 1));
  return [
    title(`What changed in ${name}`),
    el("p", {}, `${several(it.proposed, "name")} changed by proposals. `,
      link("/recent", "The latest changes")),
    table("Days", ["Day", "Added", "Renamed", "Removed"],
      Object.entries(it.days).sort().reverse().map(([day, counts]) => [
        link(`/recent/${name}-${day}`, `${name}-${day}`),
        ...KINDS.map((kind) => number(counts[kind]))])),
    table("Vendors and classes, by proposals", ["Number", "Changes"],
      most(it.tops).map(([top, count]) => [
        el("a", { href: hrefOf(top) }, el("code", {}, wholeNumber(top))), number(count)])),
    table("People", ["Account", "Approved", "Rejected", "Withdrawn", "Decided"],
      people.map(([who, counts]) => [link(`/decided?author=${who}`, who),
        ...["approved", "rejected", "withdrawn", "decided"].map((key) => number(counts[key]))])),
  ];
}

/** The latest changes, or the latest of a vendor or class. */
async function ofLatest(query, again) {
  const top = topIn(query.get("of"));
  const what = top ? `What changed of ${wholeNumber(top)}` : "Recent changes";
  const [known, rows, feed] = await Promise.all([
    index(), top ? changesOf(top) : latest(), feedLine(top ?? "changes", what)]);
  if (!rows) return failed({ trouble: "offline" }, again);
  const its = fitting(top ? rows.reverse() : rows, query.get("kind")).slice(0, MOST);
  const counts = top ? new Map() : await countsOf((known?.months ?? []).slice(-2));
  return [
    title(what),
    el("p", {}, known ? `All changes since ${known.began.slice(0, 10)} are known. `
      : "Nothing was published here yet. ", link("/decided", "The latest proposals")),
    filters(query),
    query.get("of") && !top ? el("p", { class: "fault" }, "That is no number of a vendor or class: ",
      shown(query.get("of"))) : null,
    its.length ? byDay(its, counts) : el("p", { class: "none" }, "None."),
    known ? el("p", {}, "Months: ", [...known.months].reverse().map((it, at) => (
      [at ? ", " : null, link(`/recent?month=${it}`, it)]))) : null,
    feed,
  ];
}

/** The page. */
export default function recent({ day, query, again }) {
  const name = query.get("month");
  if (day) return ofDay(day, query, again);
  if (/^\d{4}-\d\d$/.test(name ?? "")) return ofMonth(name, again);
  return ofLatest(query, again);
}
