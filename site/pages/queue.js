// What is pending, for going through it: by vendor, kind and author, by keyboard, several at once.

import { account, learnRank, maySuffice } from "../account.js";
import { ask } from "../api.js";
import { isTooSoon } from "../deliberate_button.js";
import { el, fill, link, several } from "../dom.js";
import { grouped } from "../grouped.js";
import { datesOf } from "../history.js";
import { approvedSince, countDecision, knownNames, recordOf, rowsOf } from "../known.js";
import { KIND_WORDS, parse, withParents } from "../paths.js";
import { readdress } from "../router.js";
import { spelled } from "../safe_text.js";
import { failed, title } from "../widgets.js";
import { recordWords } from "./about.js";
import { Bulk } from "./bulk.js";
import { Card } from "./card.js";

const MOST_QUESTIONS = 10;
const TRIES_EVERY = 3_000;

/** The keys of the list: what each does with the list and the row that has the focus. */
const KEYS = {
  j: (list) => list.move(1),
  ArrowDown: (list) => list.move(1),
  k: (list) => list.move(-1),
  ArrowUp: (list) => list.move(-1),
  a: (list, card) => { if (!isTooSoon(list.since)) card.approveByKey(); },
  r: (list, card) => card.openReject(),
  o: (list, card) => card.toggle(),
  x: (list, card) => { card.setMarked(!card.isMarked); list.bulk.show(); },
  u: (list) => list.takeBack(),
  Escape: (list, card) => card.calm(),
};
const MAY_REPEAT = ["j", "k", "ArrowDown", "ArrowUp"];

const pause = (milliseconds) => new Promise((go) => { setTimeout(go, milliseconds); });
const vendorIn = (path) => (path.startsWith("PD") ? null : path.slice(3, 7));

// Which rows are shown, by the fields of the address.
const FILTERS = {
  author: (it) => it.author,
  vendor: (it) => vendorIn(it.path),
  kind: (it) => parse(it.path).kind,
};

// Those for one number are together.
function ordered(rows, isNewest) {
  const all = isNewest ? [...rows].reverse() : rows;
  return [...grouped(all, (it) => it.path).values()].flat();
}

/** The list and which of its rows has the focus. */
class List {
  /**
   * @param {Object[]} all as /queue has them
   * @param {Map} names of what they are below
   * @param {Map} since the numbers of what was approved lately, by paths
   * @param {URLSearchParams} query
   */
  constructor(all, names, since, query) {
    this.all = all;
    this.names = names;
    this.query = new URLSearchParams([...query].filter(([name]) => name !== "after"));
    this.since = 0;
    this.heldNow = [];
    this.cards = [];
    this.left = el("p", { class: "count", role: "status" });
    this.element = el("ol", { class: "queue", "aria-label": "Pending proposals" });
    this.element.addEventListener("keydown", (event) => this.press(event));
    this.element.addEventListener("focusin", (event) => this.follow(event));
    const byPath = grouped(all, (it) => it.path);
    this.cardOf = new Map(all.map((it) => [it.num, this.makeCard(it, byPath, since)]));
    this.bulk = new Bulk(() => this.cards);
    this.narrow();
  }

  makeCard(it, byPath, since) {
    const later = since.get(it.path);
    return new Card(it, {
      rivals: byPath.get(it.path).filter(({ num }) => num !== it.num),
      since: later > it.num ? later : null,
      nameOf: (path) => this.names.get(path),
      decided: (card, state) => this.decided(card, state),
      held: (card) => this.held(card),
      marked: () => this.bulk.show(),
      renamed: (path, name) => this.renamed(path, name),
      look: (path) => this.look(path),
    });
  }

  /** Shows those that the address asks for. */
  narrow() {
    const wanted = Object.entries(FILTERS).map(([name, of]) => [of, this.query.get(name)])
      .filter(([, value]) => value);
    const some = this.all.filter((it) => wanted.every(([of, value]) => of(it) === value));
    this.cards.forEach((it) => { it.setCurrent(false); it.setMarked(false); });
    this.cards = ordered(some, this.query.get("order") === "newest")
      .map((it) => this.cardOf.get(it.num));
    fill(this.element, this.cards.map((it) => it.row));
    this.current = this.cards[0] ?? null;
    this.current?.setCurrent(true);
    this.showing?.();
    this.count();
  }

  /** Narrows the list by one more field, or by none of it. */
  set(name, value) {
    if (value) this.query.set(name, value);
    else this.query.delete(name);
    const query = this.query.toString();
    readdress(`/queue${query ? `?${query}` : ""}`);
    this.narrow();
  }

  count() {
    const open = this.cards.filter((it) => !it.isDecided).length;
    const isAll = this.cards.length === this.all.length;
    fill(this.left, isAll ? `${several(open, "proposal")} pending.`
      : `${open} of ${several(this.all.length, "proposal")}.`);
    this.bulk.show();
  }

  setCurrent(card) {
    if (card === this.current) return;
    this.current?.setCurrent(false);
    this.current = card;
    this.since = performance.now();
    card.setCurrent(true);
  }

  focus(card) {
    if (!card) return;
    this.setCurrent(card);
    card.row.focus();
    card.row.scrollIntoView({ block: "nearest" });
  }

  move(step) {
    this.focus(this.cards[this.cards.indexOf(this.current) + step]);
  }

  follow(event) {
    const card = this.cards.find((it) => it.row.contains(event.target));
    if (card) this.setCurrent(card);
  }

  // Single keys work only while the focus is in the list, and not in a box of it.
  press(event) {
    const isOther = event.ctrlKey || event.metaKey || event.altKey
      || event.target.matches("input:not([type=checkbox]), textarea");
    const opens = event.key === "Enter" && event.target === this.current?.row;
    const act = opens ? KEYS.o : KEYS[event.key];
    if (isOther || !act || !this.current) return;
    event.preventDefault();
    // A key that is held goes through the rows, and does nothing to them.
    if (event.repeat && !MAY_REPEAT.includes(event.key)) return;
    act(this, this.current);
  }

  // The focus goes on if it was there.
  goOn(card) {
    const at = this.cards.indexOf(card);
    if (card !== this.current || !card.row.contains(document.activeElement)) return;
    this.focus(this.cards.find((it, place) => place > at && !it.isDecided && !it.undo) ?? card);
  }

  /** A row was decided, and can be taken back for a while. */
  held(card) {
    this.heldNow.push(card);
    this.bulk.show();
    this.goOn(card);
  }

  /** Takes back what was decided last. */
  takeBack() {
    this.heldNow = this.heldNow.filter((it) => it.undo);
    const card = this.heldNow.pop();
    if (card) card.undo();
    else this.bulk.undo?.();
  }

  /** A row was decided: it stays where it is. */
  decided(card, state) {
    if (state) countDecision(card.it.author, state).then(() => this.showing?.());
    this.count();
    this.goOn(card);
  }

  /** Has the rows for a path and below it show what it is called by now; null is no name. */
  renamed(path, name) {
    this.names.set(path, name);
    for (const it of this.cards) {
      if (it.it.path === path) it.show(name);
      else if (withParents(it.it.path).includes(path)) it.show(it.now);
    }
  }

  /** Asks what a path is called by now, until that is known or the page was left, and shows it. */
  async look(path) {
    for (;;) {
      const { value, refusal } = await ask(`/read/${path}`, { quiet: true });
      if (value || refusal) { this.renamed(path, value?.name ?? null); return; }
      await pause(TRIES_EVERY);
      if (!this.element.isConnected) return;
    }
  }
}

/** The boxes that narrow the list. */
function filters(list) {
  const optionsOf = (name, wordsOf) => {
    const groups = [...grouped(list.all, FILTERS[name])].filter(([key]) => key);
    groups.sort(([, one], [, other]) => other.length - one.length);
    return groups.map(([key, its]) => [key, `${wordsOf(key)} (${its.length})`]);
  };
  const vendorWords = (it) => [it, list.names.get(`PC/${it}`)].filter(Boolean).join(" ");
  const ALL = {
    author: ["Author", [["", "all"], ...optionsOf("author", (it) => it)]],
    vendor: ["Vendor", [["", "all"], ...optionsOf("vendor", (it) => spelled(vendorWords(it)))]],
    kind: ["Kind", [["", "all"], ...optionsOf("kind", (it) => KIND_WORDS[it])]],
    order: ["Order", [["", "oldest first"], ["newest", "newest first"]]],
  };
  const boxes = Object.entries(ALL).map(([name, [label, options]]) => {
    const box = el("select", { id: `by-${name}`, onchange: () => list.set(name, box.value) },
      options.map(([value, words]) => el("option", { value }, words)));
    return { name, box, element: el("p", {}, el("label", { for: box.id }, label), box) };
  });
  const about = el("p", { class: "aside", role: "status" });
  list.showing = () => {
    boxes.forEach(({ name, box }) => { box.value = list.query.get(name) ?? ""; });
    aboutAuthor(about, list);
  };
  list.showing();
  return [el("div", { class: "filters" }, boxes.map((it) => it.element)), about];
}

// Of whose proposals these are, and what came of the others.
async function aboutAuthor(place, list) {
  const author = list.query.get("author");
  fill(place);
  if (!author) return;
  fill(place, link(`/decided?author=${author}`, `All proposals by ${author}`), ": …");
  const record = await recordOf(author);
  if (list.query.get("author") !== author) return;
  fill(place, link(`/decided?author=${author}`, `All proposals by ${author}`),
    `: ${recordWords(record)}.`);
}

const KEY_WORDS = [["j", "next"], ["k", "previous"], ["Enter", "open"], ["a a", "approve"],
  ["r", "reject"], ["x", "mark"], ["u", "take back"]];

function keyWords() {
  return el("p", { class: "keys" }, "In the list: ", KEY_WORDS.map(([keys, word], at) => [
    at ? ", " : null,
    el("span", {}, keys.split(" ").map((it) => [el("kbd", {}, it), " "]), word)]), ".");
}

/** The queue. */
export default async function queue({ query, again }) {
  const [answer] = await Promise.all([rowsOf("/queue", MOST_QUESTIONS), learnRank()]);
  if (!answer.value) return failed(answer, again);
  const { rows, isWhole } = answer.value;
  const [names, since, dates] = await Promise.all([
    knownNames(rows.flatMap((it) => withParents(it.path).slice(0, -1))),
    rows.length ? approvedSince(rows[0].num) : new Map(),
    datesOf(rows.map((it) => it.num)),
  ]);
  rows.forEach((it) => { it.proposed = dates.proposed(it.num); });
  const list = new List(rows, names, since, query);
  return [
    title("Queue"),
    list.left,
    isWhole ? null : el("p", { class: "old" }, `These are the oldest ${rows.length}.`),
    account() ? null : el("p", { class: "aside" }, "Everybody may read this. Log in to decide."),
    rows.length && account() && maySuffice(1) ? keyWords() : null,
    el("p", {}, link("/decided", "The latest proposals, decided ones too")),
    rows.length ? filters(list) : null,
    list.bulk.element, list.element,
  ];
}
