// Many proposals at once, each a command under a key of its own that is kept with its row: who
// loads the page again in the middle goes on where it stopped, and nothing is proposed twice.

import { account } from "../account.js";
import { keep, recall } from "../browser_store.js";
import { appear, isDead, setDead, deliberateButton } from "../deliberate_button.js";
import { el, fill, link, several } from "../dom.js";
import { knownNames, pendingByPath } from "../known.js";
import { askToLogIn } from "../login.js";
import * as names from "../names.js";
import { parse, spoken, withParents } from "../paths.js";
import { shown } from "../safe_text.js";
import { faultWords } from "../sending/command.js";
import { draftOf, keepDraft } from "../sending/draft.js";
import { watchOutbox } from "../sending/queue.js";
import { oneParagraph, title } from "../widgets.js";
import { wishesIn } from "../wishes.js";
import { nameFault, noteBox, textFault } from "./proposing.js";
import { Wish } from "./wish.js";

const HERE = "/propose?many=yes";
const ROWS = `draft:${HERE}#rows`;
// What is said beside rows is waited for so long, in milliseconds, and asked for so many numbers.
const WAIT = 1_000;
const MOST_ASKED = 60;
const MOST_LEFT = 20;

/** Has the page of many go on with these rows: { path, name }, behind those that aren't done. */
export function beginMany(rows) {
  const before = (recall("sessionStorage", ROWS) ?? []).filter((it) => !it.num);
  const taken = new Set(before.filter((it) => it.key || it.name).map((it) => it.path));
  const fresh = rows.filter((it) => !taken.has(it.path));
  keep("sessionStorage", ROWS, [...before.filter((it) => taken.has(it.path)), ...fresh]);
  return HERE;
}

let shownMany = null;
watchOutbox(() => shownMany?.hear());

/** All rows, and sending them one after the other. */
class Many {
  constructor() {
    this.draft = draftOf("rows");
    this.rows = [];
    this.list = el("ol", { class: "many" });
    this.place = el("div", { class: "said" });
    this.count = el("p", { class: "count", role: "status" });
    this.left = el("div", { role: "status" });
    this.nameOf = new Map();
    this.text = el("textarea", { id: "pasted", rows: 5, class: "code", spellcheck: "false" });
    this.button = deliberateButton({ class: "main", onclick: () => this.send() }, "Propose");
    this.pasting = this.makePasting();
    this.noting = el("form", { onsubmit: (event) => event.preventDefault() }, noteBox());
    this.note = this.noting.querySelector("#note");
    keepDraft(this.noting, "note");
  }

  makePasting() {
    const submit = async (event) => {
      event.preventDefault();
      await this.find(this.text.value);
    };
    const made = el("form", { onsubmit: submit },
      el("label", { for: "pasted" }, "Lines of pci.ids, a diff of it, lines of lspci -vnn, hardware"
        + " ids, modaliases, or a number and a name in each line"),
      this.text, el("p", { class: "buttons" }, el("button", {}, "Find the numbers")));
    keepDraft(made, "pasted");
    return made;
  }

  /** Adds what a text asks to be named, and says which of its lines aren't taken. */
  async find(text) {
    const { rows, same, left } = (await names.wishesIn(text)) ?? wishesIn(text, new Map());
    await this.add(rows);
    const words = [
      same ? `${several(same, "line")} ${same === 1 ? "says" : "say"} what is so already.` : null,
      left.length ? `${several(left.length, "line")} ${left.length === 1 ? "isn't" : "aren't"}`
        + " taken:" : null,
      rows.length + same + left.length === 0 ? "There is no number in it." : null,
    ].filter(Boolean).join(" ");
    const row = (it) => el("li", {}, `line ${it.line}, ${it.why}: `,
      el("code", {}, shown(it.text)));
    fill(this.left, words ? el("p", { class: left.length ? "fault" : "aside" }, words) : null,
      left.length ? el("ul", {}, left.slice(0, MOST_LEFT).map(row)) : null,
      left.length > MOST_LEFT ? `and ${left.length - MOST_LEFT} more` : null);
  }

  // What is said beside rows comes with them, or not at all: they stay where they are.
  async know(paths) {
    const late = new Promise((go) => { setTimeout(() => go(new Map()), WAIT); });
    this.pending ??= pendingByPath();
    const all = paths.flatMap(withParents);
    const [known, pending] = await Promise.all([
      Promise.race([knownNames(all, MOST_ASKED), late]), Promise.race([this.pending, late])]);
    for (const [path, name] of known) this.nameOf.set(path, name);
    return pending;
  }

  async add(some) {
    const pending = await this.know(some.map((it) => it.path));
    // What another click brought meanwhile is there already.
    const has = (path) => this.rows.some((row) => !row.isDropped && row.path === path);
    const fresh = some.filter((it) => parse(it.path) && !has(it.path));
    const rows = fresh.map((it) => new Wish(it, {
      nameOf: (path) => this.nameOf.get(path),
      pending: (path) => pending.get(path) ?? [],
      changed: () => this.changed(),
    }));
    this.rows.push(...rows);
    this.list.append(...rows.map((it) => it.element));
    this.changed();
  }

  changed() {
    this.rows = this.rows.filter((it) => !it.isDropped);
    this.keepAll();
    this.rows.forEach((it) => it.look(this.rows));
    const open = this.rows.filter((it) => it.isOpen).length;
    fill(this.count, `${several(this.rows.length, "row")}, ${open} to be proposed.`);
    fill(this.button, `Propose ${several(open, "name")}`);
    if (this.button.hidden && open > 0) appear(this.button);
    this.button.hidden = open === 0;
  }

  hear() {
    if (!this.list.isConnected) return;
    const heard = this.rows.filter((it) => it.hear());
    if (heard.length) this.changed();
  }

  // Who left this page and came back has another one, which is the one to be kept.
  keepAll() {
    if (shownMany !== this) return;
    this.draft.write(this.rows.map((it) => it.kept));
  }

  fault() {
    const open = this.rows.filter((it) => it.isOpen);
    const bad = open.find((it) => nameFault(it.box.value));
    if (bad) {
      bad.box.focus();
      return `${spoken(bad.path)}: ${nameFault(bad.box.value)}`;
    }
    return textFault("A note", this.note.value);
  }

  async send() {
    const fault = this.fault();
    fill(this.place, fault ? faultWords(fault) : null);
    if (fault || isDead(this.button)) return;
    setDead(this.button, true);
    try {
      const isIn = account() || await askToLogIn("Proposals are made under an account.");
      if (isIn) await this.sendAll();
    } finally {
      setDead(this.button, false);
      this.changed();
    }
  }

  // One after the other; who leaves the page finds the rest where it was. What is left out, cleared
  // or emptied meanwhile isn't sent, and nothing under an account that came in its place.
  async sendAll() {
    const note = oneParagraph(this.note.value);
    const by = account();
    for (const row of this.rows.filter((it) => it.isOpen)) {
      if (!this.list.isConnected || account() !== by) return;
      if (row.isDropped || !row.isOpen) continue;
      const answer = await row.send(note, () => this.keepAll());
      if (!answer.value && !answer.refusal) return;
    }
  }
}

/** The page. */
export default async function manyPage({ query }) {
  const all = new Many();
  shownMany = all;
  await all.add(all.draft.read() ?? []);
  all.rows.forEach((it) => it.hear());
  if (all.rows.length === 0 && query.get("text")) {
    all.text.value = query.get("text");
    await all.find(query.get("text").replaceAll(" | ", "\n"));
  }
  const clear = () => {
    all.rows.forEach((it) => { it.isDropped = !it.key || Boolean(it.num); });
    all.rows.filter((it) => it.isDropped).forEach((it) => it.element.remove());
    all.changed();
  };
  return [
    title("Propose many"),
    el("p", {}, link("/guide", "What a good name is")),
    all.pasting, all.left, all.noting, all.count,
    el("p", { class: "buttons" },
      all.button, deliberateButton({ onclick: clear }, "Clear the list")),
    all.place, all.list,
  ];
}
