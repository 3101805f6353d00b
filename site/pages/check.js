// Checks a file in the browser, and has those who may import it, and others propose its names.

import { account, learnRank, maySuffice } from "../account.js";
import { canonical } from "../canonical.js";
import { deliberateButton } from "../deliberate_button.js";
import { counted, el, fill, link, several } from "../dom.js";
import { MOST_ENTRIES, MOST_FILE } from "../limits.js";
import * as names from "../names.js";
import { hrefOf, wholeNumber } from "../paths.js";
import { bytesOf, read } from "../reader.js";
import { compared, shown } from "../safe_text.js";
import { carryOut } from "../sending/command.js";
import { keepDraft } from "../sending/draft.js";
import { title } from "../widgets.js";
import { KINDS } from "../words.js";
import { beginMany } from "./many.js";

const AROUND = 2;
const LONGEST_LINE = 300;
const FEW = 20;
const SAVED_WITHIN = 60_000;
const SHORT_WAIT = 300;

/** The page that checks. */
export const check = (context) => new Check(context, false).page();

/** The page that imports. */
export async function load(context) {
  await Promise.race([learnRank(), new Promise((go) => { setTimeout(go, SHORT_WAIT); })]);
  return new Check(context, true).page();
}

function faultLines(bytes, faulty) {
  // A mark of the byte order is part of the first line, and shown with it.
  const lines = new TextDecoder("utf-8", { ignoreBOM: true }).decode(bytes).split("\n");
  const from = Math.max(0, faulty - 1 - AROUND);
  const row = (line, at) => {
    const number = from + at + 1;
    const text = line.replace(/\r$/, "").slice(0, LONGEST_LINE).replace(/\t/g, "→   ");
    return el("span", { class: number === faulty ? "bad" : null },
      `${String(number).padStart(6)}  `, text ? shown(text) : null, "\n");
  };
  return el("pre", { class: "code" }, lines.slice(from, faulty + AROUND).map(row));
}

/** Why a file has no names, as nodes; null where it has. */
function faultOf(name, bytes, outcome) {
  const words = outcome.isTooLarge ? `${name} is longer than ${counted(MOST_FILE)} bytes.`
    : outcome.hasTooMany ? `${name} has more than ${counted(MOST_ENTRIES)} entries.`
      : outcome.line ? `${name}, line ${counted(outcome.line)}: ${KINDS[outcome.kind]}.` : null;
  if (!words) return null;
  const lines = outcome.line ? faultLines(bytes, outcome.line) : null;
  return [el("p", { class: "fault" }, words), lines];
}

function differenceRow({ path, name, now }) {
  const [was, is] = now === undefined ? [null, shown(name)] : compared(now, name);
  return el("li", {}, el("a", { href: hrefOf(path) }, el("code", {}, wholeNumber(path)), " ",
    was ? [el("del", {}, was), " "] : null, is));
}

function differenceGroup(words, { count, rows }) {
  if (count === 0) return null;
  const left = count - rows.length;
  const more = left ? el("li", {}, `and ${counted(left)} more`) : null;
  return el("details", { open: count < FEW }, el("summary", {}, `${counted(count)} ${words}`),
    el("ol", { class: "items" }, rows.map(differenceRow), more));
}

function differenceWords({ added, renamed, missing, same }) {
  return [
    el("p", {}, `Compared with the published file: ${counted(added.count)} new,`
      + ` ${counted(renamed.count)} with another name, ${counted(same)} the same,`
      + ` ${counted(missing.count)} only there.`),
    differenceGroup("new", added),
    differenceGroup("with another name", renamed),
    differenceGroup("only in the published file", missing),
  ];
}

class Check {
  constructor({ go }, isImport) {
    this.go = go;
    this.turn = 0;
    this.isImport = isImport;
    this.result = el("div", { class: "result", role: "status" });
    this.text = el("textarea", {
      id: "paste", rows: 10, spellcheck: "false", class: "code", wrap: "off",
    });
  }

  async takeFile(file) {
    if (!file) return;
    this.text.value = "";
    const mine = this.turn += 1;
    const bytes = await bytesOf(file).catch(() => null);
    if (mine !== this.turn) return;
    if (bytes) await this.judge(file.name, bytes);
    else fill(this.result, el("p", { class: "fault" }, "The file can't be read."));
  }

  fileBox() {
    const take = () => this.takeFile(box.files[0]);
    const box = el("input", { id: "file", type: "file", onchange: take });
    const area = el("div", {
      class: "drop",
      ondragover: (event) => { event.preventDefault(); area.classList.add("over"); },
      ondragleave: () => area.classList.remove("over"),
      ondrop: (event) => {
        event.preventDefault();
        area.classList.remove("over");
        this.takeFile(event.dataTransfer.files[0]);
      },
    }, el("label", { for: "file" }, "A file, chosen or dropped here"), " ", box);
    return area;
  }

  async judge(name, bytes) {
    const mine = this.turn += 1;
    const outcome = read(bytes);
    const fault = faultOf(shownName(name), bytes, outcome);
    if (fault) { fill(this.result, fault, spokeHere()); return; }
    const count = several(outcome.names.size, "entry").replace("entrys", "entries");
    const save = el("button", { type: "button", onclick: () => saveCanonical(outcome.names) },
      "Save it in canonical form");
    const beside = await names.difference(outcome.names);
    // Another file may have been judged meanwhile.
    if (mine !== this.turn) return;
    fill(this.result,
      el("p", { class: "good" }, `${shownName(name)} has no fault: ${count}.`), spokeHere(),
      el("p", {}, save, " ", el("small", {}, "Comments, version and date are not in it.")),
      beside ? differenceWords(beside) : null,
      this.isImport ? importOf(name, bytes) : this.proposeButtons(beside));
  }

  // Who may not import proposes the names one by one.
  // Who may not import proposes the names one by one: new ones apart from those that may be older
  // than what the registry has.
  proposeButtons(beside) {
    const button = ({ count, rows }, kind) => {
      if (count === 0) return null;
      const begin = () => this.go(beginMany(rows.map(({ path, name }) => ({ path, name }))));
      const words = rows.length === count ? counted(count) : `the first ${counted(rows.length)}`;
      const things = `${kind}${count === 1 ? "" : "s"}`;
      return deliberateButton({ onclick: begin }, `Propose ${words} ${things} …`);
    };
    if (!beside?.added.count && !beside?.renamed.count) return null;
    return [el("p", { class: "buttons" }, button(beside.added, "new name"),
      button(beside.renamed, "other name")),
    beside.renamed.count ? el("p", { class: "aside" }, "Where the registry has another name, yours"
      + " may be the older one: look at them first.") : null];
  }

  page() {
    const submit = (event) => {
      event.preventDefault();
      this.judge("The text", new TextEncoder().encode(this.text.value));
    };
    const typed = el("form", { onsubmit: submit },
      el("label", { for: "paste" }, "Or its text"), this.text,
      el("p", { class: "buttons" }, el("button", { class: "main" }, "Check")));
    keepDraft(typed);
    return [
      title(this.isImport ? "Import" : "Check a file"),
      this.isImport ? importWords() : el("p", {}, "Is your ", el("code", {}, "pci.ids"),
        " in order, and what does it have that the registry hasn't? The file stays in your"
        + " browser."),
      this.isImport ? null : el("p", {}, link("/load", "Import a file"), " (senior moderators)"),
      this.fileBox(), typed, this.result,
    ];
  }
}

// The address of a text that is saved is given back once the browser has taken it.
function saveCanonical(names) {
  const href = URL.createObjectURL(new Blob([canonical(names)], { type: "text/plain" }));
  el("a", { href, download: "pci.ids" }).click();
  setTimeout(() => URL.revokeObjectURL(href), SAVED_WITHIN);
}

// Where another file is judged meanwhile, what came of this one is told in the bar.
function importOf(name, bytes) {
  const place = el("div");
  const onclick = async () => {
    const answer = await carryOut({
      route: "/import", body: bytes, about: `Import: ${shownName(name)}`, button, place,
      why: "Imports are made by senior moderators.",
    });
    if (!answer?.value) return;
    const { added, renamed, same } = answer.value;
    row.remove();
    fill(place, el("p", { class: "good", role: "status" }, `The registry imported it:`
      + ` ${counted(added)} added, ${counted(renamed)} renamed, ${counted(same)} the same.`));
  };
  const button = deliberateButton({ class: "main", onclick }, "Import it");
  const row = el("p", { class: "buttons" }, button);
  return [row, place];
}

const shownName = (name) => (name.length > 80 ? `${name.slice(0, 80)}…` : name);

const spokeHere = () => el("p", { class: "aside" }, "So says the check in your browser. What is"
  + " imported is judged by the registry alone.");

function importWords() {
  return [
    el("p", {}, "For senior moderators: the names of a file are set in the registry, all or none."
      + " Nothing is removed, and proposals are left alone. The file is checked here first, and you"
      + " see what it would change."),
    account() && !maySuffice(2)
      ? el("p", { class: "fault" }, "This account's rank is too low for an import. ",
        link("/check", "Check a file"), " offers to propose its names.") : null,
  ];
}
