// Proposes a name, a better one, or a removal.

import { ask } from "../api.js";
import { deliberateButton } from "../deliberate_button.js";
import { el, fill, link } from "../dom.js";
import { MOST_NAME } from "../limits.js";
import { tell } from "../notice.js";
import { pastedInto } from "../pasted.js";
import {
  KIND_WORDS, NUMBERS, parse, pathOf, rankFor, spoken, wholeNumber, withParents,
} from "../paths.js";
import { shown } from "../safe_text.js";
import { carryOut, faultWords } from "../sending/command.js";
import { draftOf } from "../sending/draft.js";
import { dropSent, SentForm } from "../sending/form.js";
import { submissionsFor } from "../submissions.js";
import { oneParagraph, title, wishOf } from "../widgets.js";
import { RANKS } from "../words.js";
import many from "./many.js";
import { adviceWords, nameFault, noteBox, textFault } from "./proposing.js";

const MOST_REJECTED = 3;

// Paths in addresses that people write may be in capitals.
const parsed = (text) => parse((text ?? "").replace(/^(P[CDS]\/)(.*)$/i, (_, kind, rest) => (
  kind.toUpperCase() + rest.toLowerCase())));

// What was proposed for the same number: all that is pending, and what was rejected lately.
function proposedBefore(all) {
  const row = (it, words, more) => el("li", {}, words, link(`/proposals/${it.num}`, `#${it.num}`),
    " ", wishOf(it.name), more);
  const [pending, rejected] = ["pending", "rejected"].map((state) => (
    all.filter((it) => it.state === state)));
  return [
    pending.map((it) => row(it, "Pending already: ", ` by ${it.author}`)),
    rejected.slice(0, MOST_REJECTED).map((it) => row(it, "Rejected: ", [": ", shown(it.reason)])),
  ];
}

/** The boxes of the numbers of a path. */
class Numbers {
  constructor(kind, digits, changed) {
    this.element = el("div", { class: "numbers" });
    this.changed = changed;
    this.show(kind, digits);
  }

  boxes() {
    return [...this.element.querySelectorAll("input")];
  }

  digits() {
    return this.boxes().map((it) => it.value);
  }

  path() {
    return pathOf(this.kind, this.digits());
  }

  show(kind, digits) {
    this.kind = kind;
    fill(this.element, NUMBERS[kind].map(([word, length], at) => {
      const box = el("input", {
        id: `number-${at}`, size: length, maxlength: length, required: true, class: "hex",
        value: digits[at] ?? "", autocomplete: "off", spellcheck: "false", autocapitalize: "off",
        title: `${length} hex digits`, pattern: `[0-9A-Fa-f]{${length}}`,
        oninput: () => this.typed(box, at, length),
        onpaste: (event) => this.paste(event, at),
      });
      return el("p", {}, el("label", { for: box.id }, word), box);
    }));
  }

  typed(box, at, length) {
    const isFull = box.value.length === length && document.activeElement === box;
    if (isFull) this.boxes()[at + 1]?.focus();
    this.changed();
  }

  // A whole number, or a line of lspci, that is pasted falls into its boxes.
  // Numbers of another kind change the kind: none is lost without a word.
  paste(event, at) {
    const pasted = pastedInto(this.kind, at, event.clipboardData.getData("text"));
    if (!pasted || event.target.readOnly) return;
    event.preventDefault();
    if (pasted.kind !== this.kind) {
      this.show(pasted.kind, this.digits());
      tell(`These are the numbers of a ${KIND_WORDS[pasted.kind].toLowerCase()}.`, 5);
    }
    pasted.digits.forEach((it, more) => { this.boxes()[pasted.at + more].value = it; });
    this.boxes()[pasted.at + pasted.digits.length - 1].focus();
    this.changed();
    this.element.dispatchEvent(new Event("input", { bubbles: true }));
  }
}

/** The form, and what the registry says of its path meanwhile. */
class Proposal {
  constructor(query, go) {
    this.go = go;
    this.turn = 0;
    this.now = null;         // the name of today, once it is known
    this.names = new Map();  // of it and of what it is below
    dropSent();
    const before = draftOf().read();
    const given = parsed(query.get("path"));
    const under = parsed(query.get("under"));
    const asked = Object.hasOwn(KIND_WORDS, query.get("kind")) ? query.get("kind") : "device";
    const kind = before?.kind ?? given?.kind ?? asked;
    const digits = before ? [0, 1, 2, 3].map((it) => before[`number-${it}`])
      : given?.numbers ?? under?.numbers ?? [];
    this.isFilled = before !== null || query.has("name");
    this.numbers = new Numbers(kind, digits, () => {
      this.kind.value = this.numbers.kind;
      this.look();
    });
    this.makeFields(kind, query.get("remove") === "yes");
    if (!before) this.name.value = query.get("name") ?? "";
    this.makeForm();
    this.sent = new SentForm(this.form, this.place);
    this.show();
  }

  show() {
    this.name.disabled = this.remove.checked;
    this.kind.value = this.numbers.kind;
    this.checkName();
    queueMicrotask(() => this.look());
  }

  makeFields(kind, isRemoval) {
    const options = Object.entries(KIND_WORDS).map(([value, word]) => (
      el("option", { value, selected: value === kind }, word)));
    this.kind = el("select", { id: "kind", onchange: () => this.changeKind() }, options);
    this.remove = el("input", {
      id: "remove", type: "checkbox", checked: isRemoval, onchange: () => this.changeRemoval(),
    });
    this.name = el("input", {
      id: "name", required: true, maxlength: MOST_NAME, autocomplete: "off",
      "aria-describedby": "name-fault", oninput: () => this.checkName(),
    });
    this.nameFault = el("div", { id: "name-fault" });
    this.about = el("div", { class: "about", role: "status" });
    this.place = el("div", { class: "said" });
    this.button = deliberateButton({ class: "main" }, "Propose");
  }

  makeForm() {
    const submit = (event) => { event.preventDefault(); this.send(); };
    const reset = () => queueMicrotask(() => this.show());
    const fields = el("div", { class: "fields" },
      el("p", {}, el("label", { for: "kind" }, "Kind"), this.kind),
      this.numbers.element,
      el("p", { class: "tick" }, this.remove, el("label", { for: "remove" }, "Remove the entry")),
      el("p", {}, el("label", { for: "name" }, "Name"), this.name), this.nameFault,
      el("div", {}, noteBox()),
      el("p", { class: "buttons" }, this.button), this.place);
    // What is learned of the number comes late, so nothing is below it.
    this.form = el("form", {
      class: "propose", novalidate: true, onsubmit: submit, onreset: reset,
    }, fields, this.about);
    this.note = this.form.querySelector("#note");
  }

  changeKind() {
    this.numbers.show(this.kind.value, this.numbers.digits());
    this.look();
  }

  changeRemoval() {
    this.name.disabled = this.remove.checked;
    this.look();
  }

  checkName() {
    const fault = nameFault(this.name.value);
    const path = this.numbers.path();
    const isOdd = path && !this.remove.checked;
    fill(this.nameFault, fault ? faultWords(fault)
      : isOdd && adviceWords(this.name.value, path, (it) => this.names.get(it)));
  }

  /** Asks what the registry has at the path and above it. */
  async look() {
    const path = this.numbers.path();
    const mine = this.turn += 1;
    this.now = null;
    if (!path) { fill(this.about); return; }
    const chain = withParents(path);
    const [proposed, ...answers] = await Promise.all([
      submissionsFor(path), ...chain.map((it) => ask(`/read/${it}`, { quiet: true })),
    ]);
    if (mine !== this.turn) return;
    const now = answers.at(-1).value?.name;
    this.now = now ?? null;
    this.names = new Map(chain.map((it, at) => [it, answers[at].value?.name]));
    const before = proposed.value?.submissions ?? [];
    fill(this.about, this.aboutWords(path, chain, answers, before));
    // The present name is where a better one begins.
    const isFresh = !this.isFilled && this.name.value === ""
      && document.activeElement !== this.name && !this.remove.checked;
    if (now !== undefined && isFresh) this.name.value = now;
  }

  aboutWords(path, chain, answers, before) {
    const isRemoval = this.remove.checked;
    const own = answers.at(-1);
    const above = chain.slice(0, -1);
    const missing = above.find((_, at) => answers[at].refusal?.refused === 25);
    const nameOf = (answer) => (answer.value ? shown(answer.value.name)
      : answer.refusal ? "not there" : "not known at the moment");
    return el("ul", {},
      above.map((it, at) => el("li", {}, `${KIND_WORDS[parse(it).kind]} `,
        el("code", {}, wholeNumber(it)), ": ", nameOf(answers[at]))),
      el("li", {}, el("code", {}, spoken(path)), own.refusal ? " has no name yet." : [" is now ",
        el("b", {}, nameOf(own)), "."]),
      missing && !isRemoval ? el("li", { class: "fault" }, el("code", {}, spoken(missing)),
        " isn't in the registry, and has to be approved before this one: ",
        link(`/propose?path=${missing}`, "propose it")) : null,
      isRemoval && own.refusal ? el("li", { class: "fault" }, "There is nothing to remove.") : null,
      proposedBefore(before),
      el("li", {}, `A ${RANKS[rankFor(path, isRemoval)]} or above decides.`));
  }

  /** The first fault of the form: the box and the words; or null. */
  fault() {
    const { name, note, numbers, remove } = this;
    if (!numbers.path()) {
      const box = numbers.boxes().find((it) => !it.checkValidity()) ?? numbers.boxes()[0];
      return [box, "The number isn't whole: each box takes as many hex digits as it is wide."];
    }
    if (!remove.checked && name.value === "") return [name, "There is no name."];
    if (!remove.checked && nameFault(name.value)) return [name, nameFault(name.value)];
    if (!remove.checked && name.value === this.now) return [name, "It has that name already."];
    const long = textFault("A note", note.value);
    return long && [note, long];
  }

  async send() {
    const fault = this.fault();
    if (fault) {
      fill(this.place, faultWords(fault[1]));
      fault[0].focus();
      return;
    }
    const path = this.numbers.path();
    const name = this.remove.checked ? null : this.name.value;
    const wish = name === null ? { remove: "yes" } : { name };
    const words = name === null ? "to remove" : `“${name}” for`;
    const answer = await carryOut({
      route: "/submit", fields: { path, ...wish, note: oneParagraph(this.note.value) },
      about: `Propose ${words} ${spoken(path)}`, button: this.button, place: this.place,
      why: "Proposals are made under an account.", sent: this.sent,
    });
    if (!answer?.value) return;
    tell(`Your proposal has the number ${answer.value.num}.`, 5);
    this.go(`/proposals/${answer.value.num}`);
  }
}

/** The page for one proposal, or for many. */
export default async function propose(context) {
  if (context.query.get("many") === "yes") return many(context);
  return [
    title("Propose"),
    el("p", {}, link("/propose?many=yes", "Propose many at once"), " · ",
      link("/guide", "What a good name is")),
    new Proposal(context.query, context.go).form,
  ];
}
