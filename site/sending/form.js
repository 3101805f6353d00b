// Forms whose text was sent while the outcome isn't known: they stay as they were sent, and sending
// them again asks under the same key, also after a reload. Once the outcome is known, here or in
// another tab, an accepted text goes away, and what was refused can be mended.

import { deliberateButton } from "../deliberate_button.js";
import { el, fill, link } from "../dom.js";
import { troubleWords } from "../words.js";
import { draftOf, fieldsOf, keepDraft } from "./draft.js";
import { actedOf, entryOf, isWorking, watchOutbox } from "./queue.js";

const MOST = 300;
const forms = new Set();

/** Takes away a draft that was sent and accepted; one that was refused is a draft again. */
export function dropSent(part, address) {
  const draft = draftOf(part, address);
  const key = draft.key();
  if (!key || entryOf(key)) return;
  if (actedOf(key)) draft.clear();
  else draft.bind(null);
}

/** A form that sends commands, with its draft. */
export class SentForm {
  /**
   * @param {HTMLFormElement} form
   * @param {HTMLElement} place where it is told how it stands
   * @param {string} [part] as of `draftOf`
   * @param {string} [address]
   */
  constructor(form, place, part, address) {
    this.form = form;
    this.place = place;
    dropSent(part, address);
    this.draft = keepDraft(form, part, address);
    this.own = null;         // the key, also where the browser keeps nothing
    this.isKept = true;
    this.wasShown = false;
    forms.add(this);
    // The oldest of those that were never shown.
    for (const it of forms) if (forms.size > MOST && !it.form.isConnected) forms.delete(it);
    if (this.owed()) this.showOwed();
  }

  get key() {
    return this.own ?? this.draft.key();
  }

  /** The entry by which its text was sent, while the outcome isn't known; or null. */
  owed() {
    return this.key && entryOf(this.key);
  }

  /** Whether somebody has typed into it. */
  get hasText() {
    return fieldsOf(this.form).some((it) => it.value && it.value !== it.defaultValue);
  }

  /** Keeps what is typed from changing while it is on its way. */
  freeze(isFrozen) {
    for (const field of fieldsOf(this.form)) {
      if (field.matches("select, [type=checkbox]")) field.disabled = isFrozen;
      else field.readOnly = isFrozen;
    }
  }

  /** Binds its text to the key of the command that it is about to be sent by. */
  send(key) {
    this.own = key;
    this.isKept = this.draft.bind(key);
    this.freeze(true);
  }

  /** The outcome of a key is known, or its command was given up. */
  end(key, isDone) {
    if (this.key !== key) return;
    // Where this page was left and opened again, the draft may be another one by now.
    const isBound = this.draft.key() === key || !this.isKept;
    this.own = null;
    if (isBound && isDone) this.draft.clear();
    else if (isBound) this.draft.bind(null);
    if (isDone) this.form.reset();
    this.freeze(false);
  }

  /** Says that it was sent, why the last try ended, and offers a fresh form. */
  showOwed(trouble = "left") {
    this.freeze(true);
    const fresh = () => {
      this.own = null;
      this.draft.clear();
      this.form.reset();
      this.freeze(false);
      fill(this.place);
    };
    fill(this.place, el("p", { class: "fault" }, "This was sent, and no answer has come yet. ",
      trouble === "left" ? "Sent again, it acts once. " : `${troubleWords(trouble)} `,
    deliberateButton({ class: "small", onclick: fresh }, "Begin another one")));
  }

  /** Looks whether the outcome came to be known elsewhere. */
  look() {
    const { key } = this;
    if (!key || entryOf(key) || isWorking(key)) return;
    const done = actedOf(key);
    this.end(key, Boolean(done));
    const { num } = done ?? {};
    fill(this.place, !done ? null : el("p", { class: "good", role: "status" }, "It was done",
      num ? [", as ", link(`/proposals/${num}`, `proposal ${num}`)] : null, "."));
  }
}

watchOutbox(() => forms.forEach((it) => {
  if (it.form.isConnected) {
    it.wasShown = true;
    it.look();
  } else if (it.wasShown) forms.delete(it);
}));
