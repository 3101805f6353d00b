// A row of many proposals: each a command under a key of its own, which is kept with it.

import { account } from "../account.js";
import { deliberateButton } from "../deliberate_button.js";
import { el, fill, link } from "../dom.js";
import { MOST_NAME } from "../limits.js";
import { hrefOf, spoken, withParents } from "../paths.js";
import { shown } from "../safe_text.js";
import { faultWords } from "../sending/command.js";
import { actedOf, begin, form, isWorking, newKey, settle } from "../sending/queue.js";
import { report } from "../status_bar.js";
import { chainOf, wishOf } from "../widgets.js";
import { answerWords } from "../words.js";
import { adviceWords, nameFault } from "./proposing.js";

/** A path, what it is called now and what it is below, and the name that is proposed. */
export class Wish {
  /**
   * @param {Object} row what is kept of it
   * @param {Object} around nameOf: the name at a path, null for none, undefined where that isn't
   *   known; pending: what is pending for a path; changed: is called when it changes
   */
  constructor({ path, name, key, by, num }, around) {
    Object.assign(this, { path, key, by, num, around, now: around.nameOf(path) ?? undefined });
    this.place = el("div", { class: "said" });
    this.box = el("input", {
      id: `name-${path}`, value: name ?? "", maxlength: MOST_NAME, autocomplete: "off",
      oninput: () => { this.told = null; around.changed(); },
    });
    const drop = () => { this.isDropped = true; this.element.remove(); around.changed(); };
    this.drop = deliberateButton({ class: "small", onclick: drop }, "Leave out",
      el("span", { class: "unseen" }, ` ${spoken(path)}`));
    this.element = el("li", {}, this.aboutWords(),
      el("p", { class: "pair" }, el("label", { for: this.box.id, class: "unseen" },
        `Name for ${spoken(path)}`), this.box, this.drop),
      this.place);
    this.show();
  }

  aboutWords() {
    const { path, now, around: { nameOf, pending } } = this;
    const above = chainOf(path, (it) => nameOf(it) ?? undefined).slice(0, -1);
    return [
      above.length ? el("p", { class: "under" }, above) : null,
      el("p", {}, link(hrefOf(path), el("code", {}, spoken(path))), " ",
        now === undefined ? el("span", { class: "aside" }, "no name yet")
          : [el("span", { class: "aside" }, "now "), shown(now)]),
      pending(path).map(({ num, name, author }) => el("p", { class: "fault" }, "Pending already: ",
        link(`/proposals/${num}`, `#${num}`), " ", wishOf(name), ` by ${author}`)),
    ];
  }

  /** What stands in the way of its name, or of an approval; else what looks odd. */
  judge(rows) {
    const { path, now, box: { value } } = this;
    if (value === "" || this.num || this.key) return null;
    if (nameFault(value)) return faultWords(nameFault(value));
    if (value === now) return el("p", { class: "aside" }, "It has that name already.");
    const { nameOf } = this.around;
    const isComing = (it) => rows.some((row) => row.path === it && (row.num || row.box.value));
    const missing = withParents(path).slice(0, -1)
      .find((it) => nameOf(it) === null && !isComing(it));
    if (missing) return faultWords(`${spoken(missing)} has no name: that is approved first.`);
    return adviceWords(value, path, nameOf);
  }

  /** What is kept of it. */
  get kept() {
    return { path: this.path, name: this.box.value, key: this.key, by: this.by, num: this.num };
  }

  // A key stands for the command of the account that sent it: another one's would be a second.
  get isOpen() {
    const mayBeSent = !this.key || this.by === account();
    return !this.num && mayBeSent && this.box.value !== "" && this.box.value !== this.now;
  }

  // A name whose outcome isn't known stays as it was sent: its key stands for it.
  show(words) {
    this.box.readOnly = Boolean(this.key || this.num);
    this.drop.hidden = this.box.readOnly;
    const done = this.num ? el("p", { class: "good" }, "Proposed as ",
      link(`/proposals/${this.num}`, `#${this.num}`), ".") : null;
    const owed = this.key && !this.num
      ? faultWords(`No answer came to this one yet. It was sent as ${this.by}.`) : null;
    this.told = words ?? done ?? owed;
    fill(this.place, this.told);
  }

  /** Shows what is thought of its name, where nothing was said of what became of it. */
  look(rows) {
    if (this.told) return;
    const words = this.judge(rows);
    if ((words?.textContent ?? "") !== this.place.textContent) fill(this.place, words);
  }

  /** Takes up an answer that came while this wasn't shown, or in another tab. */
  hear() {
    const done = this.key && !this.num && !isWorking(this.key) && actedOf(this.key);
    if (!done) return false;
    this.num = done.num;
    this.show();
    return true;
  }

  /** Sends it; resolves to the answer. `keepAll` keeps the rows before it is sent. */
  async send(note, keepAll) {
    const name = this.box.value;
    const isInDoubt = this.key !== undefined;
    this.key ??= newKey();
    this.by = account();
    this.show("");
    keepAll();
    const entry = await begin("/submit", form({ path: this.path, name, note }),
      `Propose “${name}” for ${spoken(this.path)}`, this.key);
    const answer = await settle({ ...entry, isInDoubt });
    if (!this.place.isConnected) report(entry, answer);
    this.num = answer.value?.num;
    // A refused command keeps no reply: its key is free, and so is the row.
    if (answer.refusal || answer.certain) this.key = undefined;
    keepAll();
    this.show(this.num ? null : faultWords(answerWords(answer)));
    return answer;
  }
}
