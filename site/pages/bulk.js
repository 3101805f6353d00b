// Several proposals of the queue at once: each is decided by a command of its own, one after the
// other, and what fails stays marked with what was said of it.

import { account } from "../account.js";
import { deliberateButton } from "../deliberate_button.js";
import { el, fill, several } from "../dom.js";
import { MOST_TEXT } from "../limits.js";
import { tell } from "../notice.js";
import { readyReasons } from "../reasons.js";
import { faultWords, GRACE } from "../sending/command.js";
import { keepDraft } from "../sending/draft.js";
import { oneParagraph } from "../widgets.js";
import { approvalOf, rejectionOf } from "./proposal.js";
import { textFault } from "./proposing.js";

/** The bar over the rows, which is there while some are marked. */
export class Bulk {
  /** @param {function(): Card[]} shownCards the rows that are shown, in their order */
  constructor(shownCards) {
    this.cards = shownCards;
    this.isBusy = false;
    this.all = deliberateButton({ class: "small", onclick: () => this.markAll(true) }, "Mark all");
    this.none = deliberateButton(
      { class: "small", onclick: () => this.markAll(false) }, "Mark none");
    this.place = el("p", { class: "progress", role: "status" });
    this.approve = deliberateButton({ class: "main small", onclick: () => this.run("approved") });
    this.reject = deliberateButton({ class: "small" });
    this.reason = el("input", {
      id: "reason-all", name: "reason", maxlength: MOST_TEXT, autocomplete: "off",
    });
    this.makeElement();
    this.show();
  }

  makeElement() {
    const submit = (event) => { event.preventDefault(); this.run("rejected"); };
    this.form = el("form", { class: "reject", onsubmit: submit },
      el("label", { for: "reason-all" }, "Reason for all"), this.reason,
      readyReasons(this.reason), this.reject);
    this.element = el("div", { class: "bulk", role: "region", "aria-label": "Several at once" },
      el("p", { class: "buttons" }, this.all, this.none, this.approve), this.form, this.place);
    keepDraft(this.form, "all");
  }

  open() {
    return this.cards().filter((it) => it.mayDecide && !it.isDecided && !it.undo);
  }

  marked() {
    return this.open().filter((it) => it.isMarked);
  }

  markAll(isMarked) {
    this.open().forEach((it) => it.setMarked(isMarked));
    this.show();
  }

  /** Shows how many are marked. */
  show() {
    const [open, marked] = [this.open().length, this.marked().length];
    this.element.hidden = !this.cards().some((it) => it.mayDecide);
    fill(this.all, `Mark all ${open}`);
    fill(this.approve, `Approve ${marked}`);
    fill(this.reject, `Reject ${marked}`);
    for (const it of [this.none, this.approve, this.reject]) {
      it.disabled = marked === 0 || this.isBusy;
    }
  }

  /** Decides on all that are marked, after a while in which it can be taken back. */
  async run(state) {
    const reason = oneParagraph(this.reason.value);
    const fault = state === "approved" ? null
      : reason ? textFault("A reason", reason) : "There is no reason.";
    const cards = this.marked();
    fill(this.place, fault ? faultWords(fault) : null);
    if (fault || this.isBusy || cards.length === 0) return;
    // Nobody approves over a name that he didn't see when he pressed the button.
    const commands = cards.map((it) => this.commandFor(it, state, reason));
    this.isBusy = true;
    this.show();
    try {
      if (await this.waited(cards.length, state)) await this.decideAll(cards, commands, state);
    } finally {
      this.isBusy = false;
      this.show();
    }
  }

  // Resolves to whether they are to be decided.
  waited(count, state) {
    return new Promise((resolve) => {
      const end = (goesOut) => {
        clearTimeout(timer);
        const isHere = this.element.isConnected;
        if (goesOut && !isHere) tell(`The page was left: none of the ${count} is ${state}.`, 8);
        else fill(this.place, goesOut ? null : "Taken back. Nothing was done.");
        resolve(goesOut && isHere);
      };
      const timer = setTimeout(() => end(true), GRACE);
      this.undo = () => end(false);
      const undo = deliberateButton({ class: "small", onclick: this.undo }, "Undo");
      fill(this.place, `${several(count, "proposal")} will be ${state}. `, undo);
      undo.focus();
    }).finally(() => { this.undo = null; });
  }

  async decideAll(cards, commands, state) {
    const by = account();
    let done = 0;
    this.isStopped = false;
    const onclick = () => { this.isStopped = true; };
    const stop = deliberateButton({ class: "small", onclick }, "Stop");
    const words = el("span", {});
    fill(this.place, words, " ", stop);
    for (const [at, card] of cards.entries()) {
      if (this.isStopped || !this.element.isConnected || account() !== by) break;
      fill(words, `${at + 1} of ${cards.length} …`);
      if (!card.isMarked) continue;
      const answer = await card.carry(state, commands[at], false);
      if (answer?.value) done += 1;
      // Without an answer the next one would have none either.
      if (!answer?.value && !answer?.refusal) break;
    }
    this.end(done, cards.length - done, state);
  }

  commandFor(card, state, reason) {
    if (state === "approved") return approvalOf(card.it, card.now, card.approve);
    return rejectionOf(card.it, { reason: { value: reason }, reject: card.openButton }, card.place);
  }

  // What failed is marked still.
  end(done, left, state) {
    const words = `${several(done, "proposal")} ${done === 1 ? "is" : "are"} ${state}`
      + (left ? `, ${left} ${left === 1 ? "is" : "are"} not.` : ".");
    if (!this.element.isConnected) tell(words, 8);
    else fill(this.place, words);
  }
}
