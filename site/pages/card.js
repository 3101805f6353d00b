// A row of the queue: a proposal beside what its item is called now, and deciding on it. Opened it
// also has what moderators ask for before they decide.

import { account, maySuffice } from "../account.js";
import { appear, isDead, setDead, deliberateButton } from "../deliberate_button.js";
import { el, fill, link, several } from "../dom.js";
import { when } from "../happened.js";
import { tell } from "../notice.js";
import { parentOf, rankFor, spoken, wholeNumber, withParents } from "../paths.js";
import { standing } from "../remarks.js";
import { compared, shown, spelled } from "../safe_text.js";
import { faultWords } from "../sending/command.js";
import { kindOf, stateMark, wishOf } from "../widgets.js";
import { answerWords, RANKS } from "../words.js";
import { aboutProposal } from "./about.js";
import {
  approvalOf, CHANGED, DECIDED, decide, hasOwnDecision, hasReason, OWN_DECISION, rejection,
  rejectionOf,
} from "./proposal.js";

const ARMED_FOR = 3_000;

/**
 * A row, with what its buttons and keys do. Once it is shown nothing in it changes its place, but
 * where the person opens it.
 */
export class Card {
  /**
   * @param {Object} it the proposal, as /queue has it
   * @param {Object} around rivals: others on its path; since: the number of a later one that was
   *   approved for it; nameOf: the name at a path above, null for none, undefined where that isn't
   *   known; decided, held, marked: are called with the row; renamed: with a path and its name;
   *   look: with a path whose name is to be asked for
   */
  constructor(it, around) {
    Object.assign(this, { it, around, now: it.now, undo: null });
    this.isDecided = false;
    this.isArmed = false;
    this.needed = rankFor(it.path, it.name === null);
    this.isOwn = account() === it.author;
    this.mayDecide = account() !== null && !this.isOwn && maySuffice(this.needed);
    this.place = el("div", { class: "said" });
    this.meta = el("p", { class: "meta" });
    this.change = el("span", { class: "change", id: `change-${it.num}` });
    this.more = el("div", { class: "more", hidden: true });
    this.makeButtons();
    this.makeRow();
    this.showNames();
  }

  makeButtons() {
    const describes = { "aria-describedby": `about-${this.it.num}` };
    this.approve = deliberateButton({
      class: "main small", ...describes, onclick: () => this.doApprove(),
    }, "Approve");
    this.openButton = deliberateButton({
      class: "small", ...describes, onclick: () => this.openReject(),
    }, "Reject …");
    this.mark = el("input", {
      type: "checkbox", "aria-label": `Mark proposal ${this.it.num}`, ...describes,
      onchange: () => this.around.marked(this),
    });
    this.opener = el("button", {
      type: "button", class: "small opener", "aria-expanded": "false", ...describes,
      "aria-label": `More of proposal ${this.it.num}`, onclick: () => this.toggle(),
    }, "▸");
    this.buttons = el("p", { class: "buttons" }, this.approve, this.openButton);
  }

  makeRow() {
    const { it } = this;
    const wish = it.name === null ? "remove" : spelled(it.name);
    const label = `Proposal ${it.num}: ${wish}, ${spoken(it.path)}`;
    this.row = el("li", { tabindex: -1, "aria-label": label },
      el("div", { class: "marks" }, this.mayDecide ? this.mark : null, this.opener),
      el("div", { class: "words" },
        el("p", { class: "top", id: `about-${it.num}` }, link(`/proposals/${it.num}`, `#${it.num}`),
          " ", el("code", {}, wholeNumber(it.path)), " ", this.change),
        el("div", { class: "under" }, this.place, this.meta)),
      this.mayDecide ? this.buttons : this.whyNot(),
      this.more);
    // A reason that was begun is shown again.
    if (this.mayDecide && hasReason(it)) this.openReject(false);
  }

  whyNot() {
    if (!account() || !maySuffice(1)) return null;
    return el("p", { class: "aside" }, this.isOwn ? "Your own: somebody else decides."
      : `For a ${RANKS[this.needed]} or above.`);
  }

  get isMarked() {
    return this.mark.checked && !this.isDecided;
  }

  setMarked(isMarked) {
    this.mark.checked = isMarked && this.mayDecide && !this.isDecided;
  }

  setCurrent(isCurrent) {
    this.row.tabIndex = isCurrent ? 0 : -1;
    if (!isCurrent) this.disarm();
  }

  // The line below the name: what is to be known of it first.
  showMeta() {
    const { it, around: { rivals, since } } = this;
    const above = withParents(it.path).slice(0, -1).map((path) => this.around.nameOf(path));
    const warnings = [this.warningWords(),
      since ? ["Changed since it was proposed: ", link(`/proposals/${since}`, `#${since}`)] : null,
      rivals.length ? ["Also pending for this number:", rivals.map(({ num }) => (
        [" ", link(`/proposals/${num}`, `#${num}`)]))] : null].filter(Boolean);
    fill(this.meta,
      warnings.map((words) => [el("span", { class: "fault" }, words), " · "]),
      "by ", link(`/queue?author=${it.author}`, it.author), it.proposed ? [", ", when(it.proposed)]
        : null, ` · ${kindOf(it.path)}`,
      above.some(Boolean) ? [" of ", shown(above.filter(Boolean).join(" › "))] : null,
      it.note ? [" · ", shown(it.note)] : null,
      it.remarks ? ` · ${several(it.remarks, "comment")}` : null);
  }

  showNames() {
    const { it, now } = this;
    const [was, wish] = it.name === null || now === null ? [now && shown(now), wishOf(it.name)]
      : compared(now, it.name);
    fill(this.change, was ? [el("del", {}, was), " "] : null, el("ins", {}, wish));
    this.showMeta();
  }

  /**
   * Shows what the item is called by now, null for no name, and what it is below. A press that was
   * meant for another name does nothing.
   */
  show(now) {
    if (this.isDecided || !this.row.isConnected) return;
    if (now !== this.now) {
      this.disarm();
      appear(this.row);
    }
    // What changes takes no more and no less room than before.
    const { parentElement: line } = this.change;
    line.style.height = `${line.getBoundingClientRect().height}px`;
    line.style.overflow = "auto";
    this.now = now;
    this.showNames();
  }

  warningWords() {
    const { it: { name, path }, now } = this;
    if (name === null) return now === null ? "There is nothing to remove." : null;
    if (now === name) return "It has that name already.";
    const parent = parentOf(path);
    if (now !== null || !parent || this.around.nameOf(parent) !== null) return null;
    return `${spoken(parent)} isn't in the registry: that one has to be approved first.`;
  }

  /** Opens the row, or closes it. */
  toggle(isOpen = this.more.hidden) {
    if (isOpen && !this.about) {
      this.about = aboutProposal(this.it, this.now, this.around);
      this.more.prepend(...this.about);
    }
    this.more.hidden = !isOpen;
    this.opener.setAttribute("aria-expanded", isOpen);
    this.opener.textContent = isOpen ? "▾" : "▸";
  }

  disarm() {
    this.isArmed = false;
    clearTimeout(this.armedUntil);
    this.approve.textContent = "Approve";
  }

  /** By key it takes two. */
  approveByKey() {
    if (!this.mayDecide || this.isDecided || isDead(this.approve)) return;
    if (this.isArmed) {
      this.disarm();
      this.doApprove();
      return;
    }
    this.isArmed = true;
    this.approve.textContent = "Press a again";
    tell(`Press a again to approve ${this.it.num}.`, 3);
    this.armedUntil = setTimeout(() => this.disarm(), ARMED_FOR);
  }

  openReject(isFocused = true) {
    if (!this.mayDecide || this.isDecided || this.undo) return;
    this.disarm();
    if (!this.no) this.makeReject();
    this.no.form.hidden = false;
    this.toggle(true);
    if (isFocused) this.no.reason.focus();
  }

  makeReject() {
    this.no = rejection(this.it, this.place, () => this.doReject());
    this.no.form.addEventListener("keydown", (event) => {
      if (event.key !== "Escape") return;
      event.stopPropagation();
      this.calm();
    });
    this.more.append(this.no.form);
  }

  /** Takes back what was begun. */
  calm() {
    this.disarm();
    if (this.no) this.no.form.hidden = true;
    this.toggle(false);
    this.row.focus();
  }

  async doApprove() {
    await this.carry("approved", approvalOf(this.it, this.now, this.approve));
  }

  async doReject() {
    const command = rejectionOf(this.it, this.no, this.place);
    if (command) await this.carry("rejected", command);
  }

  /** Decides, where nothing is under way; resolves to the answer, or null. */
  async carry(state, command, isHeld = true) {
    if (this.isDecided || this.undo) return null;
    const { it, place } = this;
    const begun = (undo) => this.setHeld(undo);
    const answer = await decide(it, { ...command, place }, isHeld ? begun : null);
    this.setHeld(null);
    // What took it back isn't there any more.
    if (answer?.trouble === "undone" && document.activeElement === document.body) this.row.focus();
    const number = answer?.refusal?.refused;
    if (answer?.value) {
      if (isHeld) tell(`${it.num} is ${state}.`, 3);
      this.setDecided(state, command.fields.reason);
      if (state === "approved") this.around.renamed(it.path, it.name);
    } else if (number === DECIDED) await this.showOutcome();
    else if (number === CHANGED) await this.lookAgain(answer);
    return answer;
  }

  // While it can be taken back, the focus goes on.
  setHeld(undo) {
    this.undo = undo;
    this.row.classList.toggle("held", undo !== null);
    if (undo) {
      if (this.no) this.no.form.hidden = true;
      this.around.held(this);
    }
  }

  // Nobody approves before he sees what it is called by now.
  async lookAgain(answer) {
    setDead(this.approve, true);
    await this.around.look(this.it.path);
    setDead(this.approve, false);
    if (this.place.isConnected) fill(this.place, faultWords(answerWords(answer)));
  }

  // It was decided elsewhere, or its author withdrew it: how is shown beside what was said.
  async showOutcome() {
    this.setDecided();
    const { value } = await standing(this.it.num);
    if (!value) return;
    if (hasOwnDecision(value)) fill(this.place, OWN_DECISION);
    (this.place.firstElementChild ?? this.place).append(" ", stateMark(value.state));
  }

  /** Greys the row, which stays where it is, so that nothing else comes under the pointer. */
  setDecided(state, reason) {
    if (this.isDecided) return;
    this.isDecided = true;
    this.disarm();
    this.row.classList.add("settled");
    this.setMarked(false);
    if (state) fill(this.place, stateMark(state), reason ? [" ", shown(reason)] : null);
    if (this.no) this.no.form.hidden = true;
    // The focus goes on before what has it is disabled.
    this.around.decided(this, state);
    for (const it of [this.approve, this.openButton, this.mark]) it.disabled = true;
  }
}
