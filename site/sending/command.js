// Carries out a command from a form or a button. While its outcome isn't known the bar tells how it
// stands.

import { account } from "../account.js";
import { deliberateButton, isDead, setDead } from "../deliberate_button.js";
import { el, fill } from "../dom.js";
import { askToLogIn } from "../login.js";
import { report } from "../status_bar.js";
import { answerWords } from "../words.js";
import { begin, form, newKey, settle, stateOf } from "./queue.js";

/** A fault that a reader is told of at once. */
export const faultWords = (...words) => el("p", { class: "fault", role: "alert" }, ...words);

/**
 * Carries out a command. The button is dead until the outcome is known. Resolves to the answer, or
 * to null where nothing was sent or where the person has left the place meanwhile; what came of it
 * is told in the bar then.
 * @param {Object} command
 * @param {string} command.route
 * @param {Object} [command.fields] the fields of the form, or else
 * @param {Uint8Array} [command.body] the file
 * @param {string} command.about what it does, in words
 * @param {HTMLElement} command.button
 * @param {HTMLElement} command.place where it is told what stood in the way
 * @param {string} [command.why] why an account is needed; it needs none without
 * @param {SentForm} [command.sent] the form whose text it sends
 * @param {Object} [command.grace] for one that may be taken back before it is sent: words, of what
 *   was done; begun, which is called once it is held
 */
export async function carryOut(command) {
  const { route, fields, body, about, button, place, why, sent, grace } = command;
  if (isDead(button)) return null;
  setDead(button, true);
  try {
    if (why && !account() && !(await askToLogIn(why))) return null;
    const before = sent?.owed();
    if (before) return told(before, place, await settle(before), sent);
    const key = newKey();
    // Bound before it is kept: a form that is bound to nothing can be sent, and that once.
    sent?.send(key);
    const entry = await begin(route, body ?? form(fields), about, key);
    return told(entry, place, await settle(entry, grace && held(entry, place, grace)), sent);
  } finally {
    setDead(button, false);
  }
}

/** How long a command is held that may be taken back: five seconds, and what a click takes. */
export const GRACE = 5_100;

// Says what was done, while it can be taken back.
function held({ key }, place, { words, begun }) {
  const undo = deliberateButton({ class: "small", onclick: () => stateOf(key)?.undo?.() }, "Undo");
  fill(place, el("span", { role: "status" }, `${words}. `), undo);
  begun?.(() => stateOf(key)?.undo?.());
  return { wait: GRACE, isShown: () => undo.isConnected };
}

const wordsOf = (answer) => (answer.trouble === "undone"
  ? el("p", { class: "aside", role: "status" }, answerWords(answer))
  : faultWords(answerWords(answer)));

function told(entry, place, answer, sent) {
  const isKnown = answer.value || answer.refusal || answer.certain
    || answer.trouble === "forgotten";
  if (isKnown) sent?.end(entry.key, Boolean(answer.value));
  if (!place.isConnected) {
    if (answer.trouble !== "undone") report(entry, answer);
    return null;
  }
  if (sent?.owed()) sent.showOwed(answer.trouble);
  else fill(place, answer.value ? null : wordsOf(answer));
  return answer;
}
