// What somebody has typed, kept by the address of the page in sessionStorage: it is there again
// after a reload, Back, a log-in, or a word in the search box. A draft that was sent is bound to
// the key of its command until the outcome of that is known: form.js.

import { keep, recall } from "../browser_store.js";
import { tell } from "../notice.js";

const FRONT = "draft:";
const LONG = 20_000;
const RESTS_AFTER = 300;
const here = () => location.pathname + location.search;

/**
 * A draft at an address.
 * @param {string} [part] which form of the page
 * @param {string} [address] another page's that has the same form
 */
export function draftOf(part = "", address = here()) {
  const place = `${FRONT}${address}#${part}`;
  const sent = `${place}#sent`;
  return {
    /** What was kept: an object of texts and ticks by the names of fields, or null. */
    read: () => recall("sessionStorage", place),
    write: (value) => keep("sessionStorage", place, value),
    clear() {
      keep("sessionStorage", place, null);
      keep("sessionStorage", sent, null);
    },
    /** The key of the command that its text was sent by, or null. */
    key: () => recall("sessionStorage", sent),
    bind: (key) => keep("sessionStorage", sent, key),
  };
}

const valueOf = (field) => (field.type === "checkbox" ? field.checked : field.value);

function put(field, value) {
  if (field.type === "checkbox") field.checked = value;
  else field.value = value;
}

/** The fields of a form that a person fills in. */
export const fieldsOf = (form) => [...form.elements].filter((it) => (it.name || it.id)
  && it.type !== "file" && it.matches("input, textarea, select"));

const nameOf = (field) => field.name || field.id;

// A long text is written when the hand rests, and before the page goes.
const resting = new Map();   // what writes, and its timer
addEventListener("pagehide", () => resting.forEach((_, write) => write()));

function rest(write) {
  clearTimeout(resting.get(write));
  resting.delete(write);
}

function writer(draft, form) {
  let isLong = false;
  const write = () => {
    rest(write);
    const typed = fieldsOf(form).map((it) => [nameOf(it), valueOf(it)]);
    if (draft.write(Object.fromEntries(typed)) || !isLong) return;
    tell("This is too long to be kept: a reload would lose it.", 6);
  };
  const typed = ({ target }) => {
    isLong = target.value?.length > LONG;
    rest(write);
    if (isLong) resting.set(write, setTimeout(write, RESTS_AFTER));
    else write();
  };
  return { typed, stop: () => rest(write) };
}

/**
 * Fills a form's fields with what was kept of them, and keeps them as they change.
 * @param {HTMLFormElement} form
 * @param {string} [part] as of `draftOf`
 * @param {string} [address]
 * @returns the draft
 */
export function keepDraft(form, part, address) {
  const draft = draftOf(part, address);
  const before = draft.read() ?? {};
  for (const field of fieldsOf(form)) {
    if (nameOf(field) in before) put(field, before[nameOf(field)]);
  }
  const { typed, stop } = writer(draft, form);
  form.addEventListener("input", typed);
  form.addEventListener("change", typed);
  const clear = () => { stop(); draft.clear(); };
  return { ...draft, clear };
}
