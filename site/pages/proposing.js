// What the pages that propose share.

import { oddities } from "../advice.js";
import { counted, el, link, utf8Length } from "../dom.js";
import { MOST_NAME, MOST_TEXT } from "../limits.js";
import { oneParagraph } from "../widgets.js";

/** What is wrong with a name, or null. */
export function nameFault(text) {
  if (utf8Length(text) > MOST_NAME) return `A name has at most ${counted(MOST_NAME)} bytes.`;
  if (/^[ \t]/.test(text)) return "A name has no blank in front.";
  if (/[\u0000-\u0008\u000a-\u001f\u007f]/.test(text)) return "A name has no control characters.";
  return null;
}

/** What is wrong with a text of one paragraph, such as "A note", or null. */
export const textFault = (what, text) => (utf8Length(oneParagraph(text)) > MOST_TEXT
  ? `${what} has at most ${counted(MOST_TEXT)} bytes.` : null);

/** The box of a note, with what it is for. */
export const noteBox = () => [
  el("label", { for: "note" }, "Note for the moderators"),
  el("textarea", { id: "note", rows: 4, "aria-describedby": "note-hint" }),
  el("small", { id: "note-hint" }, "Where the name is from: a driver, a data sheet, a label on the"
    + " board, lspci -vnn. One paragraph; everybody can read it, and it isn't in the file."),
];

/** What looks odd in a name, in words that stop nobody; null where nothing does. */
export function adviceWords(name, path, nameOf) {
  const all = oddities(name, path, nameOf);
  return all.length ? el("p", { class: "advice" }, all.join(" "), " ",
    link("/guide", "What a good name is")) : null;
}
