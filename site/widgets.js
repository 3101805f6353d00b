// Pieces that several pages share.

import { el, link } from "./dom.js";
import { tell } from "./notice.js";
import { hrefOf, KIND_WORDS, ownNumber, parse, wholeNumber, withParents } from "./paths.js";
import { shown, spelled } from "./safe_text.js";
import { refusalWords, STATES, troubleWords } from "./words.js";

const SITE = "PCI ID registry";
const TRIES_EVERY = 3_000;
const ABSENT = [1, 7, 24, 25];
const titles = new WeakMap();

/** A page's heading, and its title: `text` alone, or with other nodes in the heading. */
export function title(text, ...beside) {
  const heading = el("h1", { tabindex: -1 }, ...(beside.length ? beside : [text]));
  titles.set(heading, text === SITE ? SITE : `${spelled(text)} · ${SITE}`);
  return heading;
}

/** Gives a heading's page another title. */
export function retitle(heading, text) {
  titles.set(heading, `${spelled(text)} · ${SITE}`);
  if (heading.isConnected) document.title = titles.get(heading);
}

/** The title that goes with a heading. */
export const titleOf = (heading) => titles.get(heading) ?? SITE;

/** A page that has no answer to show: why, and where it helps a button to try again. */
export function failed(answer, again) {
  const { refusal, trouble } = answer;
  if (refusal) {
    const heading = ABSENT.includes(refusal.refused) ? "Not there" : "Refused";
    return [title(heading), el("p", {}, refusalWords(refusal)),
      el("p", {}, link("/", "Start page"))];
  }
  const retry = el("button", { type: "button", class: "main", onclick: again }, "Try again");
  // A server that was stopped is started again within a moment. A page that isn't seen waits.
  const tryLater = () => setTimeout(() => {
    if (retry.isConnected) (document.hidden ? tryLater : again)();
  }, TRIES_EVERY);
  tryLater();
  return [title("No answer"), el("p", {}, troubleWords(trouble)),
    el("p", {}, retry, " It is also tried again by itself.")];
}

/** Where an item is, from the top. `nameOf` gives the name at a path, or undefined. */
export function crumbs(path, nameOf) {
  const isClass = path.startsWith("PD");
  const root = isClass ? link("/classes", "Classes") : link("/vendors", "Vendors");
  const step = (it) => el("a", {
    href: hrefOf(it), "aria-current": it === path ? "page" : null,
  }, el("code", {}, ownNumber(it)), " ", nameOf(it) === undefined ? null : shown(nameOf(it)));
  return el("nav", { class: "crumbs", "aria-label": "Where this is" },
    el("ol", {}, [root, ...withParents(path).map(step)].map((it) => el("li", {}, it))));
}

/** What kind an item is of, in words. */
export const kindOf = (path) => KIND_WORDS[parse(path).kind];

/** An item with those above it as links, by names where they are known. */
export function chainOf(path, nameOf) {
  return withParents(path).map((it, at) => [at ? " › " : null,
    link(hrefOf(it), nameOf(it) === undefined ? el("code", {}, wholeNumber(it))
      : shown(nameOf(it)))]);
}

/** What a proposal proposes. */
export const wishOf = (name) => (name === null ? el("em", {}, "to be removed") : shown(name));

/** The state of a proposal, with what is said beside it. */
export const stateMark = (state, more = "") => (
  el("span", { class: `state ${state}` }, STATES[state] + more));

/** Said where the published file stands in for the registry. */
export const COPY_WORDS = "The registry doesn't answer at the moment. What is shown here is from the"
  + " published file, and may lack the latest changes.";
export const copyWords = () => el("p", { class: "old", role: "status" }, COPY_WORDS);

/** A button that copies a text. */
export function copyButton(text) {
  const copy = async () => {
    try {
      await navigator.clipboard.writeText(text);
      tell("Copied.", 2);
    } catch {
      tell("The browser didn't let it be copied.", 4);
    }
  };
  return el("button", { type: "button", class: "small", onclick: copy }, "Copy");
}

/** A text of several lines as one paragraph: the registry takes no line breaks. */
export const oneParagraph = (text) => (
  text.split(/[\r\n]+/).map((it) => it.trim()).filter(Boolean).join(" "));
