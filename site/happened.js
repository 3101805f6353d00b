// How the pages show what happened when: times, changes of names, and the way back.

import { counted, el, link } from "./dom.js";
import { hrefOf, wholeNumber } from "./paths.js";
import { compared, shown, spelled } from "./safe_text.js";

const STEPS = [["year", 31_536_000], ["month", 2_592_000], ["day", 86_400], ["hour", 3_600],
  ["minute", 60]];
const ago = new Intl.RelativeTimeFormat("en", { numeric: "auto" });

/** "3 days ago". */
function agoWords(time) {
  const seconds = (new Date(time) - Date.now()) / 1000;
  const [unit, size] = STEPS.find(([, least]) => -seconds >= least) ?? ["minute", 60];
  return -seconds < 60 ? "just now" : ago.format(Math.trunc(seconds / size), unit);
}

/** A time as "2026-11-28 17:42 UTC". */
export const exactly = (time) => `${time.slice(0, 16).replace("T", " ")} UTC`;

/** How long ago something was, with the exact time in its title. */
export const when = (time) => el("time", { datetime: time, title: exactly(time) }, agoWords(time));

/** What a change did: added, renamed or removed. */
export const kindOfChange = ({ was, now }) => (
  was === null ? "added" : now === null ? "removed" : "renamed");

/** "12 added, 3 renamed", of what isn't nothing. */
export const countWords = (counts) => ["added", "renamed", "removed"]
  .filter((it) => counts[it]).map((it) => `${counted(counts[it])} ${it}`).join(", ");

const CAUSES = {
  import: "by an import", restore: "by a restore of the registry",
  unknown: "before proposals were followed",
};

/** By whom a name changed. */
export const cause = ({ how, num, author, decider }) => (how !== "proposal" ? CAUSES[how] : [
  link(`/proposals/${num}`, `#${num}`), " by ", link(`/decided?author=${author}`, author),
  `, approved by ${decider}`]);

/** The way to propose a former name again. */
export const restoreLink = (path, name, words = "Restore") => el("a", {
  class: "button small", href: `/propose?${new URLSearchParams({ path, name })}`,
  title: `Propose “${spelled(name)}” again`,
}, words);

function nameChange({ was, now }) {
  if (was === null) return shown(now);
  if (now === null) return [el("del", {}, shown(was)), " removed"];
  const [before, after] = compared(was, now);
  return [el("ins", {}, after), " was ", el("del", {}, before)];
}

/** The row of a change, or of an import of many names. */
export function changeRow(it) {
  if (it.path === undefined) {
    return el("li", {}, el("p", {}, link(`/recent/${it.time.slice(0, 10)}`, countWords(it)),
      ` ${CAUSES[it.how]} `, el("small", {}, when(it.time))));
  }
  return el("li", {},
    el("p", {}, el("a", { href: hrefOf(it.path) }, el("code", {}, wholeNumber(it.path))), " ",
      nameChange(it)),
    el("p", { class: "cause" }, el("small", {}, cause(it), ", ", when(it.time)), " ",
      it.was === null ? null : restoreLink(it.path, it.was)));
}

/** Rows of changes. */
export const changeList = (rows) => el("ol", { class: "items changes" }, rows.map(changeRow));
