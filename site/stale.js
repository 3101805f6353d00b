// What became of the number of a pending proposal since it was made.

import { el, link } from "./dom.js";
import { cause } from "./happened.js";
import { datesOf, namesOf } from "./history.js";
import { shown } from "./safe_text.js";
import { submissionsFor } from "./submissions.js";
import { wishOf } from "./widgets.js";

/**
 * What changed: approved, the later proposals that were approved; changes, those of the history
 * after the proposal, in their order.
 */
export async function changedSince({ num, path, state = "pending" }) {
  if (state !== "pending") return { approved: [], changes: [] };
  const [{ value }, dates, rows] = await Promise.all([
    submissionsFor(path), datesOf([num]), namesOf(path)]);
  const isLater = (it) => it.num > num && it.state === "approved";
  const made = dates.proposed(num);
  return {
    approved: (value?.submissions ?? []).filter(isLater),
    changes: made ? (rows ?? []).filter((it) => it.time > made) : [],
  };
}

/** The same in words: rows of [what, value], or none where nothing changed. */
export function changedWords({ approved, changes }) {
  if (approved.length + changes.length === 0) return [];
  const [first] = changes;
  const how = approved.length ? approved.map(({ num, name }) => [
    link(`/proposals/${num}`, `#${num}`), " ", wishOf(name), " was approved. "])
    : cause(changes.at(-1));
  const since = [el("span", { class: "fault" }, "Changed since it was proposed: "), how];
  const saw = first && (first.was === null ? "no name" : shown(first.was));
  return [["Since then", since], ...(saw ? [["Its author saw", saw]] : [])];
}
