// Vendors, or classes. The registry answers both in one list.

import { ask } from "../api.js";
import { el, link } from "../dom.js";
import { itemList } from "../lists.js";
import { childrenOf } from "../names.js";
import { correct, orCopy } from "../sooner.js";
import { copyWords, failed, title } from "../widgets.js";

const fromFile = async () => {
  const value = await childrenOf("");
  return value && { value };
};

/** All that is at the top, or what the file has of it since the registry doesn't answer. */
async function found() {
  const answer = await ask("/children");
  return answer.trouble ? { ...answer, ...await fromFile(), isCopy: true } : answer;
}

async function list({ again }, front, what, one) {
  const asked = found();
  const answer = await orCopy(asked, fromFile);
  if (!answer.value) return failed(answer, again);
  const of = ({ value }) => value.filter(({ path }) => path.startsWith(front));
  const place = el("div", {}, itemList(of(answer), what));
  if (answer.isFirst) {
    const asText = (it) => JSON.stringify(of(it));
    correct(place, asked, (it) => (asText(it) === asText(answer) ? null : itemList(of(it), what)));
  }
  return [
    title(what[0].toUpperCase() + what.slice(1)),
    answer.isCopy ? copyWords() : null,
    el("p", {}, link(`/propose?kind=${one}`, `Propose a ${one}`)),
    place,
  ];
}

/** All vendors. */
export const vendors = (context) => list(context, "PC/", "vendors", "vendor");

/** All classes. */
export const classes = (context) => list(context, "PD/", "classes", "class");
