// What the published file has, shown first where the registry takes longer to answer.

import { fill } from "./dom.js";
import { areAtHand } from "./names.js";
import { tell } from "./notice.js";
import { COPY_WORDS, titleOf } from "./widgets.js";

// A registry that is near answers within a moment. Names that have to be fetched for it wait longer:
// the page of the item is there meanwhile, as it was published.
const AT_HAND_AFTER = 150;
const FETCHED_AFTER = 3_000;
const SAID_FOR = 20;

/**
 * What is asked of the registry, or what the file has where that comes sooner; `isFirst` then.
 * @param {Promise} asked
 * @param {function()} fromFile resolves to what the file has, or null
 */
export function orCopy(asked, fromFile) {
  const late = new Promise((go) => {
    setTimeout(go, areAtHand() ? AT_HAND_AFTER : FETCHED_AFTER);
  });
  const copy = late.then(fromFile).then((it) => (it ? { ...it, isFirst: true } : asked));
  return Promise.race([asked, copy]);
}

/**
 * Puts what the registry has in the place of what was shown first, where it is another one.
 * @param {HTMLElement} place
 * @param {Promise} asked what the registry answers; isCopy where it doesn't
 * @param {function(Object)} remade resolves to the nodes of an answer, or null where they are as
 *   they were
 */
export async function correct(place, asked, remade) {
  const answer = await asked;
  if (!place.isConnected) return;
  if (answer.isCopy) { tell(COPY_WORDS, SAID_FOR); return; }
  const nodes = await remade(answer);
  if (!nodes || !place.isConnected) return;
  const hadFocus = place.contains(document.activeElement);
  fill(place, nodes);
  const heading = place.querySelector("h1");
  if (heading) document.title = titleOf(heading);
  if (hadFocus) heading?.focus({ preventScroll: true });
}
