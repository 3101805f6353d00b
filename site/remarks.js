// A proposal with its comments, which the registry hands out in pages.

import { ask } from "./api.js";

/** The most comments of a page. */
export const REMARKS = 100;
// The greatest place that may be asked for.
const LAST = 2_000_000_000;

/**
 * A proposal as it stands, `count`, and of its comments the first after a place.
 * @param {number} number
 * @param {number} after a place, 0 for the first comments
 * @param {Object} [how] as of `ask`
 */
export const remarksAfter = (number, after, how) =>
  ask(`/remarks?num=${number}&after=${after}`, how);

/** The same with the latest comments, also where some are added meanwhile. */
export async function latestRemarks(number) {
  let after = 0;
  let answer = await remarksAfter(number, after);
  while (answer.value?.count > after + REMARKS) {
    after = answer.value.count - REMARKS;
    answer = await remarksAfter(number, after);
  }
  return answer;
}

/** A proposal without its comments, asked aside. */
export const standing = (number) => remarksAfter(number, LAST, { quiet: true });
