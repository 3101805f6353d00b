// How many answers to one's proposals came since one looked.

import { keep, recall } from "./browser_store.js";
import { answersTo } from "./history.js";

const placeOf = (account) => `answers:${account}`;
const isAnswer = ({ state }) => state !== "withdrawn";

/** Keeps it that an account has seen all answers up to now. */
export async function seen(account) {
  const rows = await answersTo(account);
  if (rows) keep("localStorage", placeOf(account), rows.at(-1)?.time ?? "none");
}

/** How many answers an account has not seen; a browser that is new to it begins with none. */
export async function countNew(account) {
  const until = recall("localStorage", placeOf(account));
  if (until === null) {
    await seen(account);
    return 0;
  }
  const rows = await answersTo(account) ?? [];
  return rows.filter((it) => isAnswer(it) && (until === "none" || it.time > until)).length;
}
