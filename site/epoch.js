// The epoch of the registry: another one after it was restored from a backup, when numbers may have
// been given anew.

import { account, watchAccount } from "./account.js";
import { request } from "./api.js";

let known = null;          // as it was when somebody logged in here, or the page was loaded

async function shown() {
  const { value } = await request("GET", "/epoch", { quiet: true });
  return /^[0-9a-f]{32}$/.test(value?.trim?.()) ? value.trim() : null;
}

/** What a command is kept with, or null. */
export const epoch = () => known;

/** Whether the registry was restored since then; false where that can't be known. */
export async function isOver(former) {
  const now = former && await shown();
  if (!now || now === former) return false;
  known = now;
  return true;
}

watchAccount(async () => { if (account()) known ??= await shown(); });
