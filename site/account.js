// Who asks. A log-in is a session: a cookie, which no script can read. The name of its account is in
// localStorage, for the other tabs and after a reload; no password is kept. Pages that depend on its
// rank ask the registry for it.

import { askedBy, request } from "./api.js";
import { keep, recall } from "./browser_store.js";
import { basicOf, secretsOf } from "./passwords.js";

const PLACE = "held";
const ENDS = "ends";
const NO_SUCH_ACCOUNT = 29;
const FORM = { "Content-Type": "application/x-www-form-urlencoded" };
const watchers = [];
let held = null;           // the name of the account
let known = null;          // its rank, or NONE; null while that isn't known
let ending = Promise.resolve();

/** The account that is logged in, or null. */
export const account = () => held;

/** The rank of a name that is no account of the registry. */
export const NONE = -1;

/** The rank of the account, as it was when it was asked for; null where it isn't known. */
export const rank = () => known;

/** Whether the account's rank may suffice. The registry itself judges whether it does. */
export const maySuffice = (needed) => known === null || known >= needed;

/** The fields of a request that say who asks: whose session the browser should have. */
export const authorization = () => (held ? { "X-As": held } : {});

askedBy(authorization);

/** Has a function called when somebody logs in or out: with true in the middle of something. */
export const watchAccount = (watcher) => watchers.push(watcher);

function take(name, isBusy) {
  held = name;
  known = null;
  watchers.forEach((watcher) => watcher(isBusy));
}

/** The rank of an account by its name, or NONE; null where no answer comes. */
export async function rankOf(name) {
  const path = `/account?who=${encodeURIComponent(name)}`;
  const { value, refusal } = await request("GET", path, { quiet: true });
  return refusal?.refused === NO_SUCH_ACCOUNT ? NONE : value?.rank ?? null;
}

/** Asks for the rank that the account has by now. */
export async function learnRank() {
  const name = held;
  const now = name && await rankOf(name);
  if (held !== name || now === null || now === known) return;
  known = now;
  watchers.forEach((watcher) => watcher(true));
}

/**
 * The field by which a right password is sent, or an answer without a value. Nothing of it is kept.
 * @param {string} name
 * @param {string} password as it was typed
 */
export async function proofOf(name, password) {
  let answer;
  for (const secret of secretsOf(name, password)) {
    const Authorization = basicOf(name, await secret);
    answer = await request("GET", "/whoami", { headers: { Authorization } });
    if (answer.value) return { value: { Authorization } };
    if (answer.trouble !== "login") return answer;
  }
  return answer;
}

/** Sends a form to what keeps passwords and sessions. */
export const send = (path, headers, fields = {}) => request("POST", path, {
  headers: { ...FORM, ...headers }, body: new URLSearchParams(fields).toString(), isOurs: true,
});

// Whatever of the session is left goes: a browser may keep the cookie where no answer came.
function endSession() {
  keep("localStorage", ENDS, true);
  ending = send("/session/end").then(({ value }) => {
    if (value) keep("localStorage", ENDS, null);
  });
}

/**
 * Logs in, where the password is right.
 * @param {boolean} stays whether the session outlives the browser
 * @param {boolean} isBusy whether a command waits for it
 * @param {function(): boolean} isWanted asked once the answer is there
 */
export async function logIn({ name, password, stays, isBusy, isWanted }) {
  const proof = await proofOf(name, password);
  if (!proof.value || !isWanted()) return proof;
  await ending;
  const answer = await send("/session", proof.value, stays ? { stays: "yes" } : {});
  if (!answer.value) return answer;
  if (!isWanted()) {
    endSession();
    return answer;
  }
  keep("localStorage", ENDS, null);
  keep("localStorage", PLACE, name);
  take(name, isBusy);
  learnRank();
  return answer;
}

function forgetAccount(isBusy = false) {
  keep("localStorage", PLACE, null);
  take(null, isBusy);
}

/** Logs out here an account whose session has ended. */
export function dropAccount(name) {
  if (held === name) forgetAccount(true);
}

/** Logs out, here and in the other pages. */
export function logOut() {
  forgetAccount();
  endSession();
}

// Another tab has logged in or out, perhaps while this one was away.
function look() {
  const name = recall("localStorage", PLACE);
  if (name !== held) take(name, false);
}

/** Takes up who was logged in when the page was loaded before, or is in another page. */
export async function restoreAccount() {
  addEventListener("storage", ({ key }) => { if (key === PLACE || key === null) look(); });
  addEventListener("pageshow", ({ persisted }) => { if (persisted) look(); });
  if (recall("localStorage", ENDS)) endSession();
  look();
  const name = held;
  if (!name) return;
  const answer = await request("GET", "/whoami", {
    headers: authorization(), isOurs: true, quiet: true,
  });
  if (answer.trouble === "login") dropAccount(name);
}
