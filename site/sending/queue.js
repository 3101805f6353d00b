// Commands, each under a key of its own, which is kept in the browser from before the command is
// sent until its outcome is known: a command that is sent again under its key acts once, also after
// the page was loaded again. Each entry has a key of localStorage to itself, so that tabs don't
// overwrite each other's, and is sent by the one tab that holds its lock.

import { account, authorization, dropAccount } from "../account.js";
import { request } from "../api.js";
import { keep, keysOf, recall } from "../browser_store.js";
import { epoch, isOver } from "../epoch.js";

const FRONT = "owed:";
const ACTED = "acted:";
const MOST_ACTED = 1_000;
const WAITS = [500, 1_000, 2_000, 4_000, 8_000, 15_000];
const MOST_ODD = 3;

const files = new Map();     // the bodies of imports, which are held in memory alone
const unkept = new Map();    // entries that the browser didn't keep
const working = new Map();   // what this tab is sending: its key, and { entry, answer, state }
const watchers = [];

/** Has a function called when entries come, go or change their state. */
export const watchOutbox = (watcher) => watchers.push(watcher);
const changed = () => watchers.forEach((watcher) => watcher());

/** The commands whose outcome isn't known, of this and of earlier pages and of other tabs. */
export function owed() {
  const all = keysOf("localStorage", FRONT).map((it) => recall("localStorage", it));
  const isEntry = (it) => typeof it?.key === "string" && typeof it.route === "string";
  return [...all.filter(isEntry), ...unkept.values()].sort((one, other) => one.at - other.at);
}

/**
 * What this tab does about an entry now: null; { trouble, wait, now } while it waits between two
 * tries; { undo, now, isShown } while it is held before the first one.
 */
export const stateOf = (key) => working.get(key)?.state ?? null;

/** Whether this tab is sending an entry. */
export const isWorking = (key) => working.has(key);

const isThere = (key) => unkept.has(key) || recall("localStorage", FRONT + key) !== null;

/** The entry of a key while its outcome isn't known, or null. */
export const entryOf = (key) => unkept.get(key) ?? recall("localStorage", FRONT + key);

// What was done is remembered for a while: a form whose text was sent asks for it after a reload,
// and another tab may have had the answer.
const acted = new Map();

/** What an accepted command was answered, and when; null where that isn't known. */
export const actedOf = (key) => acted.get(key) ?? recall("localStorage", ACTED + key);

function rememberActed(key, value) {
  acted.set(key, { ...value, at: Date.now() });
  keep("localStorage", ACTED + key, acted.get(key));
  const all = keysOf("localStorage", ACTED);
  if (all.length <= MOST_ACTED) return;
  const aged = all.map((it) => [it, recall("localStorage", it)?.at ?? 0]);
  aged.sort(([, one], [, other]) => one - other).slice(0, MOST_ACTED / 4)
    .forEach(([it]) => keep("localStorage", it, null));
}

/** The keys of entries that some tab is sending. */
export async function keysAtWork() {
  const { held = [] } = (await navigator.locks?.query().catch(() => null)) ?? {};
  const names = held.map((it) => it.name).filter((it) => it.startsWith(FRONT));
  return new Set([...names.map((it) => it.slice(FRONT.length)), ...working.keys()]);
}

/** Ends the tries of an entry after the one that is under way; it stays owed. */
export function leave(key) {
  const work = working.get(key);
  if (!work) return;
  work.isLeft = true;
  work.state?.leave();
}

/** Gives an entry up: it isn't sent again, here or in another tab. */
export function forget(key) {
  files.delete(key);
  unkept.delete(key);
  keep("localStorage", FRONT + key, null);
  leave(key);
  changed();
}

/** A new key: 32 hex digits by chance. */
export function newKey() {
  const bytes = crypto.getRandomValues(new Uint8Array(16));
  return Array.from(bytes, (byte) => byte.toString(16).padStart(2, "0")).join("");
}

/** The SHA-256 of bytes, as hex digits. */
async function sumOf(bytes) {
  const sum = await crypto.subtle.digest("SHA-256", bytes);
  return Array.from(new Uint8Array(sum), (it) => it.toString(16).padStart(2, "0")).join("");
}

/**
 * Keeps a command before it is sent.
 * @param {string} route
 * @param {string|Uint8Array} body a form's text, or a file
 * @param {string} about what it does, in words
 * @param {string} [key] the key, where one was chosen before
 */
export async function begin(route, body, about, key = newKey()) {
  const entry = { key, account: account(), route, about, at: Date.now(), epoch: epoch() };
  if (typeof body === "string") entry.body = body;
  else {
    entry.sum = await sumOf(body);
    files.set(key, body);
  }
  // Whoever finds it after a reload doesn't know how the first try went.
  if (!keep("localStorage", FRONT + key, { ...entry, isInDoubt: true })) unkept.set(key, entry);
  changed();
  return entry;
}

/** Takes the file of an import again that was loaded before; returns whether it is the same one. */
export async function bringFile(entry, bytes) {
  if (entry.sum !== (await sumOf(bytes))) return false;
  files.set(entry.key, bytes);
  return true;
}

/** Whether the file of an import has to be chosen again. */
export const wantsFile = (entry) => entry.body === undefined && !files.has(entry.key);

/**
 * Sends an entry until its outcome is known, and resolves to that: a value, a refusal, or a trouble
 * that ends the tries. Called twice for an entry it sends once.
 * @param {Object} entry
 * @param {Object} [grace] for one that may be taken back first: wait, in milliseconds; isShown:
 *   whether the page has a button for it
 */
export function settle(entry, grace) {
  const at = working.get(entry.key);
  if (at) return at.answer;
  const work = { entry, state: null };
  working.set(entry.key, work);
  const send = async () => (
    grace && !(await held(work, grace)) ? takenBack(entry) : sendUntilKnown(entry, work));
  work.answer = locked(entry, send).finally(() => {
    working.delete(entry.key);
    changed();
  });
  changed();
  return work.answer;
}

// A browser that refuses to keep anything refuses locks too. What two tabs send under one key acts
// once all the same.
async function locked(entry, call) {
  let isAnswered = false;
  const go = (lock) => {
    isAnswered = true;
    return lock ? call() : { trouble: "elsewhere", certain: false };
  };
  try {
    return await navigator.locks.request(FRONT + entry.key, { ifAvailable: true }, go);
  } catch (fault) {
    if (isAnswered) throw fault;
    return call();
  }
}

function send(entry, body, keepalive) {
  const kind = typeof body === "string" ? "application/x-www-form-urlencoded" : "text/plain";
  const who = entry.account ? authorization() : {};
  const headers = { ...who, "X-Key": entry.key, "Content-Type": kind };
  return request("POST", entry.route, { headers, body, keepalive });
}

// Holds a command that may be taken back; resolves to whether it goes out.
function held(work, { wait, isShown }) {
  return new Promise((resolve) => {
    const end = (goesOut) => {
      clearTimeout(timer);
      work.state = null;
      resolve(goesOut);
      changed();
    };
    const now = () => end(true);
    const timer = setTimeout(now, wait);
    work.state = { undo: () => end(false), now, leave: now, isShown };
    changed();
  });
}

function takenBack(entry) {
  forget(entry.key);
  return { trouble: "undone", certain: true };
}

// What was meant goes out before the page does, and the next page asks what came of it.
addEventListener("pagehide", () => {
  for (const work of working.values()) {
    if (!work.state?.undo) continue;
    work.isGoing = true;
    keep("localStorage", FRONT + work.entry.key, { ...work.entry, isInDoubt: true, isGoing: true });
    work.state.now();
  }
});

/** Whether an answer ends the tries. `tries` counts those that were made. */
function isEnd(answer, tries) {
  if (answer.trouble === "odd") return tries >= MOST_ODD;
  return answer.certain && answer.trouble !== "busy";
}

// The number of a proposal may be another one's by now, and the key's answer is gone.
const meansAnother = async ({ body, epoch: former }) => typeof body === "string"
  && new URLSearchParams(body).has("num") && isOver(former);

async function sendUntilKnown(entry, work) {
  let isInDoubt = entry.isInDoubt ?? false;
  for (let tries = 1; ; tries += 1) {
    if (!isThere(entry.key)) return goneBy(entry.key, isInDoubt);
    if (isInDoubt && await meansAnother(entry)) return { trouble: "restored", certain: false };
    const body = entry.body ?? files.get(entry.key);
    if (body === undefined) return gaveUp(entry, { trouble: "file" }, isInDoubt);
    const isOther = entry.account && account() !== entry.account;
    if (isOther) return gaveUp(entry, { trouble: "account" }, isInDoubt);
    const answer = await send(entry, body, work.isGoing);
    if (answer.value || answer.refusal) {
      if (answer.value) rememberActed(entry.key, answer.value);
      forget(entry.key);
      return answer;
    }
    isInDoubt ||= !answer.certain;
    if (answer.trouble === "login") {
      dropAccount(entry.account);
      answer.trouble = "ended";
    }
    if (isEnd(answer, tries)) return gaveUp(entry, answer, isInDoubt);
    if (!work.isLeft) await beforeNext(work, answer.trouble, tries);
    if (work.isLeft && isThere(entry.key)) return { trouble: "left", certain: false };
  }
}

// Another tab has had the answer, or was told to forget it.
function goneBy(key, isInDoubt) {
  const value = actedOf(key);
  return value ? { value } : { trouble: "forgotten", certain: !isInDoubt };
}

function gaveUp(entry, answer, isInDoubt) {
  if (!isInDoubt) forget(entry.key);
  return { ...answer, certain: !isInDoubt };
}

/** Waits before the next try, for as long as the person lets it. */
function beforeNext(work, trouble, tries) {
  const wait = WAITS[Math.min(tries, WAITS.length) - 1] * (0.75 + Math.random() / 2);
  return new Promise((resolve) => {
    const end = () => {
      clearTimeout(timer);
      work.state = null;
      resolve();
      changed();
    };
    const timer = setTimeout(end, wait);
    work.state = { trouble, wait, now: end, leave: end };
    changed();
  });
}

/** The body of a command with these fields. */
export const form = (fields) => new URLSearchParams(fields).toString();

// An entry that another tab forgot is not waited for any longer.
addEventListener("storage", ({ key, newValue }) => {
  if (key?.startsWith(FRONT) && newValue === null) {
    leave(key.slice(FRONT.length));
  }
  changed();
});
