// One request to the server, and what came of it:
//   { value, status }      it was answered
//   { refusal }            the registry refused it, with its number
//   { trouble, certain }   no answer of the registry came; certain: the request did not reach it

import { keep, recall } from "./browser_store.js";
import { tell, untell } from "./notice.js";

const SLOW = "The registry is slow to answer. Still waiting.";
const SLOW_AFTER = 1_500;
const GIVEN_UP_AFTER = { GET: 20_000, POST: 60_000 };
const PAUSES = [300, 1_000, 3_000];

// A page leaves room for other tabs of the same address; one place is kept for commands.
const MOST_QUESTIONS = 3;
const MOST = 4;
const open = { GET: 0, POST: 0 };
let slow = 0;
const waiting = { GET: [], POST: [] };

const hasRoom = (method) => open.GET + open.POST < MOST
  && (method === "POST" || open.GET < MOST_QUESTIONS);

async function enter(method) {
  if (!hasRoom(method)) await new Promise((go) => waiting[method].push(go));
  else open[method] += 1;
}

function leave(method) {
  open[method] -= 1;
  for (const next of ["POST", "GET"]) {
    while (waiting[next].length && hasRoom(next)) {
      open[next] += 1;
      waiting[next].shift()();
    }
  }
}

// Lists that cost the registry much are kept for two seconds in front of it. Whoever has just sent a
// command, here or in another tab, has to see what it did: a session has such a list asked anew.
const COMMANDED = "commanded";
const ANEW_FOR = 5_000;
let commanded = 0;
let whoAsks = () => ({});

/** Says by which function questions learn who asks. */
export const askedBy = (give) => { whoAsks = give; };

function noteCommand() {
  commanded = Date.now();
  keep("localStorage", COMMANDED, commanded);
}

function hasJustCommanded() {
  const last = Math.max(commanded, recall("localStorage", COMMANDED) ?? 0);
  return Math.abs(Date.now() - last) < ANEW_FOR;
}

const MEANINGS = {
  401: ["login", true], 403: ["foreign", true], 413: ["large", true], 429: ["busy", true],
  502: ["stopped", false], 503: ["busy", false], 504: ["slow", false],
};

function refused(refusal, status) {
  const inDoubt = refusal.refused >= 16 && refusal.refused <= 18;
  return inDoubt ? { trouble: "store", certain: false } : { refusal, status };
}

async function judged(answer) {
  const { ok, status } = answer;
  const kind = answer.headers.get("Content-Type") ?? "";
  if (kind.startsWith("application/json")) {
    const value = await answer.json();
    if (ok) return { value, status };
    if (Number.isInteger(value?.refused)) return refused(value, status);
    if (typeof value?.why === "string" && status < 500) return { refusal: value, status };
  } else if (kind.startsWith("text/plain")) {
    const text = await answer.text();
    if (ok) return { value: text, status };
    const found = /^refused ([0-9]+) (\w+)/.exec(text);
    if (found) return refused({ refused: Number(found[1]), word: found[2] }, status);
  }
  const [trouble, certain] = MEANINGS[status] ?? ["odd", false];
  return { trouble, certain };
}

async function fetched(method, path, { headers = {}, body, keepalive, isOurs }, signal) {
  // The session goes along where a page says whose it should be. Else "omit": the browser shows no
  // window of its own.
  const credentials = isOurs || headers["X-As"] ? "same-origin" : "omit";
  try {
    return await judged(await fetch(path, {
      method, headers, body, keepalive, signal, credentials, redirect: "error", cache: "no-store",
    }));
  } catch {
    return { trouble: signal.aborted ? "slow" : "offline", certain: false };
  }
}

async function asked(path, how, signal) {
  const who = hasJustCommanded() && !how.headers ? whoAsks() : {};
  const answer = await fetched("GET", path, { headers: who, ...how }, signal);
  // The session may have ended. What may be read needs none.
  const isRefused = answer.trouble === "login" && who["X-As"];
  return isRefused ? fetched("GET", path, how, signal) : answer;
}

async function commandedBy(path, how, signal) {
  noteCommand();
  try {
    return await fetched("POST", path, how, signal);
  } finally {
    noteCommand();
  }
}

/**
 * Sends one request.
 * @param {"GET"|"POST"} method
 * @param {string} path
 * @param {Object} [how] headers, body; keepalive: it goes on without the page; quiet: nothing is
 *   said while it is slow; isOurs: whether the browser may send or keep a session with it
 */
export async function request(method, path, how = {}) {
  await enter(method);
  const over = new AbortController();
  const patience = setTimeout(() => over.abort(), GIVEN_UP_AFTER[method]);
  let isSlow = false;
  const slowly = how.quiet ? 0 : setTimeout(() => {
    isSlow = true;
    slow += 1;
    tell(SLOW);
  }, SLOW_AFTER);
  try {
    return await (method === "POST" ? commandedBy : asked)(path, how, over.signal);
  } finally {
    clearTimeout(patience);
    clearTimeout(slowly);
    if (isSlow) slow -= 1;
    if (isSlow && slow === 0) untell(SLOW);
    leave(method);
  }
}

const pause = (milliseconds) => new Promise((go) => { setTimeout(go, milliseconds); });

/** Asks a question, again where the server is just busy or about to start. */
export async function ask(path, how = {}) {
  for (const wait of PAUSES) {
    const answer = await request("GET", path, how);
    if (!["busy", "store", "stopped"].includes(answer.trouble)) return answer;
    await pause(wait);
  }
  return request("GET", path, how);
}
