// All names of the published file, held by a worker: for search, for the names of parents, for
// browsing while the registry doesn't answer. The page's own thread does none of it.

// The one place where a text becomes the address of a script (Trusted Types): a fixed text.
const policy = globalThis.trustedTypes?.createPolicy("names", {
  createScriptURL: () => "/site/names.worker.js",
});
const waiting = new Map();
let worker = null;
let count = 0;
let isLoaded = false;

function end() {
  for (const go of waiting.values()) go(null);
  waiting.clear();
  worker = null;
  isLoaded = false;
}

function start() {
  const address = policy ? policy.createScriptURL("") : "/site/names.worker.js";
  worker = new Worker(address, { type: "module" });
  worker.onmessage = ({ data: { id, answer } }) => {
    waiting.get(id)?.(answer);
    waiting.delete(id);
  };
  worker.onerror = end;
}

function call(what, ...words) {
  if (!worker) start();
  count += 1;
  const id = count;
  return new Promise((go) => {
    waiting.set(id, go);
    worker.postMessage({ id, what, words });
  });
}

/** Fetches the names, or asks whether there are newer ones: { count, date }, or null. */
export async function load() {
  const known = await call("load");
  isLoaded ||= known !== null;
  return known;
}

/** Whether the names were fetched, so that an answer takes no time. */
export const areAtHand = () => isLoaded;

/** What is found: { rows: [{ path, name, above }], count }, the likeliest first, or null. */
export const search = (text, most = 40) => call("search", text, most);

/** The names at paths, as a Map without those that have none; empty without a file. */
export const namesAt = async (paths) => new Map((await call("namesAt", paths)) ?? []);

/** The items directly below a path, "" for vendors and classes; null without a file. */
export const childrenOf = (path) => call("childrenOf", path);

/** How the names of a file, as a Map, differ from these; null without a file. */
export const difference = (theirs) => call("difference", theirs);

/** What a text asks to be named, as wishes.js has it; null without a file. */
export const wishesIn = (text) => call("wishesIn", text);

/** Takes over what this page knows to be so meanwhile; name is null of a removal. */
export const learnName = (path, name) => call("learnName", path, name);
