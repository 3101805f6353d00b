// Holds the names of the published file, and answers names.js.

import { read } from "./reader.js";
import { childrenOf, difference, indexOf, learn, search } from "./search.js";
import { wishesIn } from "./wishes.js";

const FRESH_FOR = 60_000;
// A server that gives no names isn't asked again at each key press.
const RESTS_FOR = 2_000;
const GIVEN_UP_AFTER = 20_000;
let index = null;
let loading = null;
let loadedAt = -Infinity;
let failedAt = -Infinity;
let tag = null;
let date = null;

async function fetchNames() {
  const signal = AbortSignal.timeout(GIVEN_UP_AFTER);
  const answer = await fetch("/pci.ids", { credentials: "omit", signal });
  if (!answer.ok) throw new Error("no pci.ids");
  const current = answer.headers.get("ETag");
  if (!index || current === null || current !== tag) {
    const { names } = read(new Uint8Array(await answer.arrayBuffer()), Infinity);
    if (!names) throw new Error("a faulty pci.ids");
    index = indexOf(names);
  }
  tag = current;
  date = answer.headers.get("Last-Modified");
  loadedAt = performance.now();
}

// Names that are at hand are used while newer ones can't be had.
function load() {
  const now = performance.now();
  if ((index && now - loadedAt < FRESH_FOR) || now - failedAt < RESTS_FOR) return Promise.resolve();
  const rest = () => { failedAt = performance.now(); };
  loading ??= fetchNames().catch(rest).finally(() => { loading = null; });
  return loading;
}

const CALLS = {
  load: () => ({ count: index.names.size, date }),
  search: (text, most) => search(index, text, most),
  namesAt: (paths) => paths.filter((it) => index.names.has(it))
    .map((it) => [it, index.names.get(it)]),
  childrenOf: (path) => childrenOf(index, path),
  difference: (theirs) => difference(theirs, index.names),
  learnName: (path, name) => learn(index, path, name),
  wishesIn: (text) => wishesIn(text, index.names),
};

// A key press never waits for newer names: those at hand answer it.
const WAITS = ["load", "difference"];

onmessage = async ({ data: { id, what, words } }) => {
  if (!index || WAITS.includes(what)) await load();
  else load();
  let answer = null;
  try {
    if (index) answer = CALLS[what](...words);
  } finally {
    postMessage({ id, answer });
  }
};
