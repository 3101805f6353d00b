// What changed when, from the files that publishing writes: docs/HTTP.md has their form. The
// registry itself knows no time. A file that isn't there has no rows.

const GIVEN_UP_AFTER = 5_000;
const BUCKET = 100;

/** A text of the history: "" where there is none, null where it isn't known. */
async function textOf(name) {
  try {
    const signal = AbortSignal.timeout(GIVEN_UP_AFTER);
    const answer = await fetch(`/history/${name}`, { credentials: "omit", signal });
    if (answer.status === 404) return "";
    return answer.ok ? await answer.text() : null;
  } catch {
    return null;
  }
}

function parsed(text, otherwise) {
  try {
    return text === null ? null : text === "" ? otherwise : JSON.parse(text);
  } catch {
    return null;
  }
}

const valueAt = async (name, otherwise) => parsed(await textOf(name), otherwise);

// A last line without a line feed is being written.
async function rowsAt(name, has = "") {
  const text = await textOf(name);
  const lines = text?.slice(0, text.lastIndexOf("\n") + 1).split("\n") ?? null;
  return lines && lines.filter((it) => it.includes(has) && it).map((it) => JSON.parse(it));
}

/** When the history begins, and its months: null where there is none. */
export const index = () => valueAt("index.json", null);

/** The latest changes, the last first; an import of many names is one of them. */
export const latest = () => valueAt("latest.json", []);

/** A month (2026-11) in numbers, or null. */
export const month = (name) => valueAt(`${name}.json`, null);

/** The changes of a day (2026-11-28), in their order. */
export const changesOn = (day) => rowsAt(`${day}.jsonl`);

/** The vendor or class that a path is of. */
export const topOf = (path) => (path.startsWith("PD/") ? path.slice(0, 5) : `PC/${path.slice(3, 7)}`);

/** The changes of a vendor or class and of what is below it, in their order. */
export const changesOf = (top) => rowsAt(`${top}.jsonl`);

/** The changes of an item, in their order. */
export const namesOf = (path) => rowsAt(`${topOf(path)}.jsonl`, `"path":"${path}"`);

/** The decisions on the proposals of an account, in their order. */
export const answersTo = (account) => rowsAt(`by/${account}.jsonl`);

/** When proposals were made and decided: { proposed, decided }, each a function of a number. */
export async function datesOf(numbers) {
  const buckets = [...new Set(numbers.map((it) => Math.floor(it / BUCKET)))];
  const all = Object.assign({}, ...await Promise.all(
    buckets.map((it) => valueAt(`proposals/${it}.json`, {}))));
  return {
    proposed: (number) => all[`proposed ${number}`],
    decided: (number) => all[`decided ${number}`],
  };
}
