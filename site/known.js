// What pages say beside the numbers of others: what items are called, and what is pending for them.

import { ask } from "./api.js";
import { grouped } from "./grouped.js";
import { areAtHand, namesAt } from "./names.js";

const PAGE = 100;

/**
 * The names at paths by path, null where there is none; those that can't be known now are left out.
 * Those of the published file do where they are at hand; of the others the registry is asked, of so
 * many at most.
 */
export async function knownNames(paths, most = Infinity) {
  const all = [...new Set(paths)];
  const known = areAtHand() ? await namesAt(all) : new Map();
  const unknown = all.filter((it) => !known.has(it)).slice(0, most);
  const answers = await Promise.all(unknown.map((it) => ask(`/read/${it}`, { quiet: true })));
  unknown.forEach((it, at) => {
    const { value, refusal } = answers[at];
    if (value || refusal) known.set(it, value?.name ?? null);
  });
  return known;
}

/**
 * The rows of a list that is asked for with `after`, as far as so many questions go:
 * { value: { rows, isWhole } }, or an answer without a value.
 */
export async function rowsOf(address, questions, how) {
  const rows = [];
  for (let turn = 0; turn < questions; turn += 1) {
    const answer = await ask(`${address}?after=${rows.at(-1)?.num ?? 0}`, how);
    if (!answer.value) return answer;
    rows.push(...answer.value);
    if (answer.value.length < PAGE) return { value: { rows, isWhole: true } };
  }
  return { value: { rows, isWhole: false } };
}

const records = new Map();

/** What came of an account's latest proposals: counts by state, and whether these are all. */
export function recordOf(author) {
  if (!records.has(author)) {
    const query = new URLSearchParams({ author });
    records.set(author, ask(`/submissions?${query}`, { quiet: true }).then(({ value }) => {
      if (!value) { records.delete(author); return null; }
      const states = grouped(value.submissions, (it) => it.state);
      const counts = Object.fromEntries([...states].map(([state, its]) => [state, its.length]));
      return { counts, isAll: value.before === 0 };
    }));
  }
  return records.get(author);
}

/** Counts a decision that this page has made, where the account's record was asked for. */
export async function countDecision(author, state) {
  const record = await records.get(author);
  if (!record) return;
  record.counts.pending -= 1;
  record.counts[state] = (record.counts[state] ?? 0) + 1;
}

/**
 * Which paths had a name approved lately: the number of the latest such proposal, by path. It goes
 * back to a number, and by three questions at most.
 */
export async function approvedSince(number) {
  const latest = new Map();
  for (let turn = 0, before = 0; turn < 3; turn += 1) {
    const query = before ? `?before=${before}` : "";
    const { value } = await ask(`/submissions${query}`, { quiet: true });
    for (const { num, path, state } of value?.submissions ?? []) {
      if (state === "approved" && num > (latest.get(path) ?? number)) latest.set(path, num);
    }
    before = value?.before ?? 0;
    if (before <= number) break;
  }
  return latest;
}

/** What is pending, by paths, as far as five questions go. */
export async function pendingByPath() {
  const { value } = await rowsOf("/pending", 5, { quiet: true });
  return grouped(value?.rows ?? [], (it) => it.path);
}
