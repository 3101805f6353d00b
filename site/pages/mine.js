// The proposals of who is logged in, and what came of them.

import { account } from "../account.js";
import { seen } from "../answers.js";
import { keep, recall } from "../browser_store.js";
import { el, link } from "../dom.js";
import { feedLine } from "../feeds.js";
import { askToLogIn } from "../login.js";
import { olderLink, submissionList, submissions } from "../submissions.js";
import { failed, title } from "../widgets.js";

const MOST_WAITING = 500;

/**
 * The numbers of those that were decided since this browser saw them pending. It remembers which
 * are pending now.
 */
function newsAmong(name, rows) {
  const place = `waiting:${name}`;
  const waiting = new Set(recall("localStorage", place) ?? []);
  const isNews = ({ num, state }) => (
    waiting.has(num) && (state === "approved" || state === "rejected"));
  const news = rows.filter(isNews).map((it) => it.num);
  for (const { num, state } of rows) {
    if (state === "pending") waiting.add(num);
    else waiting.delete(num);
  }
  const latest = [...waiting].sort((one, other) => other - one).slice(0, MOST_WAITING);
  keep("localStorage", place, latest.length ? latest : null);
  return news;
}

/** The page. */
export default async function mine({ query, again }) {
  const author = account();
  if (!author) {
    const enter = el("button", { type: "button", class: "main", onclick: () => askToLogIn() },
      "Log in");
    return [title("My proposals"), el("p", {}, enter)];
  }
  const [answer, feed] = await Promise.all([
    submissions({ author, before: query.get("before") }),
    feedLine(`by/${author}`, `The proposals of ${author}`),
  ]);
  if (!answer.value) return failed(answer, again);
  const { before, submissions: rows } = answer.value;
  const news = newsAmong(author, rows);
  seen(author);
  return [
    title("My proposals"),
    rows.length ? await submissionList(rows, { author }, (it) => news.includes(it.num))
      : el("p", { class: "none" }, before ? "None among the latest." : "None."),
    olderLink("/mine", {}, before),
    feed,
    el("p", { class: "aside" }, link("/password", "Change the password, or leave")),
  ];
}
