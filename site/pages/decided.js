// The latest proposals in all states: all, those for a path, or those by an account.

import { el } from "../dom.js";
import { feedLine } from "../feeds.js";
import { parse, spoken } from "../paths.js";
import { olderLink, submissionList, submissions } from "../submissions.js";
import { failed, title } from "../widgets.js";

function titleWords({ path, author }) {
  const by = author ? ` by ${author}` : "";
  const of = parse(path ?? "") ? ` for ${spoken(path)}` : "";
  return path || author ? `Proposals${of}${by}` : "The latest proposals";
}

/** The page. */
export default async function decided({ query, again }) {
  const which = { path: query.get("path"), author: query.get("author") };
  const by = /^[a-z0-9-]+$/.exec(which.author ?? "");
  const [answer, feed] = await Promise.all([
    submissions({ ...which, before: query.get("before") }),
    by ? feedLine(`by/${by}`, `The proposals of ${by}`) : null,
  ]);
  if (!answer.value) return failed(answer, again);
  const { before, submissions: rows } = answer.value;
  return [
    title(titleWords(which)),
    rows.length ? await submissionList(rows, which)
      : el("p", { class: "none" }, before ? "None among the latest." : "None."),
    olderLink("/decided", which, before),
    feed,
  ];
}
