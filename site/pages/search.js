import { counted, el, fill, link } from "../dom.js";
import * as names from "../names.js";
import { devicesIn, pathsOf } from "../pasted.js";
import { hrefOf, KIND_WORDS, parse, spoken, wholeNumber } from "../paths.js";
import { shown, spelled } from "../safe_text.js";
import { submissionsFor } from "../submissions.js";
import { retitle, title, wishOf } from "../widgets.js";

const FIRST_WAIT = 60;
const PENDING_WAIT = 500;
const TRIES_EVERY = 3_000;

function row({ path, name, above }) {
  const of = above.some(Boolean) ? [" of ", shown(above.filter(Boolean).join(" › "))] : null;
  return el("li", {}, el("a", { href: hrefOf(path) },
    el("code", {}, wholeNumber(path)), " ",
    name === null ? el("em", {}, "no name yet") : shown(name), " ",
    el("small", {}, KIND_WORDS[parse(path).kind], of)));
}

function countWords(text, { rows, count }) {
  if (text.trim() === "") return "Type or paste a name or a number.";
  const [absent] = rows.filter((it) => it.name === null);
  if (count === 0 && !absent) return `Nothing is found for “${spelled(text.trim())}”.`;
  const without = absent ? `${spoken(absent.path)} has no name. ` : "";
  const first = count > rows.length ? `, the first ${rows.length} shown` : "";
  return `${without}${counted(count)} found${first}.`;
}

/** The devices that were asked for by number and have no name. */
async function nameless(text) {
  const devices = devicesIn(text);
  if (devices.length === 0) return [];
  const known = await names.namesAt(devices.flatMap(pathsOf));
  return devices.filter((it) => !pathsOf(it).slice(-2).some((path) => known.has(path)));
}

// What is pending for the number that was asked for, where the registry says so at once.
async function pendingFor(path) {
  const late = new Promise((go) => { setTimeout(() => go({}), PENDING_WAIT); });
  const { value } = await Promise.race([submissionsFor(path), late]);
  return (value?.submissions ?? []).filter((it) => it.state === "pending");
}

const pendingWords = (all) => all.map(({ num, name, author }) => ["Pending: ",
  link(`/proposals/${num}`, `#${num}`), " ", wishOf(name), ` by ${author}. `]);

function offer(text, devices, path, pending) {
  if (devices.length > 1) {
    const href = `/propose?many=yes&text=${encodeURIComponent(text)}`;
    return el("a", { class: "button", href }, `Propose names for ${devices.length} devices`);
  }
  if (!path) return null;
  const words = `Propose ${pending.length ? "another" : "a"} name for ${spoken(path)}`;
  return [pendingWords(pending),
    el("a", { class: "button", href: `/propose?path=${path}` }, words)];
}

/** The search: its `search` shows what is found for another text. */
export default async function searchPage({ query }) {
  const heading = title("Search");
  const list = el("ol", { class: "items found", id: "found" });
  const count = el("p", { class: "count", role: "status" }, "Fetching the names …");
  const place = el("p", { class: "offer" });
  let turn = 0;
  const search = async (text) => {
    const mine = turn += 1;
    retitle(heading, text.trim() ? `${text.trim()} · Search` : "Search");
    const [answer, free] = await Promise.all([names.search(text), nameless(text)]);
    const absent = answer?.rows.filter((it) => it.name === null) ?? [];
    const path = absent.length === 1 ? absent[0].path : null;
    const pending = path ? await pendingFor(path) : [];
    if (mine !== turn) return;
    if (!answer) {
      fill(count, "The names couldn't be fetched, so there is no search. ",
        link("/vendors", "Vendors"));
      setTimeout(() => { if (mine === turn && count.isConnected) search(text); }, TRIES_EVERY);
      return;
    }
    // All at once: an offer that came later would push down what was found.
    fill(list, answer.rows.map(row));
    fill(count, countWords(text, answer));
    fill(place, offer(text, free, path, pending));
  };
  const wait = new Promise((go) => { setTimeout(go, FIRST_WAIT); });
  await Promise.race([search(query.get("q") ?? ""), wait]);
  return Object.assign([heading, count, place, list], { search });
}
