import { ask } from "../api.js";
import { counted, el, fill, link, several } from "../dom.js";
import { changeList, countWords } from "../happened.js";
import { latest, month } from "../history.js";
import { load } from "../names.js";
import { title } from "../widgets.js";

const example = (text) => link(`/search?q=${encodeURIComponent(text)}`, el("code", {}, text));

function publishedWords({ count, date }) {
  const day = date ? new Date(date).toISOString().slice(0, 16).replace("T", " ") : null;
  const when = day ? `, published ${day} UTC` : "";
  return [link("/pci.ids", "pci.ids"), ` has ${counted(count)} names${when}.`];
}

function statusWords({ items, pending, submissions }) {
  return [`The registry has ${several(items, "name")}. Of ${several(submissions, "proposal")} `,
    link("/queue", `${counted(pending)} ${pending === 1 ? "is" : "are"} pending`), "."];
}

const LATEST = 10;

// The last changes, and what this month brought. They are the last of the page: nothing shifts.
async function showLatest(place) {
  const name = new Date().toISOString().slice(0, 7);
  const [rows, numbers] = await Promise.all([latest(), month(name)]);
  if (!rows?.length) return;
  const sum = (kind) => Object.values(numbers?.days ?? {}).reduce((all, it) => all + it[kind], 0);
  const words = countWords({
    added: sum("added"), renamed: sum("renamed"), removed: sum("removed"),
  });
  fill(place, el("h2", {}, "The latest changes"), changeList(rows.slice(0, LATEST)),
    el("p", {}, words ? [link(`/recent?month=${name}`, "This month"), `: ${words}. `] : null,
      link("/recent", "All that changed")));
}

// What comes late finds its room.
const later = (kind) => el("p", { class: `aside ${kind}` }, "\u00a0");

/** The start page. What is there at once is in start.html too, so that it is painted first. */
export default async function home() {
  const [published, status] = [later("published"), later("status")];
  const changes = el("section", { class: "latest" });
  showLatest(changes);
  load().then((known) => { if (known) fill(published, publishedWords(known)); });
  ask("/status", { quiet: true }).then(({ value }) => {
    if (value) fill(status, statusWords(value));
  });
  return [
    title("PCI ID registry"),
    el("p", { class: "lead" }, "The names of PCI vendors, devices, subsystems and classes that ",
      el("code", {}, "lspci"), " and other programs show. People propose names, moderators decide,"
      + " and the file ", link("/pci.ids", "pci.ids"), " has what was approved."),
    el("p", {}, "Type or paste into the box above: a name (", example("440fx"), "), a number (",
      example("8086:1237"), "), a line of ", el("code", {}, "lspci -nn"),
      ", a hardware id of Windows, or a modalias."),
    el("ul", { class: "doors" },
      el("li", {}, link("/vendors", "Vendors"), " with their devices and subsystems"),
      el("li", {}, link("/classes", "Classes"), " with subclasses and programming interfaces"),
      el("li", {}, link("/propose", "Propose"), " a name, a better one, or a removal; or ",
        link("/propose?many=yes", "many at once")),
      el("li", {}, link("/queue", "What is pending"), ", for moderators and for comments"),
      el("li", {}, link("/recent", "What changed"), " lately, and ",
        link("/decided", "the latest proposals")),
      el("li", {}, link("/check", "Check a file"), " of your own"),
      el("li", {}, link("/mine", "My proposals"), ", and what came of them")),
    published, status, changes,
  ];
}
