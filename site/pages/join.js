// Joining: a name, and a password that the page makes or the person chooses.

import { account, logIn } from "../account.js";
import { deliberateButton } from "../deliberate_button.js";
import { el, fill, link } from "../dom.js";
import { joining } from "../joining.js";
import { tell } from "../notice.js";
import { passwordBox } from "../passbox.js";
import { secretOf, verifierOf } from "../passwords.js";
import { readdress, refresh } from "../router.js";
import { note, notedOf } from "../scroll_place.js";
import { carryOut } from "../sending/command.js";
import { title } from "../widgets.js";

// Only an address of this site: a text such as //example.org leads elsewhere.
function pageOf(text) {
  const other = new URL("/propose", location.origin);
  try {
    const it = text ? new URL(text, location.origin) : other;
    return (it.origin === location.origin ? it : other).href;
  } catch {
    return other.href;
  }
}

const isHere = () => location.pathname === "/join";

// The token of an invitation, in the part of the link that goes to no server; links of old have it
// in the query. It leaves the address bar, and is kept with this place of the history.
function invitation() {
  const address = new URL(location.href);
  const token = new URLSearchParams(address.hash.slice(1)).get("invite")
    ?? address.searchParams.get("invite");
  if (token && isHere()) {
    address.hash = "";
    address.searchParams.delete("invite");
    readdress(address.href);
    note("invite", token);
  }
  return notedOf("invite");
}

// A link that is opened on this very page loads nothing.
addEventListener("hashchange", () => { if (isHere() && location.hash) refresh(); });

const lines = (text) => text.split("\n").filter(Boolean).map((it) => el("p", {}, it));

const SHUT = {
  closed: "Nobody can join at the moment. Those who run this registry make accounts.",
  unknown: "Joining isn't possible at the moment.",
};

function nameBox() {
  return el("input", {
    id: "join-name", name: "username", required: true, pattern: "[a-z][a-z0-9\\-]{0,31}",
    autocomplete: "username", autocapitalize: "off", spellcheck: "false", maxlength: 32,
    title: "1 to 32 of a to z, 0 to 9 and -, with a letter first",
  });
}

async function entered(name, secret, back, go) {
  await logIn({ name, password: secret, stays: true, isBusy: true, isWanted: isHere });
  if (!isHere()) return;
  tell(`Welcome, ${name}.`, 6);
  go(back);
}

function formOf({ back, go }) {
  const place = el("div", { class: "said" });
  const name = nameBox();
  const box = passwordBox("join");
  const button = deliberateButton({ class: "main" }, "Join");
  const submit = async (event) => {
    event.preventDefault();
    const who = name.value, password = box.value();
    const secret = await secretOf(who, password);
    const fields = { name: who, verifier: await verifierOf(who, secret) };
    const invite = notedOf("invite");
    if (invite) fields.invite = invite;
    const answer = await carryOut({
      route: "/join", fields, about: `Join as ${who}`, button, place,
    });
    // One that isn't good stands in nobody's way.
    if (answer?.status === 403) note("invite", "");
    if (!answer?.value) return;
    await box.offer(who);
    fill(place, el("p", { role: "status" }, `${who} is your account.`));
    await entered(who, secret, back, go);
  };
  return el("form", { onsubmit: submit, class: "join" },
    el("p", {}, el("label", { for: "join-name" }, "Name"), name,
      el("small", {}, "It is shown with what you propose.")),
    box.element, el("p", { class: "buttons" }, button), place);
}

/** The page. */
export default async function join({ query, go }) {
  const back = pageOf(query.get("back"));
  const invite = invitation();
  const its = await joining();
  const words = [title("Join"), its.rules ? lines(its.rules) : null];
  const contact = its.contact ? el("p", { class: "aside" }, its.contact) : null;
  if (account()) {
    return [...words, el("p", {}, `You are logged in as ${account()}. `, link(back, "Go on"))];
  }
  if (SHUT[its.door]) return [...words, el("p", {}, SHUT[its.door]), contact];
  if (its.door === "invitation" && !invite) {
    return [...words, el("p", {}, "Joining takes an invitation here: a link from those who run"
      + " this registry."), contact];
  }
  return [...words,
    el("p", {}, "With an account you propose names and comment. There is no mail address: keep the"
      + " password, it can't be sent to you again."),
    formOf({ back, go }), contact];
}
