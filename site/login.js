// The window that asks for an account and a password.

import { account, logIn } from "./account.js";
import { el, fill } from "./dom.js";
import { joining } from "./joining.js";
import { troubleWords } from "./words.js";

const dialog = document.getElementById("dialog");
const ENTERED = "entered";
let waits = false;

/** Whether a command waits for a log-in: it belongs to the page that is there. */
export const isAwaited = () => dialog.open && waits;

function boxes() {
  const shared = { required: true, "aria-describedby": "log-fault" };
  return {
    name: el("input", {
      ...shared, id: "log-name", name: "username", autocomplete: "username",
      autocapitalize: "off", spellcheck: "false",
    }),
    password: el("input", {
      ...shared, id: "log-password", name: "password", type: "password",
      autocomplete: "current-password",
    }),
    stays: el("input", { id: "log-keep", type: "checkbox" }),
    fault: el("p", { id: "log-fault", class: "fault", role: "alert" }),
    enter: el("button", { class: "main" }, "Log in"),
  };
}

async function tryIt({ name, password, stays, fault, enter }, isBusy) {
  enter.disabled = true;
  fill(fault);
  // Whoever cancels meanwhile isn't logged in by an answer that comes late.
  const isWanted = () => enter.isConnected && dialog.open;
  const answer = await logIn({
    name: name.value.trim(), password: password.value, stays: stays.checked, isBusy, isWanted,
  });
  enter.disabled = false;
  if (!isWanted()) return;
  if (answer.value && account()) dialog.close(ENTERED);
  else {
    fill(fault, troubleWords(answer.trouble));
    password.select();
  }
}

// The way to an account: what was typed is kept for when one comes back.
function newcomers() {
  const back = location.pathname === "/join" ? "" : location.pathname + location.search;
  const close = () => dialog.close("");
  const words = el("span");
  joining().then(({ door, contact }) => fill(words,
    door === "open" || door === "invitation" ? ["No account yet? ", el("a", {
      href: `/join?${new URLSearchParams({ back })}`, onclick: close,
    }, "Join"), ". "] : "Accounts are made by those who run this registry. ", contact));
  return words;
}

function formOf(fields, why, isBusy) {
  const { name, password, stays, fault, enter } = fields;
  const submit = (event) => { event.preventDefault(); tryIt(fields, isBusy); };
  const cancel = () => dialog.close("");
  return el("form", { method: "dialog", onsubmit: submit },
    el("h2", { id: "dialog-title" }, "Log in"),
    why ? el("p", {}, why) : null,
    el("label", { for: "log-name" }, "Account"), name,
    el("label", { for: "log-password" }, "Password"), password,
    el("p", { class: "tick" }, stays,
      el("label", { for: "log-keep" }, "Stay logged in for 30 days, over a restart too")),
    fault,
    el("p", { class: "buttons" }, enter,
      el("button", { type: "button", onclick: cancel }, "Cancel")),
    el("p", {}, el("small", {}, newcomers())));
}

/**
 * Asks for an account and a password.
 * @param {string} [why] what needs an account
 * @returns {Promise<boolean>} whether somebody was logged in before, or has logged in here; whoever
 *   cancels has not, also where another tab logged in meanwhile
 */
export function askToLogIn(why) {
  if (account()) return Promise.resolve(true);
  if (dialog.open) return Promise.resolve(false);
  const fields = boxes();
  return new Promise((resolve) => {
    const close = () => { fill(dialog); resolve(dialog.returnValue === ENTERED); };
    dialog.addEventListener("close", close, { once: true });
    fill(dialog, formOf(fields, why, why !== undefined));
    dialog.returnValue = "";
    waits = why !== undefined;
    dialog.showModal();
    fields.name.focus();
  });
}
