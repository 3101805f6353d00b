// The part of a form in which somebody gets a password: one that is made, or one's own.

import { el, fill } from "./dom.js";
import { FEWEST, isMade, newPassword } from "./passwords.js";

function faultOf(password) {
  if (isMade(password)) return "";
  if (/[\u0000-\u001f\u007f]/.test(password)) return "A password has no control characters.";
  const isShort = [...password].length < FEWEST;
  return isShort ? `At least ${FEWEST} characters, or the one that was made for you.` : "";
}

/**
 * @param {string} front what the ids begin with
 * @param {string} [label]
 * @returns {Object} element; value(): the password; offer(name): has the browser keep it
 */
export function passwordBox(front, label = "Password") {
  const box = el("input", {
    id: `${front}-password`, type: "password", autocomplete: "new-password", required: true,
    "aria-describedby": `${front}-made`, maxlength: 200,
  });
  const made = el("small", { id: `${front}-made` });
  const look = () => {
    box.setCustomValidity(faultOf(box.value));
    fill(made, isMade(box.value)
      ? ["Made for you: ", el("code", {}, box.value), ". Let your browser keep it, or write it"
        + ` down. Or type one of your own, with at least ${FEWEST} characters.`]
      : `Yours, with at least ${FEWEST} characters. Only a hash of it leaves this page.`);
  };
  box.addEventListener("input", look);
  box.value = newPassword();
  look();
  const offer = async (name) => {
    if (!globalThis.PasswordCredential) return;
    const data = { id: name, name, password: box.value };
    await navigator.credentials.store(new PasswordCredential(data)).catch(() => {});
  };
  return {
    element: el("p", {}, el("label", { for: box.id }, label), box, made),
    value: () => box.value, offer,
  };
}
