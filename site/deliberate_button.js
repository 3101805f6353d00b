// Buttons that don't act by accident: not on the second click of a double click, and not within
// half a second of their being shown, when a hand may still be after what was there before.

import { el } from "./dom.js";

const SETTLES = 500;

/** Whether so little time has gone by since a moment that a hand can't have meant this. */
export const isTooSoon = (moment) => performance.now() - moment < SETTLES;

// When each button was made, or shown.
const shownAt = new WeakMap();

/** Says that a button, or those in a place, are shown now, which may be later than made. */
export function appear(place) {
  for (const it of [place, ...place.querySelectorAll("button")]) shownAt.set(it, performance.now());
}

/**
 * Makes a button that acts only when it is meant; without `onclick` it sends its form.
 * @param {Object} attributes as of `el`
 */
export function deliberateButton({ onclick, ...attributes }, ...children) {
  const button = el("button", {
    type: onclick ? "button" : "submit",
    ...attributes,
    onclick(event) {
      const isMeant = !isTooSoon(shownAt.get(button)) && event.detail < 2 && !isDead(button);
      if (!isMeant) event.preventDefault();
      else onclick?.(event);
    },
  }, ...children);
  shownAt.set(button, performance.now());
  return button;
}

/** Whether a button's command is under way. */
export const isDead = (button) => button.getAttribute("aria-disabled") === "true";

/** Makes a button dead or alive; a dead one keeps the focus. */
export function setDead(button, dead) {
  if (dead) button.setAttribute("aria-disabled", "true");
  else button.removeAttribute("aria-disabled");
}

/** Keeps a key that is held from pressing buttons again and again. */
export function refuseHeldKeys() {
  document.addEventListener("keydown", (event) => {
    const presses = event.key === "Enter" || event.key === " ";
    const isText = event.target.matches?.(event.key === " " ? "input, textarea" : "textarea");
    if (event.repeat && presses && !isText) event.preventDefault();
  }, { capture: true });
}
