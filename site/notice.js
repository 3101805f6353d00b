// The line at the foot of the window that says what just happened.

import { el, fill } from "./dom.js";

const place = document.getElementById("notice");
let fading;

/**
 * Says something.
 * @param {string} text the empty one takes away what was said
 * @param {number} [seconds] how long it stays; 0 is until the next
 */
export function tell(text, seconds = 0) {
  clearTimeout(fading);
  // Made anew each time: nothing of it moves.
  fill(place, text ? el("span", {}, text) : null);
  if (seconds) fading = setTimeout(() => fill(place), seconds * 1000);
}

/** Takes a text away, if it is the one that is shown. */
export function untell(text) {
  if (place.textContent === text) tell("");
}
