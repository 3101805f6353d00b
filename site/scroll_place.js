// What is kept with a place in the history, and is there again after a reload and Back: how far
// down the page is, and what narrows a list.

const RESTS_AFTER = 300;
let noted = {};
let resting = 0;
let keptAt = -Infinity;
let arrival = 0;

/** Keeps what was noted. Browsers ignore a history that changes too often. */
export function keepPlace() {
  clearTimeout(resting);
  keptAt = performance.now();
  history.replaceState({ ...history.state, ...noted, scroll: scrollY }, "");
  noted = {};
}

/** Notes something of this place; it is kept soon, and before the place is left. */
export function note(name, value) {
  noted[name] = value;
  clearTimeout(resting);
  if (performance.now() - keptAt > RESTS_AFTER) keepPlace();
  else resting = setTimeout(keepPlace, RESTS_AFTER);
}

/** What was noted of this place, or undefined. */
export const notedOf = (name) => noted[name] ?? history.state?.[name];

/** Says how far down the page will be shown that is made now; null is as far as the one before. */
export const arriveAt = (scroll) => { arrival = scroll; };

/** Whether the page that is made now is shown from further down than its top. */
export const isArrivingBelow = () => arrival > 0;

addEventListener("pagehide", keepPlace);
addEventListener("popstate", () => {
  clearTimeout(resting);
  noted = {};
});
