// What is kept in the browser. A browser may refuse to keep anything: then nothing is kept, and
// the page works all the same.

/** The value at a key of a store, or null. */
export function recall(store, key) {
  try {
    return JSON.parse(globalThis[store].getItem(key));
  } catch {
    return null;
  }
}

/** Keeps a value; null takes it away. Returns whether it is kept. */
export function keep(store, key, value) {
  try {
    if (value === null) globalThis[store].removeItem(key);
    else globalThis[store].setItem(key, JSON.stringify(value));
    return true;
  } catch {
    return false;
  }
}

/** The keys of a store that begin so. */
export function keysOf(store, front) {
  try {
    return Object.keys(globalThis[store]).filter((it) => it.startsWith(front)).sort();
  } catch {
    return [];
  }
}
