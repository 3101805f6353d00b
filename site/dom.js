// Elements from data. Text is always text: nothing here reads markup, and the Trusted Types of the
// Content-Security-Policy refuse whatever would.

const isThere = (child) => child !== null && child !== undefined && child !== false;

// The nodes and texts of nested lists, without null, undefined and false.
const kept = (children) => children.flat(Infinity).filter(isThere);

/**
 * Makes an element.
 * @param {string} tag
 * @param {Object} [attributes] those named `on..` are listeners; null, undefined and false are left
 *   out, and true is an attribute without a value
 * @param {...*} children nodes and texts, also in lists
 */
export function el(tag, attributes, ...children) {
  const element = document.createElement(tag);
  for (const [name, value] of Object.entries(attributes ?? {})) {
    if (!isThere(value)) continue;
    if (name.startsWith("on")) element.addEventListener(name.slice(2), value);
    else element.setAttribute(name, value === true ? "" : value);
  }
  element.append(...kept(children));
  return element;
}

/** Puts nodes and texts in the place of what an element holds. */
export const fill = (element, ...children) => element.replaceChildren(...kept(children));

/** A link inside the site. */
export const link = (href, ...children) => el("a", { href }, ...children);

/** A number with commas between thousands. */
export const counted = (number) => number.toLocaleString("en");

/** "1 name", "2 names". */
export const several = (number, word) => `${counted(number)} ${word}${number === 1 ? "" : "s"}`;

/** How many bytes a text has as UTF-8. */
export const utf8Length = (text) => new TextEncoder().encode(text).length;
