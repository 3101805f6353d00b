// Which page an address shows, and going from one to the next without loading anew.

import { appear } from "./deliberate_button.js";
import { el, fill, link } from "./dom.js";
import { tell, untell } from "./notice.js";
import { files, pageAt } from "./routes.js";
import { arriveAt, keepPlace } from "./scroll_place.js";
import { failed, title, titleOf } from "./widgets.js";

const LOADING = "Loading …";
const LOADING_AFTER = 300;

const main = document.getElementById("main");
const watchers = [];
let turn = 0;
let shownAddress = "";
let wanted = "";           // the address of the page that is shown, or of one that is on its way
let shownPage = null;

const addressOf = (it) => it.pathname + it.search;

// Whether this site has a page at a path.
const hasPage = (pathname) => pageAt(pathname) !== undefined;

/** The page that is shown: its nodes, with what else it offers. */
export const currentPage = () => shownPage;

/** Has a function called after each page that is shown. */
export const watchPages = (watcher) => watchers.push(watcher);

/** Loads the files of all pages, so that going to one needs no server. */
export const loadPages = () => files.forEach((it) => { fetchPage(it).catch(() => {}); });

// Addresses that people write in capitals, or with a slash at the end.
function mended(pathname) {
  const low = pathname.replace(/(.)\/+$/, "$1")
    .replace(/^\/item\/(p[cds])\/(.*)$/i, (_, kind, rest) => (
      `/item/${kind.toUpperCase()}/${rest.toLowerCase()}`));
  return hasPage(low) ? low : pathname;
}

function absent() {
  return [title("No such page"),
    el("p", {}, "There is nothing at this address. ", link("/", "Start page"))];
}

// A browser may keep it that a file couldn't be fetched: the next try has another address.
const failures = new Map();
async function fetchPage(file) {
  const count = failures.get(file) ?? 0;
  try {
    return await import(`./pages/${file}.js${count ? `?${count}` : ""}`);
  } catch (fault) {
    failures.set(file, count + 1);
    throw fault;
  }
}

async function made(address, again) {
  const [form, file, name = "default"] = pageAt(address.pathname) ?? [];
  if (!form) return absent();
  const context = {
    ...form.exec(address.pathname).groups, query: address.searchParams, go, again,
  };
  try {
    return await (await fetchPage(file))[name](context);
  } catch (fault) {
    console.error(fault);
    return failed({ trouble: fault instanceof TypeError ? "offline" : "odd" }, again);
  }
}

/**
 * Shows the page of the address. What was there stays until the new one is ready.
 * @param {Object} [how] focus: whether the heading gets it; scroll: how far down, or null for as is
 */
async function show({ focus = true, scroll = 0 } = {}) {
  const mine = turn += 1;
  const pathname = mended(location.pathname);
  if (pathname !== location.pathname) {
    history.replaceState(history.state, "", pathname + location.search + location.hash);
  }
  const address = new URL(location.href);
  wanted = addressOf(address);
  const slow = setTimeout(() => { if (mine === turn) tell(LOADING); }, LOADING_AFTER);
  arriveAt(scroll);
  const page = await made(address, () => again(address));
  clearTimeout(slow);
  if (mine !== turn) return;
  untell(LOADING);
  shownPage = page;
  shownAddress = wanted;
  const hadFocus = main.contains(document.activeElement);
  fill(main, page);
  appear(main);
  document.title = titleOf(main.querySelector("h1"));
  document.body.classList.add("ready");
  watchers.forEach((watcher) => watcher(address));
  if (scroll !== null) scrollTo(0, scroll);
  // What had the focus isn't there any more.
  if (focus || hadFocus) main.querySelector("h1")?.focus({ preventScroll: true });
}

// A page that asks to be shown again after another one came in its place is not.
function again(address) {
  if (addressOf(location) !== addressOf(address)) return Promise.resolve();
  return show({ focus: false, scroll: null });
}

/** Shows the page anew where it is. */
export const refresh = () => show({ focus: false, scroll: null });

/** Gives the page that is shown another address. */
export function readdress(href) {
  history.replaceState(history.state, "", href);
  shownAddress = wanted = addressOf(location);
}

/** Goes to an address of this site. */
export function go(href, how) {
  keepPlace();
  history.pushState({ scroll: 0 }, "", href);
  return show(how);
}

function followLink(event) {
  const it = event.target.closest?.("a[href]");
  const isPlain = event.button === 0 && !event.ctrlKey && !event.metaKey && !event.shiftKey
    && !event.altKey && !event.defaultPrevented;
  if (!it || !isPlain || it.origin !== location.origin || it.target) return;
  if (it.hasAttribute("download") || !hasPage(it.pathname) || it.hash) return;
  event.preventDefault();
  go(it.href);
}

// Back, and forward. Where the page of that place is there, another one that is on its way isn't
// wanted any more.
function popped({ state }) {
  const address = addressOf(location);
  if (address === wanted) return;
  if (address !== shownAddress) {
    show({ scroll: state?.scroll ?? 0 });
    return;
  }
  turn += 1;
  wanted = address;
  untell(LOADING);
}

/** Begins to show pages. */
export function startRouter() {
  history.scrollRestoration = "manual";
  addEventListener("popstate", popped);
  document.addEventListener("click", followLink);
  return show({ focus: false, scroll: history.state?.scroll ?? 0 });
}
