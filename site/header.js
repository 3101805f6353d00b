// The head of the page: the search box, the menu, and who is logged in.

import { account, logOut, NONE, rank, watchAccount } from "./account.js";
import { countNew } from "./answers.js";
import { el } from "./dom.js";
import { askToLogIn, isAwaited } from "./login.js";
import { load } from "./names.js";
import { currentPage, go, readdress, refresh, watchPages } from "./router.js";
import { RANKS } from "./words.js";

const RESTS_AFTER = 300;
const main = document.getElementById("main");
const box = document.getElementById("q");
const log = document.getElementById("log");
const own = el("a", { id: "own", href: "/mine", hidden: true });
const menu = document.getElementById("menu");
const mine = document.getElementById("mine");
const pages = document.getElementById("pages");

const firstFound = () => main.querySelector("#found a");
const isSearch = () => location.pathname === "/search";

const searchHref = () => `/search?q=${encodeURIComponent(box.value)}`;

// The address follows, but not each key: browsers ignore one that changes too often.
let resting = 0;
let followedAt = -Infinity;
function addressFollows() {
  if (resting && isSearch()) readdress(searchHref());
  clearTimeout(resting);
  resting = 0;
  followedAt = performance.now();
}

// The search follows what is typed, in place.
function typed() {
  if (isSearch() && currentPage()?.search) {
    clearTimeout(resting);
    resting = setTimeout(addressFollows, RESTS_AFTER);
    if (performance.now() - followedAt > RESTS_AFTER) addressFollows();
    currentPage().search(box.value);
  } else if (isSearch()) {
    // The page is on its way: it begins with what is typed by now.
    history.replaceState(history.state, "", searchHref());
    refresh();
  } else if (box.value) go(searchHref(), { focus: false });
}

// A box of one line would join lines that are pasted: marks keep them apart.
function pasteLines(event) {
  const text = event.clipboardData.getData("text").trim();
  if (!text.includes("\n")) return;
  event.preventDefault();
  box.value = text.split("\n").map((it) => it.trim()).filter(Boolean).join(" | ");
  typed();
}

function startSearch() {
  document.getElementById("find").addEventListener("submit", (event) => {
    event.preventDefault();
    addressFollows();
    if (isSearch() && firstFound()) firstFound().click();
    else typed();
  });
  box.addEventListener("input", typed);
  box.addEventListener("focus", () => load());
  box.addEventListener("blur", addressFollows);
  addEventListener("pagehide", addressFollows);
  box.addEventListener("paste", pasteLines);
  box.addEventListener("keydown", (event) => {
    if (event.key !== "ArrowDown" || !firstFound()) return;
    event.preventDefault();
    firstFound().focus();
  });
  main.addEventListener("keydown", moveInFound);
}

// The arrows go through what was found, and back to the box.
function moveInFound(event) {
  const row = event.target.closest?.("#found li");
  if (!row || (event.key !== "ArrowDown" && event.key !== "ArrowUp")) return;
  event.preventDefault();
  const isDown = event.key === "ArrowDown";
  const next = isDown ? row.nextElementSibling : row.previousElementSibling;
  if (next) next.querySelector("a")?.focus();
  else if (!isDown) box.focus();
}

// The menu on a phone; elsewhere it is always open.
function openMenu(isOpen) {
  menu.setAttribute("aria-expanded", isOpen);
  pages.classList.toggle("open", isOpen);
}

function startMenu() {
  menu.addEventListener("click", () => openMenu(menu.getAttribute("aria-expanded") === "false"));
  pages.addEventListener("click", () => openMenu(false));
  document.querySelector("header").addEventListener("keydown", (event) => {
    if (event.key !== "Escape" || menu.getAttribute("aria-expanded") === "false") return;
    openMenu(false);
    menu.focus();
  });
}

// A page that is shown again where it is leaves the menu as it is.
let shownPlace = "";
function showPlace(address) {
  if (address.href !== shownPlace) openMenu(false);
  shownPlace = address.href;
  if (address.pathname === "/mine") mine.textContent = "My proposals";
  for (const it of pages.querySelectorAll("a")) {
    if (it.pathname === address.pathname) it.setAttribute("aria-current", "page");
    else it.removeAttribute("aria-current");
  }
  if (document.activeElement === box) return;
  box.value = address.pathname === "/search" ? address.searchParams.get("q") ?? "" : "";
}

const rankWords = () => (
  rank() === NONE ? "not an account of the registry yet" : RANKS[rank()] ?? "");

function showWho() {
  const name = account();
  log.textContent = name ? "Log out" : "Log in";
  own.textContent = name ?? "";
  own.hidden = name === null;
  own.title = name ? rankWords() : "";
  // Its place is kept, so that the menu doesn't shift.
  mine.classList.toggle("away", name === null);
  if (name !== counted) countAnswers(name);
}

// Counted at log-in, and again when the proposals were looked at.
let counted = null;
async function countAnswers(name) {
  counted = name;
  const number = name ? await countNew(name) : 0;
  if (account() === name) mine.textContent = `My proposals${number ? ` (${number} new)` : ""}`;
}

// Who is in the middle of typing keeps the page that is there.
const isTyping = () => main.contains(document.activeElement)
  && document.activeElement.matches("input, textarea, select");

/** Begins to keep the head up to date. */
export function startHeader() {
  startSearch();
  startMenu();
  watchPages(showPlace);
  watchAccount((isBusy) => {
    showWho();
    if (!isBusy && !isTyping() && !isAwaited()) refresh();
  });
  log.addEventListener("click", () => (account() ? logOut() : askToLogIn()));
  log.before(own);
  showWho();
}
