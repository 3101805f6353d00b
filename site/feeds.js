// Feeds: where there is one, the page links to it, and its head names it for readers of feeds.

import { el } from "./dom.js";

const KIND = "application/atom+xml";
const main = document.getElementById("main");

/** A line that links to a feed, or null where there is none. */
export async function feedLine(name, title) {
  const href = `/feeds/${name}.atom`;
  const { ok } = await fetch(href, { method: "HEAD", credentials: "omit" }).catch(() => ({}));
  return ok ? el("p", { class: "aside" }, "Follow it as a ",
    el("a", { class: "feed", href, title }, "feed"), ".") : null;
}

// The first one of the head is that of all changes, on each page.
function nameFeeds() {
  const wanted = [...main.querySelectorAll("a.feed")];
  const named = [...document.head.querySelectorAll(`link[type="${KIND}"]`)];
  const isNamed = (it) => named.some(({ href }) => href === it.href);
  const news = wanted.filter((it) => !isNamed(it));
  named.slice(1).filter(({ href }) => !wanted.some((it) => it.href === href))
    .forEach((it) => it.remove());
  document.head.append(...news.map(({ href, title }) => (
    el("link", { rel: "alternate", type: KIND, title, href }))));
}

/** Begins to name in the head what the page links to. */
export const startFeeds = () => (
  new MutationObserver(nameFeeds).observe(main, { childList: true, subtree: true }));
