// Which page an address shows.

const PAGES = [
  [/^\/$/, "home"],
  [/^\/vendors$/, "list", "vendors"],
  [/^\/classes$/, "list", "classes"],
  [/^\/item\/(?<path>P[CDS]\/[0-9a-f/]+)$/, "item"],
  [/^\/search$/, "search"],
  [/^\/proposals\/(?<number>[1-9][0-9]{0,9})$/, "proposal"],
  [/^\/propose$/, "propose"],
  [/^\/queue$/, "queue"],
  [/^\/decided$/, "decided"],
  [/^\/recent(?:\/(?<day>[0-9]{4}-[0-9]{2}-[0-9]{2}))?$/, "recent"],
  [/^\/check$/, "check", "check"],
  [/^\/load$/, "check", "load"],
  [/^\/mine$/, "mine"],
  [/^\/people$/, "people"],
  [/^\/join$/, "join"],
  [/^\/password$/, "password"],
  [/^\/(help|about)$/, "help"],
  [/^\/guide$/, "guide"],
];

/** The page at a path: what its path is like, its file, and its name there. */
export const pageAt = (pathname) => PAGES.find(([form]) => form.test(pathname));

/** The files of all pages. */
export const files = [...new Set(PAGES.map(([, file]) => file))];
