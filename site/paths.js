// Paths of items: PC/8086, PC/8086/1237 and so on.

const FORMS = [
  [/^PC\/([0-9a-f]{4})$/, "vendor"],
  [/^PC\/([0-9a-f]{4})\/([0-9a-f]{4})$/, "device"],
  [/^PC\/([0-9a-f]{4})\/([0-9a-f]{4})\/([0-9a-f]{4})([0-9a-f]{4})$/, "subsystem"],
  [/^PD\/([0-9a-f]{2})$/, "class"],
  [/^PD\/([0-9a-f]{2})\/([0-9a-f]{2})$/, "subclass"],
  [/^PD\/([0-9a-f]{2})\/([0-9a-f]{2})\/([0-9a-f]{2})$/, "interface"],
  [/^PS\/([0-9a-f]{4})\/([0-9a-f]{4})$/, "generic"],
];

/** The kinds of items, in words. */
export const KIND_WORDS = {
  vendor: "Vendor",
  device: "Device",
  subsystem: "Subsystem",
  class: "Class",
  subclass: "Subclass",
  interface: "Programming interface",
  generic: "Generic subsystem",
};

/** The numbers of each kind, from the top: what each is called, and how many digits it has. */
export const NUMBERS = {
  vendor: [["Vendor", 4]],
  device: [["Vendor", 4], ["Device", 4]],
  subsystem: [["Vendor", 4], ["Device", 4], ["Subsystem vendor", 4], ["Subsystem", 4]],
  class: [["Class", 2]],
  subclass: [["Class", 2], ["Subclass", 2]],
  interface: [["Class", 2], ["Subclass", 2], ["Interface", 2]],
  generic: [["Vendor", 4], ["Subsystem", 4]],
};

/** The kinds that are below one. */
export const BELOW = {
  vendor: ["device", "generic"],
  device: ["subsystem"],
  class: ["subclass"],
  subclass: ["interface"],
  subsystem: [],
  interface: [],
  generic: [],
};

const DEPTHS = {
  vendor: 0, class: 0, device: 1, subclass: 1, generic: 1, subsystem: 2, interface: 2,
};

/** A path as { text, kind, numbers }, or null where the text is none. */
export function parse(text) {
  for (const [form, kind] of FORMS) {
    const found = form.exec(text);
    if (found) return { text, kind, numbers: found.slice(1) };
  }
  return null;
}

/** The path of a kind with these numbers, or null where they make none. */
export function pathOf(kind, digits) {
  const [a, b, c, d] = digits.map((it) => it.trim().toLowerCase());
  const text = {
    vendor: `PC/${a}`,
    device: `PC/${a}/${b}`,
    subsystem: `PC/${a}/${b}/${c}${d}`,
    class: `PD/${a}`,
    subclass: `PD/${a}/${b}`,
    interface: `PD/${a}/${b}/${c}`,
    generic: `PS/${a}/${b}`,
  }[kind];
  return parse(text)?.kind === kind ? text : null;
}

/** The path of the item that this one is below; null of a vendor and a class. */
export function parentOf(path) {
  const { kind, numbers } = parse(path);
  if (kind === "vendor" || kind === "class") return null;
  if (kind === "generic") return `PC/${numbers[0]}`;
  return path.slice(0, path.lastIndexOf("/"));
}

/** A path and those above it, from the top. */
export function withParents(path) {
  const all = [];
  for (let at = path; at; at = parentOf(at)) all.unshift(at);
  return all;
}

/** The last part of the number, as the file writes it. */
export function ownNumber(path) {
  const { kind, numbers } = parse(path);
  return kind === "subsystem" ? `${numbers[2]} ${numbers[3]}` : numbers.at(-1);
}

/** The whole number, as people write it: 8086:1237. */
export function wholeNumber(path) {
  const { kind, numbers } = parse(path);
  if (kind === "subsystem") return `${numbers[0]}:${numbers[1]} ${numbers[2]}:${numbers[3]}`;
  return numbers.join(path.startsWith("PD/") ? "" : ":");
}

/** An item as people say it: 8086:1237, vendor 8086, subclass 0106. */
export function spoken(path) {
  const { kind } = parse(path);
  const isPlain = kind === "device" || kind === "subsystem";
  return isPlain ? wholeNumber(path) : `${KIND_WORDS[kind].toLowerCase()} ${wholeNumber(path)}`;
}

/** The line of an item in a file. */
export function lineOf(path, name) {
  const { kind } = parse(path);
  const sign = kind === "class" ? "C " : "";
  return `${"\t".repeat(DEPTHS[kind])}${sign}${ownNumber(path)}  ${name}`;
}

/** The query of /lookup whose text `lspci -nn` shows; null where it shows none of its own. */
export function lookupOf(path) {
  const { kind, numbers: [a, b, c, d] } = parse(path);
  switch (kind) {
    case "vendor": return `flags=40001&vendor=${a}`;
    case "device": return `flags=40003&vendor=${a}&device=${b}`;
    case "subsystem":
      return `flags=4000b&vendor=${a}&device=${b}&subvendor=${c}&subdevice=${d}`;
    case "generic": return `flags=4000b&subvendor=${a}&subdevice=${b}`;
    case "subclass": return `flags=40004&class=${a}${b}`;
    case "interface": return `flags=40010&class=${a}${b}&progif=${c}`;
    default: return null;
  }
}

/** The least rank that decides on a path. */
export function rankFor(path, isRemoval) {
  const { kind } = parse(path);
  return isRemoval || kind === "vendor" || kind === "class" ? 2 : 1;
}

/** The address of an item's page. */
export const hrefOf = (path) => `/item/${path}`;
