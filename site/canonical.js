// The canonical text of names.

import { lineOf } from "./paths.js";

/** The canonical text: by the order of paths, and `S vvvv` before the subsystems of a vendor. */
export function canonical(names) {
  const lines = ["# PCI ID registry"];
  let block = "";
  for (const path of [...names.keys()].sort()) {
    if (path.startsWith("PS/") && path.slice(3, 7) !== block) {
      block = path.slice(3, 7);
      lines.push(`S ${block}`);
    }
    lines.push(lineOf(path, names.get(path)));
  }
  return `${lines.join("\n")}\n`;
}
