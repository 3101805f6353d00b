// What a good name is: for those who propose, with examples of Debian's pci.ids.

import { el, link } from "../dom.js";
import { title } from "../widgets.js";

/** Names as the list has them, by what each is an example of: [number, name]. */
export const EXAMPLES = {
  vendor: [["1022", "Advanced Micro Devices, Inc. [AMD]"], ["1af4", "Red Hat, Inc."]],
  device: [["8086:1237", "440FX - 82441FX PMC [Natoma]"], ["10de:2684",
    "AD102 [GeForce RTX 4090]"], ["8086:15f3", "Ethernet Controller I225-V"]],
  subsystem: [["8086:1237 1af4:1100", "Qemu virtual machine"], ["10ec:8168 1028:0283",
    "Vostro 220"]],
};

const list = (rows) => el("ul", {}, rows.map(([number, name]) => (
  el("li", {}, el("code", {}, number), " ", name))));

const WRONG = [
  ["Intel Ethernet Controller I225-V", "Ethernet Controller I225-V",
    "The vendor stands in front of the name wherever lspci shows it."],
  ["Ethernet Controller I225-V (rev 03)", "Ethernet Controller I225-V",
    "lspci shows the revision itself, and all revisions have the same number."],
  ["GeForce\u00ae RTX\u2122 4090", "AD102 [GeForce RTX 4090]",
    "The list has no signs of trademarks."],
  ["ETHERNET CONTROLLER I225-V", "Ethernet Controller I225-V",
    "Only abbreviations are in capitals."],
  ["Device 15f3", "no name at all", "Programs show the number where there is no name."],
];

/** The page. */
export default async function guide() {
  const row = ([no, yes, why]) => el("tr", {}, el("td", {}, el("del", {}, no)),
    el("td", {}, el("ins", {}, yes)), el("td", {}, why));
  return [
    title("What a good name is"),
    el("p", {}, "The name says what somebody has who looks at a line of ", el("code", {}, "lspci"),
      ": the chip first, and in square brackets what it is sold as. It is one line of plain text,"
      + " in English where there is a choice."),
    el("h2", {}, "A vendor"), list(EXAMPLES.vendor),
    el("p", {}, "The company as it writes itself, with the short form in brackets where people know"
      + " it by that."),
    el("h2", {}, "A device"), list(EXAMPLES.device),
    el("p", {}, "The chip by its maker's name for it, a word on what it does where that doesn't say"
      + " so, and the product in brackets."),
    el("h2", {}, "A subsystem"), list(EXAMPLES.subsystem),
    el("p", {}, "The board or the machine that the chip is built into. What the chip is called"
      + " need not be said again."),
    el("h2", {}, "Not so"),
    el("div", { class: "wide" }, el("table", {}, el("thead", {}, el("tr", {},
      ["not", "but", "why"].map((it) => el("th", { scope: "col" }, it)))),
    el("tbody", {}, WRONG.map(row)))),
    el("h2", {}, "Where it is from"),
    el("p", {}, "Say in the note where the name can be seen: a driver's source, a data sheet, the"
      + " vendor's page, the output of ", el("code", {}, "lspci -vnn"), ". Proposals without a"
      + " source are often rejected. The form says what looks odd, and takes it all the same: there"
      + " are devices that are called so."),
    el("p", {}, el("a", { class: "button", href: "/propose" }, "Propose a name"), " ",
      link("/help", "Help")),
  ];
}
