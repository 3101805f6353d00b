import { el, link } from "../dom.js";
import { contact } from "../joining.js";
import { title } from "../widgets.js";

const section = (heading, ...words) => [el("h2", {}, heading), el("p", {}, ...words)];

/** What people ask. */
export default async function help() {
  return [
    title("Help"),
    section("Finding a device", "Paste a line of ", el("code", {}, "lspci -nn"),
      ", a hardware id of Windows' device manager (", el("code", {}, "PCI\\VEN_8086&DEV_1237.."),
      ") or a modalias into the box above. Words are found in any order."),
    section("Proposing", "A proposal is a name for a number, or a removal. A moderator approves or"
      + " rejects it; until then its author can withdraw it. Everybody with an account can comment."
      + " What is approved is in the registry at once, and in the published pci.ids some minutes"
      + " later. Several at once: ", link("/propose?many=yes", "propose many"), ". ",
    link("/guide", "What a good name is"), "."),
    section("Accounts", "Reading needs none. To propose and comment, ", link("/join", "join"),
      ": a name and a password, no mail address. ", contact(), " You can ",
      link("/password", "change your password, or leave"), ". On ", link("/mine", "My proposals"),
      " you see what came of yours."),
    section("Who decides", "Moderators decide on names of devices, subsystems, subclasses and"
      + " programming interfaces; senior moderators also on vendors, classes and removals, and they"
      + " import files; administrators give ranks. Nobody decides on their own proposal."),
    section("When no answer comes", "Each command is sent under a key of its own. While no answer"
      + " has come it is sent again, and however often it is sent, it acts once. If you leave or"
      + " close the page meanwhile, the bar at the foot of the window offers to ask again the next"
      + " time. What you have typed and not sent is kept while the tab is open."),
    section("Marks in names", "Letters that aren't Latin, characters that can't be seen and blanks"
      + " at an end have a small mark beside them, so that one name can't pass for another."),
    section("For programs", link("/pci.ids", "/pci.ids"), ", ",
      link("/changes?since=0&format=text", "/changes"), ", ", link("/children", "/children"), ", ",
      link("/read/PC/8086", "/read/PC/8086"), " and ", link("/pending", "/pending"),
      " answer programs; all but the first as JSON or text, and ",
      link("/lookup?flags=3&vendor=8086&device=1237", "/lookup"), " as text."),
    section("For those who run it", link("/people", "Accounts"), " (senior moderators), ",
      link("/load", "import a file"), " (senior moderators)."),
  ];
}
