// The site, once the frame of the page is painted.

// All that the others import too: it is fetched at once, not level by level.
import "./answers.js";
import "./api.js";
import "./browser_store.js";
import "./dom.js";
import "./happened.js";
import "./history.js";
import "./joining.js";
import "./limits.js";
import "./login.js";
import "./notice.js";
import "./passwords.js";
import "./paths.js";
import "./routes.js";
import "./safe_text.js";
import "./scroll_place.js";
import "./widgets.js";
import "./words.js";

import { restoreAccount } from "./account.js";
import { refuseHeldKeys } from "./deliberate_button.js";
import { startFeeds } from "./feeds.js";
import { startHeader } from "./header.js";
import { load } from "./names.js";
import { loadPages, startRouter } from "./router.js";

const QUIET_AFTER = 1_000;

// A file that is dropped beside its place would take the place of the page.
function keepPage(event) {
  const isFile = event.dataTransfer?.types.includes("Files");
  if (isFile && !event.target.matches?.("[type=file]")) event.preventDefault();
}

restoreAccount();
refuseHeldKeys();
addEventListener("dragover", keepPage);
addEventListener("drop", keepPage);
startHeader();
startFeeds();
startRouter().then(() => {
  import("./status_bar.js");
  // What later pages need is fetched when there is time, and where data isn't spared.
  if (!navigator.connection?.saveData) setTimeout(() => { load(); loadPages(); }, QUIET_AFTER);
});
