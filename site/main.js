// Where the site begins.

// A page that isn't seen has no frames.
const UNSEEN_AFTER = 100;
const FAILED = "This page couldn't be loaded whole. Load it again.";

// What index.html has is painted first: the modules would keep the processor from it.
function painted() {
  return new Promise((go) => {
    requestAnimationFrame(() => setTimeout(go));
    setTimeout(go, UNSEEN_AFTER);
  });
}

// The file of the page is fetched beside the others, and asked for again by the router.
async function fetchPage() {
  const { pageAt } = await import("./routes.js");
  const [, file] = pageAt(location.pathname) ?? [];
  if (file) await import(`./pages/${file}.js`);
}

painted().then(() => {
  fetchPage().catch(() => {});
  return import("./site.js");
}).catch(() => document.getElementById("main").append(FAILED));
