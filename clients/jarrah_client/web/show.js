// Showing the view of a place. Going back brings back what stood there, and where.

const views = { "": bookmarks, log, changeset, tree, file, annotate, search, drafts, stack, compare, versions, grep };
const MOST_KEPT = 40;
const kept = new Map();
let here = null;
let isFirst = true;

function entryOfHistory() {
  const key = history.state && history.state.key;
  if (key && kept.has(key)) return kept.get(key);
  const entry = { key: key || `${Date.now()}-${Math.random()}`, nodes: [], title: "", scroll: 0 };
  entry.scroll = key ? Number(sessionStorage.getItem(key)) || 0 : 0;
  history.replaceState({ key: entry.key }, "");
  kept.set(entry.key, entry);
  if (kept.size > MOST_KEPT) kept.delete(kept.keys().next().value);
  return entry;
}

function leave() {
  if (!here || here.isLoading) return;
  here.nodes = [...main.childNodes];
  here.focused = main.contains(document.activeElement) ? document.activeElement : null;
}

async function partsOf(hash) {
  const [route, words] = hash.slice(1).split("?");
  const [, kind = "", id = "", ...rest] = route.split("/");
  if (!Object.hasOwn(views, kind)) return [heading("There is no such page")];
  try {
    const path = rest.map(decodeURIComponent).join("/");
    return await views[kind](decodeURIComponent(id), path, new URLSearchParams(words || ""));
  } catch (fault) {
    const again = button("Try again", () => {
      kept.delete(here.key);
      here = null;
      return show();
    });
    return [make("nav", { "aria-label": "path" }, link("#/", "Bookmarks")), heading("That didn't work"),
      make("div", { class: "card fault" }, make("p", { class: "note" }, fault.message)), make("div", { class: "actions" }, again)];
  }
}

function put(entry) {
  main.replaceChildren(...entry.nodes);
  main.removeAttribute("aria-busy");
  redrawAll();
  document.title = entry.title;
}

async function show() {
  leave();
  const entry = entryOfHistory();
  here = entry;
  if (entry.nodes.length) {
    put(entry);
    window.scrollTo(0, entry.scroll);
    const target = entry.focused || main.querySelector("h1");
    if (target) target.focus({ preventScroll: true });
    return;
  }
  entry.isLoading = true;
  main.setAttribute("aria-busy", "true");
  const parts = await partsOf(location.hash);
  entry.isLoading = false;
  if (here !== entry) return;
  entry.nodes = parts.filter((part) => part !== null);
  const head = entry.nodes.find((node) => node.tagName === "H1");
  entry.title = head && location.hash.length > 2 ? `${head.textContent} \u00b7 Jarrahchess` : "Jarrahchess";
  put(entry);
  if (parts.target) parts.target.scrollIntoView({ block: "center" });
  else window.scrollTo(0, entry.scroll);
  if (head && !isFirst) head.focus({ preventScroll: true });
  isFirst = false;
}

history.scrollRestoration = "manual";
window.addEventListener("scroll", () => { if (here && !here.isLoading) here.scroll = window.scrollY; }, { passive: true });
window.addEventListener("pagehide", () => { if (here) sessionStorage.setItem(here.key, String(window.scrollY)); });
window.addEventListener("hashchange", show);
document.getElementById("skip").onclick = (event) => {
  event.preventDefault();
  const target = main.querySelector("h1");
  if (target) {
    target.focus();
    target.scrollIntoView();
  }
};
ask("server").then(({ url }) => { document.getElementById("server").textContent = url; }, () => {});
show();
