// Keys: from file to file or row to row, folding, and where to go.

const KEYS = [
  ["j, k", "next and previous file or row"], ["o", "fold or unfold the file"], ["x", "fold all files, or unfold the next"],
  ["s", "side by side, or in one column"], ["/", "filter or search"], ["b", "bookmarks"], ["d", "drafts"], ["?", "these keys"],
];

function stops() {
  const folds = [...main.querySelectorAll(".file .fold")];
  return folds.length ? folds : [...main.querySelectorAll(".row a")];
}

function step(by) {
  const all = stops();
  const active = document.activeElement;
  const file = active && active.closest(".file");
  const here = all.indexOf(file ? file.querySelector(".fold") : active);
  const target = all[here < 0 ? (by > 0 ? 0 : all.length - 1) : here + by];
  if (!target) return;
  target.focus({ preventScroll: true });
  target.scrollIntoView({ block: "nearest" });
  const { top } = target.getBoundingClientRect();
  if (top > window.innerHeight / 2) window.scrollBy(0, top - window.innerHeight / 4);
}

function foldHere() {
  const file = document.activeElement && document.activeElement.closest(".file");
  if (file) file.querySelector(".fold").click();
}

function foldAll() {
  const files = [...main.querySelectorAll(".file")];
  if (files.some((one) => !one.isFolded())) files.forEach((one) => one.fold());
  else files.slice(0, MOST_UNFOLDED).forEach((one) => one.unfold());
}

function help() {
  const rows = KEYS.flatMap(([key, what]) => [make("dt", {}, make("kbd", {}, key)), make("dd", {}, what)]);
  const close = button("Close", () => dialog.close());
  const dialog = make("dialog", { "aria-label": "keys" }, make("h2", {}, "Keys"), make("dl", { class: "facts" }, ...rows), close);
  dialog.onclose = () => dialog.remove();
  document.body.append(dialog);
  dialog.showModal();
}

const acts = {
  j: () => step(1),
  k: () => step(-1),
  o: foldHere,
  x: foldAll,
  s: () => isWide.matches && toggleSides(),
  "/": () => {
    const target = main.querySelector("input[type=search]");
    if (target) target.focus();
  },
  b: () => { location.hash = "#/"; },
  d: () => { location.hash = "#/drafts"; },
  "?": help,
};

document.addEventListener("keydown", (event) => {
  if (event.ctrlKey || event.metaKey || event.altKey || event.defaultPrevented) return;
  if (event.target.closest("input, select, textarea, dialog")) return;
  const act = acts[event.key];
  if (!act) return;
  event.preventDefault();
  act();
});
document.getElementById("keys").onclick = help;
