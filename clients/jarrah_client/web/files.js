// Lists of changed files: an index of them, each folded or with its lines, which are asked for when
// it is unfolded.

const marks = { added: "+", edited: "\u2219", deleted: "\u2212", absent: "\u2212", conflict: "!" };
const reasons = {
  binary: "The bytes are no text.",
  large: "The file is too large to be shown line by line.",
};
const MOST_UNFOLDED = 40;
const INDEX_LENGTH = 200;
const MOST_KNOWN = 20000;

function sizeWords({ before, after }) {
  const file = after || before;
  if (!file) return "";
  return (file.kind === "regular" ? "" : `${file.kind}, `) + sized(file.size);
}

function bodyOf(file, ids) {
  if (file.hunks === null) return make("p", { class: "note" }, `${reasons[file.why] || ""} ${sizesOf(file)}`);
  if (file.hunks.length) return hunkBody(file, ids);
  const kinds = file.before && file.after && file.before.kind !== file.after.kind;
  return make("p", { class: "note" }, kinds ? `${file.before.kind}, and ${file.after.kind} now` : "There are no lines.");
}

function sizesOf({ before, after }) {
  if (before && after) return `${sized(before.size)} before, ${sized(after.size)} after.`;
  return before || after ? sized((before || after).size) : "";
}

// One file: its head, and its lines below it once it is unfolded. `load` asks for them.
function fileRow(file, { ids, load, copied }) {
  const fold = make("button", { class: "fold", type: "button", "aria-expanded": "false", "aria-label": `lines of ${file.path}` });
  const icon = make("span", { class: "icon" });
  const word = make("span", { class: "word" });
  const counts = make("span", { class: "right soft" });
  const name = make("span", { class: "name" });
  const head = make("div", { class: "cells entry change" }, fold, icon, word, name, counts);
  const body = make("div", { class: "lines", hidden: "" });
  const row = make("div", { class: "file" }, head, body);

  row.take = (found) => {
    row.file = file = found;
    const isHere = file.after && ids.now;
    const source = copied && copied.has(file.path) ? copied.get(file.path).path : file.moved_from;
    name.replaceChildren(isHere ? link(place("file", ids.now, file.path), file.path) : file.path, source ? soft(` from ${source}`) : "");
    const kind = file.conflict ? "conflict" : file.change;
    icon.className = `icon ${kind}`;
    icon.textContent = marks[kind] || "";
    word.className = `word ${kind}`;
    word.textContent = kind;
    counts.textContent = file.hunks && file.hunks.length ? `+${number(file.added)} \u2212${number(file.deleted)}` : sizeWords(file);
    if (!body.hidden) row.draw();
  };
  row.draw = () => {
    row.drawn = asSides();
    const conflict = file.conflict ? [make("p", { class: "note fault" },
      `What was before doesn't fit onto the other base by itself: ${file.conflict}. Between marks, \u201chere\u201d is the version before, and \u201cthere\u201d what the later one stands on.`)] : [];
    body.replaceChildren(...conflict, bodyOf(file, ids));
  };
  row.redraw = () => {
    if (!body.hidden && file.why !== "later" && row.drawn !== asSides()) row.draw();
  };
  row.fold = () => {
    body.hidden = true;
    fold.setAttribute("aria-expanded", "false");
  };
  row.unfold = async () => {
    body.hidden = false;
    fold.setAttribute("aria-expanded", "true");
    if (file.why !== "later") {
      row.draw();
      return;
    }
    body.replaceChildren(make("p", { class: "note" }, "Loading"));
    try {
      row.take(await load(file.path));
    } catch (fault) {
      body.replaceChildren(make("p", { class: "note fault" }, fault.message), make("div", { class: "actions more" }, button("Try again", row.unfold)));
    }
  };
  row.isFolded = () => body.hidden;
  fold.onclick = () => (body.hidden ? row.unfold() : row.fold());
  row.take(file);
  return row;
}

function redrawAll() {
  for (const row of main.querySelectorAll(".file")) row.redraw();
  for (const one of main.querySelectorAll(".toggle")) {
    one.setAttribute("aria-pressed", String(layout.sides));
    one.hidden = !isWide.matches;
  }
}

function toggleSides() {
  layout.sides = !layout.sides;
  recall("sides", layout.sides ? "1" : "0");
  redrawAll();
}
isWide.addEventListener("change", redrawAll);

function sidesButton() {
  const words = { class: "button toggle", "aria-pressed": String(layout.sides), title: "key s" };
  const one = button("Side by side", toggleSides, words);
  one.hidden = !isWide.matches;
  return one;
}

// The index of some files. `known` are those that are told already; `further` gives the next ones, or
// nothing where there are no more.
async function fileList({ known, total, further, ids, load, copied, none }) {
  const rows = new Map();
  const places = new Map(known.map(({ path }, at) => [path, at]));
  const area = make("div", { class: "files" });
  const told = make("span", { class: "soft", role: "status" });
  const row = (file) => {
    if (!rows.has(file.path)) {
      rows.set(file.path, fileRow(file, { ids, load, copied }));
      if (total <= MOST_UNFOLDED && file.why !== "later") rows.get(file.path).unfold();
    }
    return rows.get(file.path);
  };
  const reach = async (count) => {
    while (known.length < count && known.length < total && further) {
      const more = await further();
      if (!more.length) break;
      known.push(...more);
    }
  };
  let turns = 0;
  const list = async (text) => {
    const wanted = text.toLowerCase();
    const turn = (turns += 1);
    if (text) await reach(MOST_KNOWN);
    const found = text ? known.filter(({ path }) => path.toLowerCase().includes(wanted)) : null;
    const stretch = async (skip, count) => {
      if (found) return stretches(found)(skip, count);
      await reach(skip + count);
      return { ...await stretches(known)(skip, count), total };
    };
    const { parts } = await longList({ load: stretch, row, size: INDEX_LENGTH, none: text ? "No path has it." : none, newer: "Earlier files", older: "Further files" });
    if (turn !== turns) return;
    area.replaceChildren(...parts);
    const among = known.length < total ? ` of the first ${number(known.length)} files` : ` of ${counted(total, "file")}`;
    told.textContent = found ? `${number(found.length)}${among}` : "";
  };
  const filter = make("input", { type: "search", placeholder: "filter paths", "aria-label": "filter paths", class: "filter" });
  let timer = null;
  filter.oninput = () => {
    clearTimeout(timer);
    timer = setTimeout(() => list(filter.value.trim()).catch((fault) => { told.textContent = fault.message; }), 150);
  };
  const shown = () => [...area.querySelectorAll(".file")];
  const unfold = button("Unfold", async () => {
    const folded = shown().filter((one) => one.isFolded()).slice(0, MOST_UNFOLDED);
    for (const one of folded) await one.unfold();
  }, { title: `the next ${MOST_UNFOLDED} that are folded` });
  const fold = button("Fold all", () => shown().forEach((one) => one.fold()));
  // Puts what is known of a file now in place of what was known before.
  const take = (file) => {
    const at = places.get(file.path);
    if (at === undefined || known[at].why !== "later") return;
    known[at] = file;
    const one = rows.get(file.path);
    if (!one) return;
    one.take(file);
    if (file.why !== "later" && total <= MOST_UNFOLDED) one.unfold();
  };
  const tools = total > 1 ? [filter, told, unfold, fold] : [];
  await list("");
  return { parts: [make("div", { class: "actions" }, ...tools, total ? sidesButton() : null), area], take };
}
