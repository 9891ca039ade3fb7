// The lines of a diff: in one column, or before and after side by side; long ones in stretches.

const MOST_ROWS = 1500;
const MOST_LINE = 2000;
const BEFORE_PART = 200;
const isWide = window.matchMedia("(min-width: 60rem)");
const layout = { sides: recalled("sides") === "1" };
const asSides = () => layout.sides && isWide.matches;

function recalled(key) {
  try {
    return localStorage.getItem(key);
  } catch {
    return null;
  }
}

function recall(key, value) {
  try {
    localStorage.setItem(key, value);
  } catch {
    // A browser that keeps nothing: the choice holds until the page is left.
  }
}

// All lines of some hunks with their numbers; what is said of a line's end is its note.
function diffLines(hunks) {
  const lines = [];
  for (const hunk of hunks) {
    let [old] = hunk.old;
    let [now] = hunk.new;
    lines.push({ sign: "@", text: `@@ \u2212${hunk.old.join(",")} +${hunk.new.join(",")} @@` });
    for (const line of hunk.lines) {
      const sign = line[0];
      if (sign === "\\") {
        lines[lines.length - 1].note = line.slice(1);
        continue;
      }
      lines.push({ sign, text: line.slice(1), old, now });
      if (sign !== "+") old += 1;
      if (sign !== "-") now += 1;
    }
  }
  return lines;
}

// Lines that stand beside one another: those that went with those that came in their place.
function sideBySide(lines) {
  const pairs = [];
  for (let at = 0; at < lines.length;) {
    if (lines[at].sign === "@" || lines[at].sign === " ") {
      pairs.push({ left: lines[at], right: lines[at] });
      at += 1;
      continue;
    }
    const run = { "-": [], "+": [] };
    for (; at < lines.length && run[lines[at].sign]; at += 1) run[lines[at].sign].push(lines[at]);
    const length = Math.max(run["-"].length, run["+"].length);
    for (let one = 0; one < length; one += 1) pairs.push({ left: run["-"][one], right: run["+"][one] });
  }
  return pairs;
}

// Marks the part in which a line differs from the one in its place, where they have much in common.
function markParts({ left, right }) {
  if (!left || !right || left === right) return;
  const [one, other] = [left.text, right.text];
  const least = Math.min(one.length, other.length);
  const isHalf = (text, at) => /[\udc00-\udfff]/.test(text.charAt(at));
  let front = 0;
  while (front < least && one[front] === other[front]) front += 1;
  if (isHalf(one, front) || isHalf(other, front)) front -= 1;
  let back = 0;
  while (back < least - front && one[one.length - 1 - back] === other[other.length - 1 - back]) back += 1;
  if (back && isHalf(one, one.length - back)) back -= 1;
  if (front + back < Math.max(one.length, other.length) / 3) return;
  left.part = [front, one.length - back];
  right.part = [front, other.length - back];
}

// A line's text; of a very long one what stands about the part that differs.
function lineText({ text, part }) {
  const [from, to] = part || [0, 0];
  const start = text.length > MOST_LINE ? Math.max(0, from - BEFORE_PART) : 0;
  const end = text.length > MOST_LINE ? start + MOST_LINE : text.length;
  const cut = (one, other) => text.slice(Math.max(start, one), Math.min(end, other));
  const left = text.length - (Math.min(end, text.length) - start);
  return make("span", { class: "text" }, start ? soft("\u2026 ") : null, cut(0, from), part ? make("b", {}, cut(from, to)) : null, cut(to, text.length),
    left ? soft(` \u2026 ${counted(left, "further character")}`) : null);
}

function lineNumber(id, path, count, label) {
  if (count === null) return make("span", { class: "number" });
  if (!id) return make("span", { class: "number" }, String(count));
  return lineLink(place("file", id, path, { line: count }), count, label);
}

const signs = { "-": "\u2212", "+": "+", " ": " " };
const tints = { "-": "minus", "+": "plus", " ": "" };
const noted = (...lines) => lines.filter((line) => line && line.note).map((line) => make("div", { class: "gap" }, line.note));

function unifiedRows(line, { path, now, before }) {
  if (line.sign === "@") return [make("div", { class: "gap" }, line.text)];
  return [make("div", { class: tints[line.sign] },
    lineNumber(before, path, line.sign === "+" ? null : line.old, "old line"),
    lineNumber(now, path, line.sign === "-" ? null : line.now, "new line"),
    make("span", { class: "sign" }, signs[line.sign]), lineText(line)), ...noted(line)];
}

function sideRows({ left, right }, { path, now, before }) {
  if (left && left.sign === "@") return [make("div", { class: "gap" }, left.text)];
  const half = (line, id, key, label) => [
    lineNumber(id, path, line ? line[key] : null, label),
    make("span", { class: `sign ${line ? tints[line.sign] : "none"}` }, line ? signs[line.sign] : ""),
    make("span", { class: `half ${line ? tints[line.sign] : "none"}` }, line ? lineText(line) : "")];
  return [make("div", { class: "pair" }, ...half(left, before, "old", "old line"), ...half(right, now, "now", "new line")),
    ...(left === right ? noted(left) : noted(left, right))];
}

// The lines of a file; `ids` names the changesets in which they are found before and now.
function hunkBody(file, ids) {
  const lines = diffLines(file.hunks);
  const pairs = sideBySide(lines);
  pairs.forEach(markParts);
  const most = lines.reduce((found, { old = 0, now = 0 }) => Math.max(found, old, now), 1);
  const isSides = asSides();
  const units = isSides ? pairs : lines;
  const toRows = isSides ? sideRows : unifiedRows;
  const body = make("div", { class: `code diff ${isSides ? "sides" : ""}`, style: width(most) });
  const below = make("div", { class: "actions more" });
  const links = { path: file.path, now: ids.now, before: ids.before };
  let shown = 0;
  const extend = () => {
    for (const unit of units.slice(shown, shown + MOST_ROWS)) body.append(...toRows(unit, links));
    shown = Math.min(units.length, shown + MOST_ROWS);
    below.replaceChildren(...(shown < units.length ? [further, soft(`${number(shown)} of ${counted(units.length, "line")}`)] : []));
  };
  const further = button("Further lines", extend);
  extend();
  return make("div", {}, body, below);
}
