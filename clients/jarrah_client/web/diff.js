// The text of files with links to lines, also with who brought each.

const MOST_LINES = 2000;

const width = (most) => `--numbers: calc(${String(most).length}ch + 1.2rem)`;

function lineLink(target, count, label) {
  return make("a", { class: "number", href: target, "aria-label": `${label} ${count}` }, String(count));
}

// Rows for the lines of a file; each line's number is a link of the view that marks it.
function numbered(kind, id, path) {
  const rows = new Map();
  let marked = null;
  const mark = (count) => {
    if (marked) marked.classList.remove("marked");
    marked = rows.get(count) || null;
    if (marked) marked.classList.add("marked");
    return marked;
  };
  const row = (line, count) => {
    const anchor = lineLink(place(kind, id, path, { line: count }), count, "line");
    anchor.onclick = (event) => {
      if (event.ctrlKey || event.metaKey || event.shiftKey) return;
      event.preventDefault();
      history.replaceState(history.state, "", anchor.href);
      mark(count);
    };
    rows.set(count, make("div", {}, anchor, make("span", { class: "text" }, line)));
    return rows.get(count);
  };
  return { row, mark };
}

// A long text is shown in stretches, the one with the marked line first.
function code(text, id, path, marked) {
  const lines = text.replace(/\n$/, "").split("\n");
  const pre = make("div", { class: "code", style: width(lines.length) });
  const { row, mark } = numbered("file", id, path);
  const rows = (from, to) => lines.slice(from, to).map((line, at) => row(line, from + at + 1));
  let from = Math.floor((Math.min(Math.max(marked, 1), lines.length) - 1) / MOST_LINES) * MOST_LINES;
  let to = from;
  const above = make("div", { class: "actions more" });
  const below = make("div", { class: "actions more" });
  const tell = () => {
    above.replaceChildren(...(from ? [earlier] : []));
    below.replaceChildren(...(to < lines.length ? [further, soft(`${number(to)} of ${counted(lines.length, "line")}`)] : []));
  };
  const extend = () => {
    pre.append(...rows(to, to + MOST_LINES));
    to = Math.min(lines.length, to + MOST_LINES);
    tell();
  };
  const further = button("Further lines", extend);
  const earlier = button("Earlier lines", () => {
    pre.prepend(...rows(from - MOST_LINES, from));
    from -= MOST_LINES;
    tell();
  });
  extend();
  return { pre: make("div", {}, above, pre, below), line: mark(marked) };
}

// Who brought each line: a row of the table for lines that one changeset brought together.
function broughtLines({ id, path, changesets, lines }, marked) {
  const { row, mark } = numbered("annotate", id, path);
  const count = lines.reduce((sum, { texts }) => sum + texts.length, 0);
  const body = make("tbody");
  let at = 0;
  for (const { changeset, texts } of lines) {
    const by = changesets[changeset];
    const cell = make("td", { class: "code" });
    for (const text of texts) cell.append(row(text, (at += 1)));
    const target = make("a", { href: place("changeset", by.id), title: firstLine(by.message) }, short(by.id));
    body.append(make("tr", {}, make("th", { scope: "row" }, target),
      make("td", { title: by.author }, person(by.author)), make("td", {}, by.date.slice(0, 10)), cell));
  }
  const heads = ["Changeset", "Author", "Day", "Lines"].map((word) => make("th", { scope: "col" }, word));
  const table = make("table", { class: "brought", style: width(count) }, make("thead", {}, make("tr", {}, ...heads)), body);
  return { table, line: mark(marked) };
}
