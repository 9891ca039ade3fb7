// The views, each a list of elements for a place.

function crumbs(id, path) {
  const nav = make("nav", { "aria-label": "path" }, link(place("changeset", id), short(id)),
    make("i", {}, "/"), link(place("tree", id, ""), "files"));
  const elements = path ? path.split("/") : [];
  elements.forEach((element, at) => {
    const to = elements.slice(0, at + 1).join("/");
    const isLast = at === elements.length - 1;
    nav.append(make("i", {}, "/"), isLast ? make("b", {}, element) : link(place("tree", id, to), element));
  });
  return nav;
}

async function bookmarks() {
  const answer = await ask("bookmarks");
  const row = ({ name, head }) => make("a", { class: "cells wide stacks", href: place("log", name) },
    make("span", { class: "title" }, name),
    make("span", { class: "right soft" }, short(head.id)),
    soft(`${firstLine(head.message)} \u00b7 ${person(head.author)}`),
    make("span", { class: "right soft" }, head.date.slice(0, 16)));
  const none = "There is no bookmark yet. `jarrah init main` makes one.";
  const { parts } = await longList({
    load: stretches(answer.bookmarks), row, size: 200, none, newer: "Earlier ones", older: "Further ones",
  });
  return [heading("Bookmarks"), ...parts,
    make("p", { class: "soft" }, `${counted(answer.entries, "entry", "entries")} in the update log`)];
}

async function log(name) {
  const load = async (skip, count) => {
    const answer = await ask(`log/${encodeURIComponent(name)}`, "", { skip, count });
    return { rows: answer.changesets, skip: answer.skip, total: answer.total, head: answer.head };
  };
  const { parts, first } = await longList({
    load, row: changesetRow, size: 30, none: "", newer: "Newer changesets", older: "Older changesets",
  });
  return [make("nav", { "aria-label": "path" }, link("#/", "Bookmarks")),
    heading(isId(name) ? short(name) : name),
    make("div", { class: "actions" }, link(place("tree", first.head, ""), "Files at its head"), searchForm(name)),
    ...parts];
}

async function changeset(name) {
  const found = await ask(`changeset/${encodeURIComponent(name)}`);
  const { id } = found;
  const [, ...rest] = found.message.trim().split("\n");
  const facts = make("dl", { class: "facts" });
  const fact = (what, ...value) => facts.append(make("dt", {}, what), make("dd", {}, ...value));
  fact("Author", found.author);
  fact("Date", found.date);
  fact("Id", make("span", { class: "mono" }, id));
  for (const parent of found.parents) fact("Parent", link(place("changeset", parent), make("span", { class: "mono" }, parent)));
  if (found.bookmarks.length) fact("Bookmarks", ...found.bookmarks.map((one) => make("a", { class: "label", href: place("log", one) }, one)));
  const { changes } = found;
  const copied = new Map(changes.filter((one) => one.copied).map((one) => [one.path, one.copied]));
  const parent = found.parents[0] || null;
  const bare = ({ path, change, kind, size, content }) => ({ path, change, why: "later", hunks: null, before: null, after: content ? { kind, size, content } : null });
  const load = async (path) => (await ask(`diff/${id}`, path)).files[0];
  const { parts, take } = await fileList({
    known: changes.map(bare), total: changes.length, ids: { now: id, before: parent }, load, copied, none: "It changes no path.",
  });
  const told = make("span", { role: "status" });
  // The paths stand before it is known what they were, and without it.
  ask(`diff/${id}`, "", changes.length > MOST_UNFOLDED ? { lines: 0 } : null).then(({ files }) => files.forEach(take),
    (fault) => { told.textContent = ` (no lines: ${fault.message})`; });
  return [make("nav", { "aria-label": "path" }, link("#/", "Bookmarks"), make("i", {}, "/"), link(place("log", id), "Log from here")),
    heading(firstLine(found.message)),
    rest.join("\n").trim() ? make("p", { class: "message" }, rest.join("\n").trim()) : null,
    facts,
    make("div", { class: "actions" }, link(place("tree", id, ""), "All files at this changeset"), link(place("stack", id), "Its stack and versions")),
    make("h2", {}, "Paths ", make("small", {}, counted(changes.length, "change"), told)),
    ...parts];
}

async function tree(id, path) {
  const found = await ask(`tree/${encodeURIComponent(id)}`, path);
  const cells = new Map(found.entries.map(({ name }) => [name, make("span", { class: "last soft" })]));
  const entry = ({ name, kind, size }) => make("a",
    { class: `cells entry listed ${kind}`, href: place(kind === "directory" ? "tree" : "file", found.id, joined(path, name)) },
    make("span", { class: "icon", title: kind, "aria-label": kind, role: "img" }, icons[kind]),
    make("span", { class: "name" }, kind === "directory" ? `${name}/` : name),
    cells.get(name),
    make("span", { class: "right soft" }, kind === "directory" ? "" : sized(size)));
  const byKind = (left, right) => (right.kind === "directory") - (left.kind === "directory");
  const all = found.entries.sort(byKind);
  const load = stretches(all);
  const { parts } = await longList({
    load: async (skip, count) => {
      const answer = await load(skip, count);
      fillLast(found.id, path, cells, answer.skip);
      return answer;
    },
    row: entry, size: 200, none: "There is no file.", newer: "Earlier entries", older: "Further entries",
  });
  return [crumbs(found.id, path), heading(path || "Files"),
    make("div", { class: "actions" }, soft(counted(all.length, "entry", "entries")), searchForm(found.id, path)), ...parts];
}

// The listing stands before this is known, and without it.
async function fillLast(id, path, cells, from) {
  try {
    const { last } = await ask(`last/${id}`, path, { from });
    for (const [name, one] of Object.entries(last)) {
      cells.get(name).textContent = `${one.date.slice(0, 10)} \u00b7 ${firstLine(one.message)}`;
    }
  } catch {
    // No server of this kind of answer: the column stays empty.
  }
}

async function file(id, path, query) {
  const [found, past] = await Promise.all([
    ask(`file/${encodeURIComponent(id)}`, path).catch(() => null), ask(`past/${encodeURIComponent(id)}`, path)]);
  const name = path.split("/").pop();
  if (!found) {
    return [crumbs(past.id, path), heading(name), make("p", { class: "note" }, "There is no file here now."), ...pastRows(past)];
  }
  const source = `raw/${found.id}/${encoded(path)}`;
  const card = make("div", { class: "card" });
  let line = null;
  let makers = null;
  if (/\.(png|jpe?g|gif|webp|bmp|ico|svg)$/i.test(name) && found.kind !== "symlink") {
    card.append(make("img", { class: "picture", src: source, alt: `the image ${name}` }));
  }
  if (found.kind === "symlink") {
    card.append(make("p", { class: "note" }, "a link to ", make("span", { class: "mono" }, found.text || "bytes that are no text")));
  } else if (found.text === null) {
    if (!card.firstChild) card.append(make("p", { class: "note" }, `These ${sized(found.size)} are no text, or too many to be shown.`));
  } else if (!found.text) {
    card.append(make("p", { class: "note" }, "The file is empty."));
  } else {
    const made = code(found.text, found.id, path, Number(query.get("line")));
    card.append(made.pre);
    line = made.line;
    makers = link(place("annotate", found.id, path), "Who brought each line");
  }
  const parts = [crumbs(found.id, path), heading(name),
    make("div", { class: "actions" }, soft(`${found.kind}, ${sized(found.size)}`), makers,
      make("a", { href: source, download: name }, "Download")),
    card, ...pastRows(past)];
  parts.target = line;
  return parts;
}

async function annotate(id, path, query) {
  const found = await ask(`annotate/${encodeURIComponent(id)}`, path);
  const { table, line } = broughtLines(found, Number(query.get("line")));
  const text = found.lines.length ? table : make("p", { class: "note" }, "The file is empty.");
  const parts = [crumbs(found.id, path), heading(`Who brought each line of ${path.split("/").pop()}`),
    make("div", { class: "actions" }, soft(counted(found.changesets.length, "changeset")),
      link(place("file", found.id, path), "The plain file")),
    make("div", { class: "card" }, text)];
  parts.target = line;
  return parts;
}

// What set a file or took it away, also before it was deleted, and under the names that it had.
function pastRows(past) {
  const row = (one) => {
    const made = changesetRow(one), title = made.querySelector(".title");
    if (one.at_path !== "set") title.prepend(`${one.at_path} it: `);
    if (one.path !== past.path) title.append(soft(`  as ${one.path}`));
    if (one.copied) title.append(soft(`  from ${one.copied.path}`));
    return made;
  };
  return [make("h2", {}, "History ", make("small", {}, counted(past.changesets.length + past.older, "changeset"))),
    list(past.changesets.map(row), ""),
    past.older ? make("p", { class: "soft" }, `and ${past.older} older`) : null];
}

async function search(name, _, query) {
  const q = query.get("q") || "";
  const of = encodeURIComponent(name);
  const [paths, messages] = await Promise.all([ask(`search/${of}`, "", { path: q }), ask(`search/${of}`, "", { message: q })]);
  const row = ({ name: path, kind, size }) => make("a", { class: "cells entry", href: place("file", paths.id, path) },
    make("span", { class: "icon", title: kind }, icons[kind]), make("span", { class: "name" }, path), make("span", { class: "right soft" }, sized(size)));
  const rest = paths.total - paths.files.length;
  const card = list(messages.changesets.map(changesetRow), "No message and no author has it.");
  const status = make("span", { class: "soft", role: "status" });
  const below = make("div", { class: "actions" });
  let { next } = messages;
  const more = button("Look further back", async () => {
    const answer = await ask(`search/${of}`, "", { message: q, from: next });
    const found = answer.changesets.map((one) => item(changesetRow(one)));
    if (found.length && !card.querySelector("a")) card.replaceChildren();
    card.append(...found);
    next = answer.next;
    tell(answer);
    if (found.length) found[0].querySelector("a").focus();
  });
  const tell = (answer) => {
    status.textContent = `looked at ${counted(answer.looked_at, "changeset")}`;
    below.replaceChildren(...(next === null ? [status] : [more, status]));
  };
  tell(messages);
  return [make("nav", { "aria-label": "path" }, link("#/", "Bookmarks"), make("i", {}, "/"), link(place("log", name), isId(name) ? short(name) : name)),
    heading(`\u201c${q}\u201d`), make("div", { class: "actions" }, link(place("grep", name, "", { text: q }), "In the contents of files"), searchForm(name)),
    make("h2", {}, "Files ", make("small", {}, counted(paths.total, "path"))),
    list(paths.files.map(row), "No path has it."), rest ? make("p", { class: "soft" }, `and ${number(rest)} more`) : null,
    make("h2", {}, "Changesets"), card, below];
}
