// Views of a review: drafts, stacks, what two trees or versions differ in, and search in contents.

const STATES = { open: "open", superseded: "with a later version", landed: "landed", all: "all" };
const crumbsOfDrafts = (...more) => make("nav", { "aria-label": "path" }, link(place("drafts", ""), "Drafts"), ...more.flatMap((one) => [make("i", {}, "/"), one]));
const idLink = (kind, id) => (id ? link(place(kind, id), make("span", { class: "mono" }, id)) : soft("nothing"));

function stateWords({ state, later, landed }) {
  if (state === "landed") return `landed on ${landed.map((one) => one.bookmark + (one.caller ? ` by ${one.caller}` : "")).join(", ")}`;
  return state === "superseded" || later ? "has a later version" : state;
}

function draftRow(draft) {
  const stackWords = draft.below ? ` \u00b7 on ${counted(draft.below, "draft")}` : "";
  const state = draft.state === "open" ? "" : ` \u00b7 ${stateWords(draft)}`;
  return make("a", { class: "cells wide stacks", href: place("stack", draft.id) },
    make("span", { class: "title" }, draft.title),
    make("span", { class: "right soft" }, short(draft.id)),
    soft(`${person(draft.author)} \u00b7 ${counted(draft.changes, "path")}${stackWords}${state}`),
    make("span", { class: "right soft" }, draft.date.slice(0, 16)));
}

function field(label, control) {
  return make("label", { class: "field" }, make("span", { class: "soft" }, label), control);
}

function draftsForm({ author, state, caller }) {
  const by = make("input", { type: "search", value: author, size: "14" });
  const landed = make("input", { type: "text", value: caller, size: "10" });
  const which = make("select", {}, ...Object.entries(STATES).map(([value, word]) => make("option", { value, selected: value === state ? "" : null }, word)));
  const form = make("form", { class: "fields" }, field("Author", by), field("State", which), field("Landed by", landed), make("button", { class: "button" }, "Show"));
  landed.oninput = () => { if (landed.value.trim() && !["landed", "all"].includes(which.value)) which.value = "landed"; };
  form.onsubmit = (event) => {
    event.preventDefault();
    const words = { author: by.value.trim(), state: which.value, caller: landed.value.trim() };
    location.hash = place("drafts", "", "", Object.fromEntries(Object.entries(words).filter(([, word]) => word)));
  };
  return form;
}

function idForm(label, go, { placeholder = "an id, or a bookmark" } = {}) {
  const input = make("input", { type: "text", placeholder, "aria-label": label });
  const form = make("form", {}, input, make("button", { class: "button" }, label));
  form.onsubmit = (event) => {
    event.preventDefault();
    if (input.value.trim()) location.hash = go(input.value.trim());
  };
  return form;
}

async function drafts(_, __, query) {
  const asked = { author: query.get("author") || "", state: query.get("state") || "open", caller: query.get("caller") || "" };
  const words = Object.fromEntries(Object.entries(asked).filter(([, word]) => word));
  if (asked.state === "open") words.tops = 1;
  const [answer, { folders }] = await Promise.all([ask("drafts", "", words), ask("folders")]);
  const card = list(answer.drafts.map(draftRow), "No such draft is known.");
  const status = make("span", { class: "soft", role: "status" });
  const below = make("div", { class: "actions" });
  const tell = (told) => {
    status.textContent = `looked at ${number(told.looked_at)} of ${counted(told.uploads, "upload")}`
      + (told.next === null && !told.is_whole ? "; older ones aren't looked at" : "");
    below.replaceChildren(...(told.next === null ? [status] : [more, status]));
    next = told.next;
  };
  let { next } = answer;
  const more = button("Look further back", async () => {
    const told = await ask("drafts", "", { ...words, before: next });
    const rows = told.drafts.map((one) => item(draftRow(one)));
    if (rows.length && !card.querySelector("a")) card.replaceChildren();
    card.append(...rows);
    tell(told);
    if (rows.length) rows[0].querySelector("a").focus();
  });
  tell(answer);
  return [heading("Drafts"), make("div", { class: "actions" }, draftsForm(asked), idForm("Open a draft", (id) => place("stack", id))),
    ...folders.flatMap(folderParts),
    make("h2", {}, "On the server ", make("small", {}, "uploaded, and on no bookmark")), card, below];
}

function folderParts({ name, bookmark, drafts: rows, error }) {
  const title = make("h2", {}, `In the working copy ${name} `, make("small", {}, bookmark ? `of ${bookmark}` : ""));
  return [title, error ? make("p", { class: "note fault card" }, error) : list(rows.map(draftRow), "It has no drafts.")];
}

async function stack(name) {
  const of = encodeURIComponent(name);
  const [found, { message, ...one }] = await Promise.all([ask(`stack/${of}`), ask(`changeset/${of}`)]);
  const { id, base } = found;
  const mine = found.drafts.find((draft) => draft.id === id);
  const rest = message.trim().split("\n").slice(1).join("\n").trim();
  const facts = factList([["Author", one.author], ["Date", one.date], ["Id", idLink("changeset", id)], ...(mine ? [["Stands on", idLink("changeset", base)]] : []),
    ["State", mine ? stateParts(mine) : ["it is on a bookmark, and no draft: ", link(place("changeset", id), "its own changes")]]]);
  if (!mine) return [crumbsOfDrafts(short(id)), heading(firstLine(message)), facts];
  const others = found.versions.filter((version) => version.id !== id);
  const parts = base ? await differing("compare", id, { against: base }, { now: id, before: base }) : [];
  return [crumbsOfDrafts(short(id)), heading(firstLine(message)), rest ? make("p", { class: "message" }, rest) : null, facts,
    make("div", { class: "actions" }, link(place("tree", id, ""), "All files"), link(place("changeset", id), "Its own changes"),
      idForm("Compare with", (other) => place("versions", id, "", { against: other }), { placeholder: "a version before" })),
    found.drafts.length > 1 ? make("h2", {}, "Stack ", make("small", {}, counted(found.drafts.length, "draft"))) : null,
    found.drafts.length > 1 ? list([...found.drafts].reverse().map((draft) => stackRow(draft, id)), "") : null,
    others.length ? make("h2", {}, "Versions ", make("small", {}, "of the same author, date and title")) : null,
    others.length ? list(found.versions.map((version) => versionRow(version, id, found.versions)), "") : null,
    make("h2", {}, found.drafts.length > 1 ? "What the stack changes" : "What it changes"),
    ...(base ? parts : [make("p", {}, "It stands on nothing: ", link(place("changeset", id), "its own changes"), ".")])];
}

function factList(pairs) {
  return make("dl", { class: "facts" }, ...pairs.flatMap(([what, ...value]) => [make("dt", {}, what), make("dd", {}, ...value.flat())]));
}

function stateParts(draft) {
  if (draft.state === "superseded") return ["has a later version, ", link(place("stack", draft.later), short(draft.later)), " ", link(place("versions", draft.later, "", { against: draft.id }), "what differs")];
  const landed = draft.landed.flatMap((one) => [`landed on ${one.bookmark}${one.caller ? ` by ${one.caller}` : ""} as `, link(place("changeset", one.id), short(one.id)), " "]);
  return landed.length ? landed : [draft.state];
}

function stackRow(draft, here) {
  const row = make("a", { class: "cells wide", href: place("changeset", draft.id), "aria-current": draft.id === here ? "true" : null },
    make("span", { class: "title" }, draft.title), make("span", { class: "right soft" }, `${counted(draft.changes, "path")} `, short(draft.id)));
  return row;
}

function versionRow(version, here, all) {
  if (version.id === here) return make("div", { class: "cells wide" }, make("b", {}, "This one"), make("span", { class: "right soft" }, short(version.id)));
  const isLater = all.findIndex(({ id }) => id === version.id) < all.findIndex(({ id }) => id === here);
  const [later, earlier] = isLater ? [version.id, here] : [here, version.id];
  return make("div", { class: "cells wide" },
    make("span", {}, link(place("versions", later, "", { against: earlier }), isLater ? "What a later one has changed" : "What has changed since")),
    make("span", { class: "right soft" }, `entry ${version.entry === null ? "?" : number(version.entry)} `, link(place("stack", version.id), short(version.id))));
}

// The files that differ, by a route that tells them in stretches.
async function differing(route, id, query, ids, answer) {
  const first = answer || await ask(`${route}/${encodeURIComponent(id)}`, "", query);
  let { next } = first;
  const further = async () => {
    if (next === null) return [];
    const more = await ask(`${route}/${encodeURIComponent(id)}`, "", { ...query, skip: next });
    next = more.next;
    return more.files;
  };
  const load = async (path) => (await ask(`${route}/${encodeURIComponent(id)}`, path, query)).files[0];
  const passed = first.passed ? make("p", { class: "note fault card" }, `${counted(first.passed, "directory", "directories")} that differ weren't looked into: there may be further files.`) : null;
  const unmerged = first.unmerged ? make("p", { class: "note fault card" }, `${counted(first.unmerged, "file")} weren't put onto the other base yet, and may be equal: their lines tell it.`) : null;
  const { parts } = await fileList({ known: [...first.files], total: first.total, further, ids, load, none: "Nothing differs." });
  return [passed, unmerged, ...parts];
}

async function compare(name, path, query) {
  const asked = { against: query.get("against") || "", ...(query.get("under") ? { under: query.get("under") } : {}) };
  const answer = await ask(`compare/${encodeURIComponent(name)}`, path, asked);
  const { id, against } = answer;
  const parts = await differing("compare", id, { ...asked, against }, { now: id, before: against }, answer);
  return [crumbsOfDrafts("two trees"), heading("Two trees"), factList([["Before", idLink("changeset", against)], ["After", idLink("changeset", id)]]),
    make("div", { class: "actions" }, link(place("versions", id, "", { against }), "As versions of a stack"), link(place("compare", against, "", { against: id }), "The other way")),
    make("h2", {}, "Files ", make("small", {}, counted(answer.total, "file"))), ...parts];
}

async function versions(name, _, query) {
  const asked = Object.fromEntries(["against", "base", "against_base"].map((word) => [word, query.get(word)]).filter(([, word]) => word));
  const answer = await ask(`interdiff/${encodeURIComponent(name)}`, "", asked);
  const { id, against, base, against_base: before } = answer;
  const parts = await differing("interdiff", id, { ...asked, against }, { now: id, before: null }, answer);
  const moved = base === before ? [["Stand on", idLink("changeset", base)]] : [["Before, on", idLink("changeset", before)], ["After, on", idLink("changeset", base)]];
  return [crumbsOfDrafts("two versions"), heading("Two versions"),
    factList([["Before", idLink("stack", against)], ["After", idLink("stack", id)], ...moved]),
    base === before ? null : make("p", { class: "soft" }, "They stand on different changesets. What was before is put onto what the later one stands on, so what that brought isn't shown."),
    make("div", { class: "actions" }, link(place("compare", id, "", { against }), "Tree against tree"), link(place("versions", against, "", { against: id }), "The other way")),
    answer.pairs.length > 1 ? make("h2", {}, "Drafts ", make("small", {}, "before and after")) : null,
    answer.pairs.length > 1 ? list(answer.pairs.map(pairRow), "") : null,
    make("h2", {}, "Files ", make("small", {}, counted(answer.total, "file"))), ...parts];
}

function pairRow({ before, after }) {
  const word = before && after ? (before.id === after.id ? "the same" : "") : after ? "added" : "gone";
  const target = before && after && before.id !== after.id
    ? place("versions", after.id, "", { against: before.id, ...(after.parents[0] && before.parents[0] ? { base: after.parents[0], against_base: before.parents[0] } : {}) })
    : place("changeset", (after || before).id);
  return make("a", { class: "cells wide", href: target },
    make("span", { class: "title" }, (after || before).title, word ? soft(` ${word}`) : ""),
    make("span", { class: "right soft" }, ...[before, after].map((one) => (one ? short(one.id) : "none")).flatMap((one, at) => (at ? [" \u2192 ", one] : [one]))));
}

// Search in contents

function grepForm(name, path, text, isCased) {
  const input = make("input", { type: "search", value: text, "aria-label": "text in files", placeholder: "text in files", maxlength: "200" });
  const cased = make("input", { type: "checkbox" });
  cased.checked = isCased;
  const form = make("form", { role: "search", class: "fields" }, input, make("label", { class: "soft" }, cased, " same case"), make("button", { class: "button" }, "Search"));
  form.onsubmit = (event) => {
    event.preventDefault();
    if (input.value) location.hash = place("grep", name, path, { text: input.value, ...(cased.checked ? { case: 1 } : {}) });
  };
  return form;
}

function marked(line, text, isCased) {
  const fold = (one) => (isCased ? one : one.toLowerCase());
  const span = make("span", { class: "text" });
  const wanted = fold(text);
  let from = 0;
  for (let at = fold(line).indexOf(wanted); at >= 0 && fold(line).length === line.length; at = fold(line).indexOf(wanted, from)) {
    span.append(line.slice(from, at), make("b", {}, line.slice(at, at + text.length)));
    from = at + text.length;
  }
  span.append(line.slice(from));
  return span;
}

function foundRow(id, { path, lines, more }, text, isCased) {
  const code = make("div", { class: "code", style: width(lines[lines.length - 1].line) });
  for (const { line, text: told, is_cut: isCut } of lines) {
    const shown = marked(told, text, isCased);
    if (isCut) shown.append(soft(" (a long line, cut)"));
    code.append(make("div", {}, lineLink(place("file", id, path, { line }), line, "line"), shown));
  }
  return make("div", { class: "found" }, make("div", { class: "cells" }, link(place("file", id, path), path)), code,
    more ? make("p", { class: "note" }, "Further lines of this file have it.") : null);
}

const BOUNDS = { files: "2,000 files", bytes: "32 MiB", lines: "200 lines found", time: "5 seconds" };

async function grep(name, path, query) {
  const text = query.get("text") || "";
  const isCased = query.get("case") === "1";
  const asked = { text, ...(isCased ? { case: 1 } : {}) };
  const card = list([], "No line has it.");
  const status = make("span", { class: "soft", role: "status" });
  const below = make("div", { class: "actions" });
  const sum = { looked_at: 0, bytes: 0, lines: 0, binary: 0, large: 0 };
  let from = null;
  const search = async () => {
    const answer = await ask(`grep/${encodeURIComponent(name)}`, path, { ...asked, ...(from === null ? {} : { from }) });
    for (const key of Object.keys(sum)) sum[key] += answer[key];
    const rows = answer.files.map((file) => item(foundRow(answer.id, file, text, isCased)));
    if (rows.length && !card.querySelector("a")) card.replaceChildren();
    card.append(...rows);
    from = answer.next;
    const passed = [sum.binary ? `${number(sum.binary)} of them no text` : "", sum.large ? `${number(sum.large)} too large and passed over` : ""].filter(Boolean);
    status.textContent = `${counted(sum.lines, "line")} in ${counted(sum.looked_at, "file")}, ${sized(sum.bytes)}${passed.length ? `, ${passed.join(", ")}` : ""}`
      + (answer.stopped ? `; stopped at ${BOUNDS[answer.stopped]}, behind ${answer.next}` : "");
    below.replaceChildren(...(answer.stopped ? [more, status] : [status]));
    return { answer, rows };
  };
  const more = button("Search on", async () => {
    const { rows } = await search();
    if (rows.length) rows[0].querySelector("a").focus();
  });
  const { answer } = text ? await search() : { answer: { id: name } };
  const { id } = answer;
  return [isId(id) ? crumbs(id, path) : make("nav", { "aria-label": "path" }, link("#/", "Bookmarks")),
    heading(text ? `\u201c${text}\u201d in ${path || "all files"}` : "Search in files"),
    make("div", { class: "actions" }, grepForm(name, path, text, isCased)), ...(text ? [card, below] : [])];
}
