// Lists: short ones, and long ones that are loaded in stretches and can be entered anywhere.

function item(...children) {
  return make("li", { class: "row" }, ...children);
}

function list(rows, none) {
  const found = rows.length ? rows.map((row) => item(row)) : [item(make("p", { class: "note" }, none))];
  return make("ul", { class: "card" }, ...found);
}

// `load(skip, count)` answers `{ rows, skip, total }`, where a total that isn't known is null.
async function longList({ load, row, size, none, newer, older }) {
  const card = make("ol", { class: "card" });
  const above = make("div", { class: "actions" });
  const below = make("div", { class: "actions" });
  const where = make("span", { class: "soft", role: "status" });
  const span = { from: 0, to: 0, total: null };

  const before = button(newer, async () => {
    const from = Math.max(0, span.from - size);
    const answer = await load(from, span.from - from);
    card.prepend(...answer.rows.map((one) => item(row(one))));
    span.from = from;
    tell(card.firstElementChild);
  });
  const after = button(older, async () => {
    const answer = await load(span.to, size);
    const rows = answer.rows.map((one) => item(row(one)));
    card.append(...rows);
    take(span.from, span.to + rows.length, answer.total);
    tell(rows[0]);
  });

  const input = make("input", { type: "number", min: "1", "aria-label": "go to number" });
  const jump = make("form", {}, make("label", { class: "soft" }, "Go to "), input, make("button", { class: "button" }, "Go"));
  jump.onsubmit = async (event) => {
    event.preventDefault();
    if (!input.value || jump.busy) return;
    jump.busy = true;
    try {
      await enter(Math.max(0, Number(input.value) - 1));
      tell(card.firstElementChild);
    } finally {
      jump.busy = false;
    }
  };

  function take(from, to, total) {
    Object.assign(span, { from, to, total });
    span.ended = total !== null && to >= total;
  }

  // Says where the list stands, and moves the focus to what is new.
  function tell(first) {
    const of = span.total === null ? "" : ` of ${number(span.total)}`;
    where.textContent = span.to ? `${number(span.from + 1)}\u2013${number(span.to)}${of}` : "";
    above.replaceChildren(...(span.from ? [before] : []));
    const isWhole = !span.from && span.ended;
    below.replaceChildren(...(span.ended ? [] : [after]), ...(isWhole ? [] : [jump, where]));
    card.start = span.from + 1;
    const target = first && first.querySelector("a, button");
    if (target) target.focus();
  }

  async function enter(skip) {
    const answer = await load(skip, size);
    const rows = answer.rows.map((one) => item(row(one)));
    card.replaceChildren(...(rows.length ? rows : [item(make("p", { class: "note" }, none))]));
    take(answer.skip, answer.skip + rows.length, answer.total);
    return answer;
  }

  const first = await enter(0);
  tell(null);
  return { parts: [above, card, below], first };
}

// A long list of what is there already.
function stretches(all) {
  return async (skip, count) => {
    const from = skip < all.length ? skip : Math.max(0, all.length - count);
    return { rows: all.slice(from, from + count), skip: from, total: all.length };
  };
}

function changesetRow(changeset) {
  return make("a", { class: "cells wide stacks", href: place("changeset", changeset.id) },
    make("span", { class: "title" }, firstLine(changeset.message)),
    make("span", { class: "right soft" }, short(changeset.id)),
    soft(`${person(changeset.author)} \u00b7 ${counted(changeset.changes, "path")}`),
    make("span", { class: "right soft" }, changeset.date.slice(0, 16)));
}

// Searches paths, messages and authors; or what is in files, at and under a path.
function searchForm(name, path) {
  const input = make("input", { type: "search", placeholder: "path, message or author", "aria-label": "search" });
  const inside = make("button", { class: "button", type: "button" }, "In contents");
  const form = make("form", { role: "search", class: "end" }, input, make("button", { class: "button" }, "Search"), inside);
  const go = (kind, at, query) => {
    if (Object.values(query)[0]) location.hash = kind(at, query);
  };
  form.onsubmit = (event) => {
    event.preventDefault();
    go((at, query) => place("search", name, at, query), "", { q: input.value.trim() });
  };
  inside.onclick = () => go((at, query) => place("grep", name, at, query), path || "", { text: input.value });
  return form;
}
