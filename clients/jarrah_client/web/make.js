"use strict";

// Making elements, and asking the local program.

const main = document.getElementById("main");
const icons = { directory: "\u25b8", regular: "\u2022", executable: "\u2217", symlink: "\u2192" };

function make(tag, words, ...children) {
  const element = document.createElement(tag);
  for (const [name, value] of Object.entries(words || {})) {
    if (value !== null && value !== undefined) element.setAttribute(name, value);
  }
  element.append(...children.filter((child) => child !== null && child !== undefined));
  return element;
}

const link = (target, ...children) => make("a", { href: target }, ...children);
const soft = (...children) => make("span", { class: "soft" }, ...children);
const short = (id) => make("span", { class: "mono" }, id.slice(0, 12));
const heading = (...children) => make("h1", { tabindex: "-1" }, ...children);
const encoded = (path) => path.split("/").map(encodeURIComponent).join("/");
const firstLine = (message) => message.trim().split("\n")[0] || "(no message)";
const joined = (directory, name) => (directory ? `${directory}/${name}` : name);
const number = (count) => count.toLocaleString("en");
const isId = (text) => /^[0-9a-f]{64}$/.test(text);

function place(kind, id, path, query) {
  const words = query ? `?${new URLSearchParams(query)}` : "";
  return `#/${kind}/${encodeURIComponent(id)}` + (path ? `/${encoded(path)}` : "") + words;
}

function counted(count, what, many) {
  return `${number(count)} ${count === 1 ? what : many || `${what}s`}`;
}

function sized(bytes) {
  if (bytes < 1024) return counted(bytes, "byte");
  return bytes < 1048576 ? `${(bytes / 1024).toFixed(1)} KiB` : `${(bytes / 1048576).toFixed(1)} MiB`;
}

function person(author) {
  return author.replace(/\s*<[^>]*>\s*$/, "") || author;
}

// What is asked for shows a sign once it takes a moment, however many questions wait.
const loading = { count: 0, sign: document.getElementById("loading") };

async function ask(question, path, query) {
  const words = query ? `?${new URLSearchParams(query)}` : "";
  loading.count += 1;
  const timer = setTimeout(() => { loading.sign.hidden = false; }, 150);
  try {
    const response = await fetch(`api/${question}${path ? `/${encoded(path)}` : ""}${words}`);
    const answer = await response.json();
    if (!response.ok) throw new Error(answer.error);
    return answer;
  } finally {
    clearTimeout(timer);
    loading.count -= 1;
    if (!loading.count) loading.sign.hidden = true;
  }
}

// A button that does one thing at a time: it can't be pressed again until that is done.
function button(text, act, words) {
  const element = make("button", { class: "button", type: "button", ...words }, text);
  element.onclick = async () => {
    if (element.disabled) return;
    element.disabled = true;
    try {
      await act(element);
    } catch (fault) {
      element.after(soft(` ${fault.message}`));
    } finally {
      element.disabled = false;
    }
  };
  return element;
}
