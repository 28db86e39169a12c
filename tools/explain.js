"use strict";
// A click on a line shows what gives it, lights the types that it comes from and the lines of the text that say so.
const data = JSON.parse(document.getElementById("data").textContent);
const reason = document.getElementById("reason");
const every = (selector, action) => document.querySelectorAll(selector).forEach(action);

function element(name, text, parent) {
  const out = document.createElement(name);
  if (text !== undefined) out.textContent = text;
  if (parent) parent.append(out);
  return out;
}

function clear() {
  every(".lit, .chosen", (found) => found.classList.remove("lit", "chosen"));
  reason.replaceChildren();
}

function light(types, owner, chain) {
  const lit = new Set(types);
  every("svg .type", (node) => {
    node.classList.toggle("chosen", node.dataset.type === owner);
    node.classList.toggle("lit", node.dataset.type !== owner && lit.has(node.dataset.type));
  });
  const on = new Set([...types, owner]);
  every("svg .edge", (edge) => {
    edge.classList.toggle("lit", chain && on.has(edge.dataset.from) && on.has(edge.dataset.to));
  });
}

function sources(numbers) {
  numbers.forEach((number) => document.getElementById("source-" + number)?.classList.add("lit"));
  if (!numbers.length) return;
  const line = element("p", "In the text: line ", reason);
  numbers.forEach((number, at) => {
    if (at) line.append(", ");
    const link = element("a", String(number), line);
    link.href = "#source-" + number;
    link.addEventListener("click", (event) => {
      event.preventDefault();
      document.getElementById("source-" + number).scrollIntoView({ block: "center" });
    });
  });
}

function list(title, texts, kind) {
  if (!texts.length) return;
  element("h3", title, reason);
  const out = element("ul", undefined, reason);
  out.className = kind;
  texts.forEach((text) => element("code", text, element("li", undefined, out)));
}

function chooseLine(at) {
  const line = data.lines[at];
  if (!line) return;
  clear();
  document.getElementById("line-" + at).classList.add("chosen");
  element("code", line.line, element("p", undefined, reason));
  list("because", line.because, "because");
  list("its parts", line.parts, "parts");
  const ancestors = line.types.filter((name) => name !== line.owner);
  list("types above", ancestors, "ancestors");
  sources(line.at);
  light(line.types, line.owner, true);
}

function chooseType(name) {
  const type = data.types[name];
  if (!type) return;
  clear();
  element("code", name, element("p", undefined, reason));
  element("p", type.kind + (type.round === null ? ", no round" : ", round " + type.round), reason);
  list("inherits", type.parents, "because");
  list("gives", type.gives, "parts");
  list("ancestors", type.ancestors, "ancestors");
  sources(type.at);
  light(type.ancestors, name, true);
}

function choose(hash) {
  const [kind, ...rest] = hash.replace(/^#/, "").split("-");
  const name = decodeURIComponent(rest.join("-"));
  if (kind === "line") chooseLine(Number(name));
  if (kind === "type") chooseType(name);
}

function filter(text) {
  let shown = 0;
  every("#lines .group", (group) => {
    let some = 0;
    group.querySelectorAll("li").forEach((item) => {
      item.hidden = !item.textContent.includes(text);
      some += !item.hidden;
    });
    group.hidden = !some;
    shown += some;
  });
  document.getElementById("shown").textContent = text ? shown + " shown" : "";
}

document.addEventListener("click", (event) => {
  const line = event.target.closest("button.line");
  const type = event.target.closest("[data-type]");
  if (line) history.replaceState(null, "", "#line-" + line.dataset.line);
  else if (type) history.replaceState(null, "", "#type-" + encodeURIComponent(type.dataset.type));
  if (line || type) choose(location.hash);
});
document.addEventListener("keydown", (event) => {
  const type = event.target.closest("svg [data-type]");
  if (type && (event.key === "Enter" || event.key === " ")) {
    event.preventDefault();
    type.dispatchEvent(new MouseEvent("click", { bubbles: true }));
  }
});
document.getElementById("filter").addEventListener("input", (event) => filter(event.target.value.trim()));
window.addEventListener("hashchange", () => choose(location.hash));
choose(location.hash);
