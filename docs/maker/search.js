// Searches the names of all pages. INDEX is in this file's head: name, place, first sentence and address of each.
const box = document.querySelector("header input"), list = document.getElementById("search-results");
// What other maps call some of the calls.
const ALIKE = { len: "count", size: "count", lookup: "get", contains: "contains_key", range: "stream_sorted", lower_bound: "first_from",
  upper_bound: "first_after", validate: "try_from_bytes", serialize: "to_tagged_bytes", deserialize: "load", collect: "try_from_iter" };
function rank(entry, word) {
  const name = entry[0].toLowerCase();
  if (name === word || name === ALIKE[word]) return 0;
  if (name.startsWith(word)) return 1;
  if (name.includes(word)) return 2;
  return (entry[1] + " " + entry[2]).toLowerCase().includes(word) ? 3 : 9;
}
// Calls and types come first, then documents and Python, then variants and fields, then laws, definitions and lemmas.
function later(place) {
  return /^(definition|lemma)|laws$/.test(place) ? 4 : /^(variant|field)/.test(place) ? 3 : /^(Python|document|section)/.test(place) ? 2 : 0;
}
box.addEventListener("input", () => {
  const words = box.value.toLowerCase().split(/\s+/).filter(Boolean);
  const found = [];
  if (words.length) for (const entry of INDEX) {
    const ranks = words.map(word => rank(entry, word));
    if (!ranks.includes(9)) found.push([ranks.reduce((a, b) => a + b) + later(entry[1]), entry[0].length, entry]);
  }
  found.sort((a, b) => a[0] - b[0] || a[1] - b[1]);
  list.replaceChildren(...found.slice(0, 40).map(([, , [name, place, text, address]]) => {
    const row = document.createElement("li"), link = document.createElement("a"), rest = document.createElement("span");
    link.href = address;
    link.append(Object.assign(document.createElement("code"), { textContent: name }));
    rest.textContent = " " + place + (text ? ": " + text : "");
    row.append(link, rest);
    return row;
  }));
  if (words.length && !found.length) list.append(Object.assign(document.createElement("li"), { textContent: "Nothing found." }));
});
function move(event) {
  const links = [...list.querySelectorAll("a")], at = links.indexOf(document.activeElement) + (event.key === "ArrowDown" ? 1 : -1);
  if (!links.length || !/^Arrow(Up|Down)$/.test(event.key)) return;
  event.preventDefault();
  (links[at] || box).focus();
}
list.addEventListener("keydown", move);
box.addEventListener("keydown", event => {
  move(event);
  if (event.key === "Enter" && list.querySelector("a")) location.href = list.querySelector("a").href;
  if (event.key === "Escape") { box.value = ""; list.replaceChildren(); }
});
document.addEventListener("keydown", event => {
  if (event.key === "/" && document.activeElement !== box) { event.preventDefault(); box.focus(); }
});
