// Search over SEARCH (name, kind, page, first sentence, what a reader may want of it), and a box with a word of contracts from WORDS:
// what is said of it, its text, its page, and the numbers of the words in its text that have a page too.
"use strict";
const search = document.getElementById("search");
const found = document.getElementById("found");
const box = document.getElementById("box");
const MOST = 40;
const SHOWN = 90;
const KEYS = Object.keys(WORDS);

// How well an entry fits: 0 is best, from NONE on it does not fit. Of several words each has to fit, and a crate's name fits what its
// page has, as in lasso_columns::merge.
const NONE = 4;

function rank(entry, asked) {
  const words = asked.split(/\s+|(?<=^lasso\w*)::/);
  if (words.length === 1) return rankWord(entry, asked);
  const worst = Math.max(...words.map((word) => rankWord(entry, word)));
  return worst + words.reduce((sum, word) => sum + rankWord(entry, word), 0) / (NONE * words.length + 1);
}

function rankWord(entry, asked) {
  const shorter = asked.replace(/(?<=.{3})(s|ing)$/, "");
  return Math.min(rankForm(entry, asked), shorter === asked ? NONE : rankForm(entry, shorter) + 0.5);
}

function rankForm(entry, asked) {
  const name = entry[0].toLowerCase();
  const last = name.split("::").pop();
  if (last === asked || name === asked) return 0;
  if (last.startsWith(asked)) return 1;
  if (entry.length > 4 && entry[4].toLowerCase().split(/\W+/).some((word) => word.startsWith(asked))) return 1.5;
  if (name.includes(asked)) return 2;
  if (asked.startsWith("lasso_") && entry[2].split(".").includes(asked)) return 2.5;
  return entry[3].toLowerCase().includes(asked) ? 3 : NONE;
}

// Of entries that fit alike, calls that a reader may want come first, then the other calls.
function weight(entry) {
  return entry[1] !== "call" ? 0 : entry.length > 4 ? 2 : 1;
}

function show() {
  const asked = search.value.trim().toLowerCase();
  found.replaceChildren();
  found.hidden = asked === "";
  if (found.hidden) return;
  const ranked = SEARCH.map((entry) => [rank(entry, asked), entry]).filter((pair) => pair[0] < NONE);
  ranked.sort((one, other) => one[0] - other[0] || weight(other[1]) - weight(one[1]) || one[1][0].length - other[1][0].length);
  for (const [, [name, kind, url, summary]] of ranked.slice(0, MOST)) {
    const line = document.createElement("li");
    const link = document.createElement("a");
    link.href = url;
    link.textContent = name;
    const said = document.createElement("small");
    said.textContent = ` ${kind}. ${summary.slice(0, SHOWN)}`;
    line.append(link, said);
    found.append(line);
  }
  if (found.children.length === 0) found.textContent = "Nothing has this name.";
}

search.addEventListener("input", show);
search.addEventListener("keydown", (event) => {
  const first = found.querySelector("a");
  if (event.key === "Enter" && first) location.href = first.href;
  if (event.key === "ArrowDown" && first) { first.focus(); event.preventDefault(); }
});
found.addEventListener("keydown", (event) => {
  const links = [...found.querySelectorAll("a")];
  const at = links.indexOf(document.activeElement);
  if (event.key === "ArrowDown" && at + 1 < links.length) { links[at + 1].focus(); event.preventDefault(); }
  if (event.key === "ArrowUp") { (links[at - 1] || search).focus(); event.preventDefault(); }
});
document.addEventListener("keydown", (event) => {
  if (event.key === "/" && document.activeElement !== search) { search.focus(); event.preventDefault(); }
  if (event.key === "Escape") { box.hidden = true; found.hidden = true; }
});

function linkTo(page, words) {
  const link = document.createElement("a");
  link.href = page;
  link.textContent = words;
  return link;
}

// The text of a definition, with a link at each word that has a page.
function withLinks(text, numbers) {
  const keys = new Map(numbers.map((number) => [KEYS[number].split(".").pop(), KEYS[number]]));
  return text.split(/([A-Za-z_][\w'-]*)/).map((part) => (keys.has(part) ? linkTo(WORDS[keys.get(part)][2], part) : part));
}

function open(word) {
  if (!WORDS[word.dataset.word]) return;
  stay();
  const [said, text, page, ...numbers] = WORDS[word.dataset.word];
  const comment = document.createElement("div");
  comment.append(linkTo(page, word.dataset.word.split(".").pop()), said ? `: ${said.replaceAll("`", "")}` : "");
  const definition = document.createElement("pre");
  definition.append(...withLinks(text, numbers));
  box.replaceChildren(comment, definition);
  const place = word.getBoundingClientRect();
  box.hidden = false;
  const above = place.top - box.offsetHeight - 4;
  const fitsBelow = place.bottom + box.offsetHeight + 4 <= innerHeight;
  box.style.top = `${scrollY + (fitsBelow || above < 0 ? place.bottom + 4 : above)}px`;
  box.style.left = `${Math.max(8, Math.min(place.left + scrollX, scrollX + innerWidth - box.offsetWidth - 8))}px`;
}

// The box closes a moment after the pointer left its word, and stays while the pointer is in it.
let closing = 0;
function stay() { clearTimeout(closing); }
function close() { stay(); closing = setTimeout(() => { box.hidden = true; }, 250); }
box.addEventListener("mouseenter", stay);
box.addEventListener("mouseleave", close);

for (const word of document.querySelectorAll("a.word")) {
  word.addEventListener("mouseenter", () => open(word));
  word.addEventListener("focus", () => open(word));
  word.addEventListener("mouseleave", close);
  word.addEventListener("blur", close);
}
