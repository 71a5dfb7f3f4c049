"use strict";
// The search over NAMES of names.js: rows of a name, its kind, its address, its first sentence, its signature, a rank, which is above
// 0 for a main type and its methods, and other words by which readers look for it. SYNONYMS of names.js has other words for what a reader asks for. The page loads
// names.js when the search is first used.
const KINDS = {
  all: () => true,
  types: (kind) => ["struct", "enum", "trait", "type"].includes(kind),
  calls: (kind) => kind === "method" || kind === "function",
  definitions: (kind) => ["definition", "definitions", "word of std"].includes(kind),
  pages: (kind) => ["page", "module", "error"].includes(kind),
};

// How well a name fits a text: exactly, then as a part of a method of a main type, then at its start, then as a part.
function fits(row, text) {
  const [shown, kind, url, , , rank] = row;
  const whole = shown.toLowerCase(), last = whole.split("::").pop(), short = 1 / (1 + whole.length);
  if (kind === "page" && url.toLowerCase() === `docs-${text}.html`) return 1500;
  if (last === text || whole === text) return 1000 + 10 * rank + (KINDS.definitions(kind) ? 0 : 5) + short;
  const isWord = last.split("_").includes(text) ? 20 : 0;
  if (rank > 0 && last.includes(text)) return (last.startsWith(text) ? 800 : 700) + isWord + rank + short;
  if (last.startsWith(text)) return (KINDS.definitions(kind) ? 60 : 600) + short;
  if (whole.includes(text)) return (KINDS.definitions(kind) ? 50 : last.includes(text) ? 400 : 300) + short;
  const points = fitsWords(row, text);
  return points > 0 ? points + (rank > 0 ? 4 + rank / 5 : 0) + short : 0;
}

// Words of a question that say nothing of its subject.
const EMPTY = new Set(("a all an and another any are as at be by can do does each every for from get give have how i if in into is it its me my need of "
  + "off on one or that the there this to use using want what when where which why will with without you").split(" "));
const stem = (word) => word.replace(/(?<=...)s$/, "").replace(/(?<=....)(ation|ating|ated?|ing|ed|e)$/, "").replace(/([bdgmnprt])\1$/, "$1");
const stems = (text) => new Set(text.split(/[^a-z0-9_]+/).filter(Boolean).map(stem));

// The stems of the name, of the sentence and of the aliases of each row, and how many rows have each of them.
function indexOf(names) {
  const rows = new Map(), counts = new Map();
  for (const row of names) {
    const whole = row[0].toLowerCase(), parts = row[0].replace(/([a-z])([A-Z])/g, "$1 $2").toLowerCase();
    const name = stems(`${parts.replace(/_/g, " ")} ${whole.replace(/::/g, " ")}`), sentence = stems(row[3].toLowerCase());
    const aliases = stems(row[6] || "");
    rows.set(row, { name, sentence, aliases, last: stems(parts.split("::").pop().replace(/_/g, " ")) });
    for (const it of new Set([...name, ...sentence, ...aliases])) counts.set(it, 1 + (counts.get(it) || 0));
  }
  const weight = (it) => Math.log(2 + names.length / (1 + (counts.get(it) || 0)));
  return { names, rows, weight, isKnown: (it) => counts.has(it) };
}
let index = null;

// How well a name and its sentence have the words of a question, or other words for them: a rare word counts more than one that
// many rows have.
function fitsWords(row, text) {
  const words = text.split(/[^a-z0-9_]+/).filter((word) => word && !EMPTY.has(word));
  if (!words.length) return 0;
  const [, kind, url] = row, { name, sentence, aliases, last } = index.rows.get(row);
  const others = typeof SYNONYMS === "undefined" ? {} : SYNONYMS;
  let points = 0, all = 0, covered = 0;
  for (const word of words) {
    const it = stem(word), same = (others[word] || []).map((other) => stem(other.toLowerCase()));
    if (!index.isKnown(it) && !same.length) continue;
    const isNamed = name.has(it) ? 1 : aliases.has(it) ? 0.95 : same.some((other) => name.has(other)) ? 0.8 : 0;
    const isSaid = sentence.has(it) ? 0.55 : same.some((other) => sentence.has(other)) ? 0.4 : 0;
    const weight = index.weight(it);
    if (last.has(it) || aliases.has(it)) covered += 1;
    points += weight * (Math.max(isNamed, isSaid) + (isNamed && isSaid ? 0.1 : 0) || -0.4);
    all += weight;
  }
  const bonus = kind === "page" ? (url.includes("#") ? 0 : 4) : { method: 4, function: 4, struct: 2, type: 0, trait: 1, module: 1 }[kind] || 0;
  const isOther = KINDS.definitions(kind) || url.startsWith("ascii_c.") ? 35 : url.startsWith("crates-") ? 15 : 0;
  return points > 0 ? 20 + 100 * points / all + 12 * Math.min(1, covered / last.size) + bonus - isOther : 0;
}

const plain = (type) => type.replace(/'\w+|\bmut\b|[&\s]/g, "").replace(/<>/g, "").toLowerCase();

// How well a signature fits types, as in `AsciiStr, AsciiChar -> Option`.
function fitsTypes([shown, , , , signature, rank], text) {
  const [takes, gives] = text.split("->").map(plain);
  if (!signature) return 0;
  const at = signature.lastIndexOf(") -> ");
  const result = plain(at < 0 ? "()" : signature.slice(at + 4)), inputs = plain(at < 0 ? signature : signature.slice(0, at));
  const words = inputs.split(/[^\w\[\]]+/);
  if (!takes.split(",").every((type) => !type || words.includes(type) || inputs.includes(type + "<"))) return 0;
  const inner = result.replace(/^(result|option)</, "");
  if (gives && !result.startsWith(gives) && !inner.startsWith(gives)) return 0;
  return (result.replace(/<.*/, "") === gives ? 200 : 100) + rank - shown.length / 100;
}

// The names that fit a text, the best first.
function found(names, text, kind) {
  const lower = text.trim().toLowerCase();
  if (!lower) return [];
  if (!index || index.names !== names) index = indexOf(names);
  const score = lower.includes("->") ? fitsTypes : fits;
  return names.filter((name) => KINDS[kind || "all"](name[1])).map((name) => [score(name, lower), name])
    .filter(([points]) => points > 0).sort((a, b) => b[0] - a[0]).map(([, name]) => name);
}

// An element with a text, or with some nodes.
const element = (tag, ...inner) => {
  const it = document.createElement(tag);
  it.append(...inner);
  return it;
};

// An answer: the name with its link, what it is, and its sentence, in which code is between backquotes.
const answerItem = ([name, what, url, sentence], isHere) => {
  const link = element("a", element("code", name));
  link.href = url;
  const item = element("li", link, ` ${what}. `, ...sentence.split("`").map((text, part) => part % 2 ? element("code", text) : text));
  item.className = isHere ? "here" : "";
  return item;
};
const NOTHING = "Nothing is found. Try a part of a name, other words, or types such as AsciiStr -> usize.";

// The field at the head of each page, the answers below it, and the keys.
function begin() {
  const field = document.createElement("input"), panel = document.getElementById("found");
  const asked = new URLSearchParams(location.search).get("q");
  Object.assign(field, { type: "search", placeholder: "a name, or types: AsciiStr -> usize    ( / )" });
  field.setAttribute("aria-label", "search");
  document.getElementById("search").append(field);
  let kind = "all", here = 0, answers = [];

  const button = (name) => {
    const it = element("button", name);
    it.setAttribute("aria-pressed", name === kind);
    it.addEventListener("click", () => { kind = name; here = 0; show(); field.focus(); });
    return it;
  };
  const show = () => {
    const isAsked = Boolean(field.value.trim());
    answers = typeof NAMES === "undefined" ? [] : found(NAMES, field.value, kind).slice(0, 30);
    const kinds = element("div", ...Object.keys(KINDS).map(button));
    const list = element("ol", ...answers.map((it, at) => answerItem(it, at === here)), ...(answers.length ? [] : [element("li", NOTHING)]));
    kinds.className = "kinds";
    panel.replaceChildren(...(isAsked ? [kinds, list] : []));
    const address = new URL(location.href);
    if (isAsked) address.searchParams.set("q", field.value); else address.searchParams.delete("q");
    history.replaceState(null, "", address);
    document.querySelector(".columns").hidden = isAsked;
  };
  answerKeys(field, show, (by) => { here = Math.max(0, Math.min(answers.length - 1, here + by)); show(); }, () => answers[here]);
  field.addEventListener("focus", () => load(show));
  field.addEventListener("input", () => { here = 0; show(); });
  if (asked) { field.value = asked; load(show); show(); }
}

// Loads the names, once.
function load(show) {
  if (document.getElementById("names")) return;
  const script = document.createElement("script");
  Object.assign(script, { id: "names", src: "names.js" });
  script.addEventListener("load", show);
  document.head.append(script);
}

// The keys of the field: an arrow goes to another answer, Enter follows it, Escape leaves the field; and `/` goes to the field.
function answerKeys(field, show, go, chosen) {
  field.addEventListener("keydown", (event) => {
    const does = { ArrowDown: () => go(1), ArrowUp: () => go(-1), Escape: () => { field.value = ""; show(); field.blur(); },
                   Enter: () => { if (chosen()) location.href = chosen()[2]; field.value = ""; show(); } }[event.key];
    if (does) { event.preventDefault(); does(); }
  });
  document.addEventListener("keydown", (event) => {
    if (event.key === "/" && document.activeElement !== field) { event.preventDefault(); field.focus(); }
  });
}

// A link to a place in a folded part opens that part, a button opens or closes all contracts, and on a narrow screen what is beside
// a page is folded.
function fold() {
  const open = () => {
    const target = document.getElementById(decodeURIComponent(location.hash.slice(1)));
    for (let it = target; it; it = it.parentElement) if (it.tagName === "DETAILS") it.open = true;
    if (target) target.scrollIntoView();
  };
  window.addEventListener("hashchange", open);
  if (location.hash) open();
  const contracts = [...document.querySelectorAll("details.contract")], all = element("button", "Open all contracts");
  all.className = "all";
  all.addEventListener("click", () => {
    const isOpen = !contracts.every((it) => it.open);
    for (const it of contracts) it.open = isOpen;
    all.textContent = isOpen ? "Close all contracts" : "Open all contracts";
  });
  if (contracts.length > 1) document.querySelector("main h1").after(all);
  const side = document.querySelector("aside > details");
  if (side && window.matchMedia("(max-width: 52rem)").matches) side.open = false;
}

if (typeof document !== "undefined") { begin(); fold(); }
if (typeof module !== "undefined") module.exports = { found };
