// Words and numbers as people read them, in the language chosen; texts.tsv has the words.
import { DATA } from "./data.mjs";
import { $, graded } from "./start.js";

export let lang = "en";
export function setLanguage(to) { lang = to; }

export const t = (key, given = {}) => (DATA.texts[lang][key] ?? key).replace(/\{(\w+)\}/g, (_, name) => given[name] ?? "");
export const say = (x, digits = 1) => x.toLocaleString(lang, { minimumFractionDigits: digits, maximumFractionDigits: digits });
export const signed = (x, digits = 1) => (Math.abs(x) < 0.5 / 10 ** digits ? "±" : x > 0 ? "+" : "−") + say(Math.abs(x), digits);
// A number with its word: 1 cell, 2 cells; the language says which form it takes.
export function count(x, what) {
  const none = `count.${what}.none`, one = new Intl.PluralRules(lang).select(x) === "one" ? ".one" : "";
  return x === 0 && Object.hasOwn(DATA.texts[lang], none) ? t(none) : t(`count.${what}${one}`, { x: say(x, 0) });
}
export const percent = (x, from) => (from ? signed(100 * (x - from) / from) + "\u00a0%" : "");

// An element with its text and attributes.
export function el(tag, text = "", attributes = {}) {
  const x = document.createElement(tag);
  x.textContent = text;
  for (const [name, given] of Object.entries(attributes)) x.setAttribute(name, given);
  return x;
}

// A table; a cell is a text or an element, and the first of a row its heading. groups: what columns have in common, [name, columns].
export function table(head, body, groups = []) {
  const row = (cells, tag) => {
    const tr = el("tr");
    tr.append(...cells.map((c, i) => (c instanceof Node ? c : el(i ? tag : "th", c, tag === "th" || !i ? { scope: tag === "th" ? "col" : "row" } : {}))));
    return tr;
  };
  const all = el("table"), top = el("thead"), rest = el("tbody");
  top.append(row(head, "th"));
  rest.append(...body.map((cells) => row(cells, "td")));
  all.append(top, rest);
  if (groups.length) group(all, groups);
  return all;
}

// Puts a row of groups above the headings, and a line before each group.
function group(all, groups) {
  const over = el("tr", "", { class: "groups" }), [names] = all.tHead.rows;
  names.className = "places";
  over.append(names.cells[0], ...groups.map(([name, columns]) => el("th", name, { colspan: columns, scope: "colgroup", class: "first" })));
  over.cells[0].rowSpan = 2;
  all.tHead.prepend(over);
  let at = 0;
  for (const [, columns] of groups) {
    names.cells[at].classList.add("first");
    for (const tr of all.tBodies[0].rows) tr.cells[at + 1].classList.add("first");
    at += columns;
  }
}
// Shows by a shadow that a table continues beyond its edge.
export function showEdges() {
  for (const x of document.querySelectorAll(".wide")) {
    x.parentElement.classList.toggle("more", x.scrollLeft < x.scrollWidth - x.clientWidth - 1);
    x.parentElement.classList.toggle("less", x.scrollLeft > 1);
  }
}

// Puts the words of the language into the page.
export function speak() {
  document.documentElement.lang = lang;
  document.title = t("page.title", { title: t(graded ? "sheet" : "title") });
  for (const x of document.querySelectorAll("[data-t]")) x.textContent = t(x.dataset.t);
  for (const x of document.querySelectorAll("[data-label]")) x.setAttribute("aria-label", t(x.dataset.label));
  if (graded) return;
  for (const select of ["study", "law"]) for (const o of $(select).options) o.textContent = t(`${select}.${o.value}`);
  $("module").textContent = t("believed.module", { version: DATA.version, bytes: say(DATA.bytes, 0), sum: DATA.sum });
}

// What was given instead of a record, and what to do: a key of the texts, and the values that it names.
export class Fault extends Error {
  constructor(key, given = {}) { super(key); Object.assign(this, { key, given }); }
}

// The meaning of a refusal of an operation: the meaning of its place, and its words in each language.
function meaningOf({ number, operation }) {
  const rows = DATA.refusals.filter((row) => row.number === number);
  return rows.find((row) => row.operations.includes(operation)) ?? rows[0];
}
// A refusal in words: its number, where it is, what it means; or a fault of the file.
export function refusal(e) {
  if (e instanceof Fault) return t(e.key, e.given);
  const { place: kind, ...words } = meaningOf(e), step = kind === "step" ? e.place : e.step;
  const where = {
    none: null, place: e.place ? "at.cell" : "at.gate", cell: "at.cell", step: "at.step",
    "step and cell": "at.both", "step and place": e.place ? "at.both" : "at.bothgate",
  }[kind];
  return t("refused", { number: e.number, where: where ? t(where, { step, place: e.place }) : "", words: words[lang] });
}
