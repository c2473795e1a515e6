// The page for practice: its controls and what they show.
import { DRAWN, NAMED, WEIGHTS, clearFault, fault, held, mode, outOfLink, own, remember, setMode, take } from "./address.js";
import { DATA } from "./data.mjs";
import { scale } from "./draw.js";
import { Refused, lastLines, listing } from "./engine.mjs";
import { newExercise } from "./exercise.js";
import { Refusal } from "./refusals.mjs";
import { drawCurves, drawMap, drawQueues, drawSystem, showRamps, showSetting, showTotals, showWeighed, verdictOf } from "./show.js";
import { $, address, bytesOf, engine, graded, offer, on, value } from "./start.js";
import { LAWS, closed, lanes, lanesText, opened, ran, setStudy, study } from "./study.js";
import { Fault, count, el, lang, refusal, say, setLanguage, showEdges, speak, t } from "./words.js";

let shown = null;   // the last run and its table of lanes, for the downloads
const RELEASES = [Refusal.ReleaseAboveQueue, Refusal.ReleaseAboveSupply];   // where other releases help

// Words in place of the results, or none.
function refuse(text) {
  $("refused").textContent = text;
  $("refused").hidden = !text;
  for (const id of ["shown", "record", "listing", "lanes"]) $(id).hidden = !!text;
  if (text) for (const id of ["last", "last-says", "took", "strip"]) $(id).textContent = "";
}
// Shows the run of the present setting, or why there is none.
export function update() {
  showSetting();
  remember();
  if (mode !== "study") return;
  shown = null;
  try {
    if (study.refused) throw study.refused;
    if (!study.road) throw fault ?? new Fault("own.none");
    const before = performance.now(), run = ran($("law").value), ms = performance.now() - before;
    show(run, study.ramps.length ? ran("open") : run, ms);
  } catch (e) {
    if (!(e instanceof Refused || e instanceof Fault)) throw e;
    refuse(refusal(e) + (RELEASES.includes(e.number) ? " " + t("refused.then") : ""));
  }
}
function show(run, open, ms) {
  refuse("");
  shown = { run, table: lanes() };
  showTotals(run, open);
  $("verdict").textContent = verdictOf(run, open);
  showRamps(run, open);
  showWeighed(run, open);
  drawMap(run, $("map"));
  $("open-box").hidden = !study.ramps.length;
  if ($("open-box").open) drawMap(open, $("map-open"));
  drawQueues(run); drawSystem(run, open); drawCurves(run);
  showEdges();
  $("took").textContent = t("took", { steps: count(study.steps, "steps"), cells: count(study.road.n, "cells"), ms: say(ms, 1) });
  $("lanes").hidden = !closed();
  $("last-says").textContent = t(closed() ? "take.works" : "take.check");
  $("last").replaceChildren(...lastLines(engine, run.record, run).flatMap((x) => [x, el("br")]));
}
// Settings to try, as addresses.
const TRIES = {
  tight: { study: "rocade", law: "fixed", rates: { 2: 630, 5: 630, 7: 630, 11: 630, 14: 630, 16: 630, 19: 630, 21: 630 } },
  four: { study: "rocade", law: "fixed", rates: { 2: 1500, 5: 1500, 14: 1500, 21: 1500 } },
  alinea: { study: "rocade", law: "alinea" },
  works: { study: "rocade", law: "alinea", works: 1, cell: 11, from: 60, to: 150 },
  weights: { study: "rocade", law: "fixed", "w-gate": 2 },
  paper: { study: "printed" },
};
export function showTries() {
  document.querySelector("#tries ul").replaceChildren(...Object.entries(TRIES).map(([name, { rates, ...setting }]) => {
    const p = new URLSearchParams({ lang, ...setting }), li = el("li");
    for (const [cell, rate] of Object.entries(rates ?? {})) p.set(`ramp-${cell}`, rate);
    li.append(el("a", t(`try.${name}`), { href: "#" + p }));
    return li;
  }));
}

// The fault of a file that is no record. A record's first byte is 0, because it has at most 65,536 bytes; no text begins with 0.
function faultOf(name, bytes) {
  const ending = /\.([a-z]+)$/.exec(name.toLowerCase())?.[1], text = bytes.length > 0 && bytes.subarray(0, 4).every((x) => x > 31 || (x > 8 && x < 14));
  if (ending === "rec" ? !text : bytes[0] === 0) return null;
  const quoted = (word) => (/^[\w.-]+$/.test(word) ? word : `'${word.replace(/'/g, "'\\''")}'`);
  const key = ["toml", "csv", "txt"].includes(ending) ? `file.${ending}` : "file.other";
  return new Fault(key, { name, from: quoted(name), to: quoted(name.replace(/\.[^.]*$/, "") + ".rec") });
}
export function readAddress() {
  const p = address(), wanted = p.get("lang") ?? navigator.language.slice(0, 2), key = p.get("study");
  setLanguage(Object.hasOwn(DATA.texts, wanted) ? wanted : "en");
  $("lang").value = lang;
  speak();
  showTries();
  take(() => (p.has("rec") ? outOfLink(p.get("rec")) : own));
  choose(key === "own" || (key && Object.hasOwn(DATA.studies, key)) ? key : Object.keys(DATA.studies)[0]);
  for (const x of held()) {
    if (p.has(x.id)) x.value = p.get(x.id);
    if (x.tagName === "SELECT" && x.selectedIndex < 0) x.value = x.dataset.start;
  }
  $("weights-box").open = WEIGHTS.some((id) => $(id).value !== "1");
  $("own").checked = (graded || !!p.get("own")) && !!own;
}
export function recall() {
  readAddress();
  turn(address().get("mode") === "exercise" ? "exercise" : "study");
  document.body.dataset.ready = "";
}
// Removes what belongs to the other form of the page: a graded one has no key, hint, check or study.
export function keepForm() {
  for (const x of document.querySelectorAll(`[data-form=${graded ? "practice" : "graded"}]`)) x.remove();
}
function turn(to) {
  setMode(to);
  for (const m of ["study", "exercise"]) {
    $(`view-${m}`).hidden = m !== mode;
    $(`mode-${m}`).setAttribute("aria-pressed", m === mode);
  }
  $("strip").hidden = mode !== "study";
  update();
  newExercise(true);
}

// A study chosen, in its own setting.
function choose(key) {
  $("study").value = key;
  try {
    setStudy(key !== "own" ? opened(bytesOf(DATA.studies[key].record), DATA.studies[key]) : own ? opened(own) : {});
  } catch (e) {
    if (!(e instanceof Refused)) throw e;
    setStudy({ refused: e });
  }
  const set = (id, start, most) => { if (most !== undefined) $(id).max = most; $(id).value = $(id).dataset.start = start; };
  for (const id of WEIGHTS) set(id, "1");
  set("load", "100"); set("works", "0"); set("gain", "10");
  if (!study.road) return;
  const { works, steps, rate, ramps } = study;
  set("cell", works.cell, study.road.n); set("from", works.from, steps); set("to", works.to, steps); set("law", study.law);
  $("ramps").replaceChildren(...ramps.map((c) => {
    const field = el("div", "", { class: "field" }), label = el("label", "", { for: `ramp-${c}` }), slider = el("input", "", { type: "range", id: `ramp-${c}` });
    label.append(el("span"), el("output", "", { for: `ramp-${c}` }));
    slider.addEventListener("input", update);
    field.append(label, slider);
    return field;
  }));
  for (const id of ["all", ...ramps.map((c) => `ramp-${c}`)]) { $(id).min = 0; $(id).step = rate.step; set(id, rate.start, rate.most); }
}
async function takeFile(file) {
  const bytes = new Uint8Array(await file.arrayBuffer()), wrong = faultOf(file.name, bytes);
  take(() => { if (wrong) throw wrong; return bytes; });
  for (const x of document.querySelectorAll(".choose + span")) x.textContent = fault ? "" : file.name;
  if (mode === "study") { choose("own"); update(); return; }
  $("own").checked = !fault;
  newExercise();
  remember();
}
function copyLink(event) {
  const note = event.target.closest("section").querySelector(".linked"), done = (key) => { note.textContent = t(key); };
  (navigator.clipboard?.writeText(location.href) ?? Promise.reject()).then(() => done("take.linked"), () => done("take.address"));
}

$("study").append(...[...Object.keys(DATA.studies), "own"].map((key) => el("option", "", { value: key })));
$("law").append(...LAWS.map((key) => el("option", "", { value: key })));
$("scale").style.background = scale;
for (const id of [...DRAWN, ...NAMED]) $(id).dataset.start = $(id).value;
on("study", "change", () => { choose($("study").value); update(); });
on("reset", "click", () => { choose($("study").value); update(); });
for (const id of ["load", "works", "cell", "law", "gain", ...WEIGHTS]) on(id, "input", update);
on("from", "input", () => { $("to").value = Math.max(value("to"), value("from") + 1); update(); });
on("to", "input", () => { $("from").value = Math.min(value("from"), value("to") - 1); update(); });
on("all", "input", () => { for (const c of study.ramps) $(`ramp-${c}`).value = $("all").value; update(); });
on("open-box", "toggle", update);
on("file", "change", () => { if ($("file").files[0]) takeFile($("file").files[0]); });
for (const x of document.querySelectorAll(".choose")) x.addEventListener("click", () => $("file").click());
on("skip", "click", () => (mode === "study" ? $("results") : $("grid").querySelector("input"))?.focus());
for (const m of ["study", "exercise"]) on(`mode-${m}`, "click", () => { clearFault(); turn(m); });
for (const x of document.querySelectorAll(".link")) x.addEventListener("click", copyLink);
document.addEventListener("dragover", (e) => { e.preventDefault(); document.body.classList.toggle("over", !graded); });
document.addEventListener("dragleave", (e) => { if (!e.relatedTarget) document.body.classList.remove("over"); });
document.addEventListener("drop", (e) => { e.preventDefault(); document.body.classList.remove("over"); if (!graded && e.dataTransfer.files[0]) takeFile(e.dataTransfer.files[0]); });
offer("record", () => shown.run.record);
offer("listing", () => listing(engine, shown.run.record, shown.table));
offer("lanes", lanesText);
document.addEventListener("scroll", showEdges, true);
window.addEventListener("resize", () => { showEdges(); if (!graded) update(); });
