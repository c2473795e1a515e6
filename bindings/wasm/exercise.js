// The exercise: a small road of a seed, or a record; for practice outflows typed by the student and judged by the engine.
import { DRAWN, NAMED, clearFault, fault, inLink, own, remember } from "./address.js";
import { Refused } from "./engine.mjs";
import { Refusal } from "./refusals.mjs";
import { showSetting } from "./show.js";
import { $, engine, graded, offer, on, value } from "./start.js";
import { Fault, count, el, lang, refusal, say, showEdges, t, table } from "./words.js";

const MOST_CELLS = 8, MOST_BYTES = 4096, DRAWS = 96, MOST_OUTFLOW = 1e6;
export let task = null;   // the record, what it gives, its title and names, and for practice the engine's run of it

// A road of a seed, as `nobyaluk exercise --seed` draws it. A road on which nobody is held back, or without an off-ramp, is skipped.
function drawn(seed, n, steps) {
  const TRIES = 100;
  for (let tries = 1; ; tries++) {
    const { record, road, start, last } = draw(seed, n, steps);
    if (tries === TRIES || fits(record, road, start)) return record;
    seed = last;
  }
}
function fits(record, road, start) {
  const w = road.n + 1, { outflow } = engine.run(record), { held } = engine.history(record, outflow);
  const before = (j) => (j >= w ? held[j - w] : [start.gate_queue, ...start.held][j]);
  const demand = (j, p) => (p ? engine.demand(road.speed[p - 1], road.capacity[p - 1], before(j)) : engine.gateDemand(road.gate_capacity, before(j)));
  return (road.n === 1 || road.share.some((b) => b > 0 && b < 1000)) && outflow.some((y, j) => y < demand(j, j % w));
}
// One road, all of it drawn by the stated load: numbers of 0 to 999 that choose, then the arrivals; and the number from which the load continues.
function draw(seed, n, steps) {
  const { list, last } = engine.load(seed, 999, DRAWS);
  let at = 0;
  const pick = (from) => from[Math.floor(list[at++] * from.length / 1000)];
  const road = { n, version: 1, seconds: 0, gate_capacity: pick([2000, 2500, 3000]), speed: [], wave: [], share: [], ramp: [], jam: [], capacity: [] };
  const start = { gate_queue: pick([1000, 2000, 3000]), held: [], queue: [] };
  for (let i = 0; i < n; i++) {
    const end = i === n - 1, mark = end && !road.ramp.includes(1) ? 1 : pick([0, 0, 1]);   // at least one on-ramp
    road.ramp.push(mark);
    road.speed.push(pick([400, 500, 600, 750]));
    road.wave.push(pick([200, 250, 400]));
    road.share.push(end ? 0 : pick([750, 800, 900, 1000]));
    road.jam.push(pick([6000, 8000, 10000]));
    road.capacity.push(pick(end ? [1000, 1200, 1500] : [1500, 2000, 2500]));
    start.held.push(pick([1000, 2000, 3000, 4000]));
    start.queue.push(mark * pick([500, 1000, 1500]));
  }
  const width = 1 + 2 * n, rows = new Uint32Array(steps * width);
  const gate = engine.load(last, 1500, steps), ramp = engine.load(gate.last, 500, steps * n);
  for (let k = 0; k < steps; k++) {
    rows[k * width] = gate.list[k];
    for (let i = 0; i < n; i++) rows[k * width + 2 * i + 1] = road.ramp[i] * ramp.list[k * n + i];
  }
  const meters = Object.fromEntries(road.ramp.flatMap((mark, i) => (mark ? [[i + 1, ["fixed", 300]]] : [])));
  return { record: engine.fill(engine.write(road, start, rows), meters).record, road, start, last: ramp.last };
}
const seed = () => Math.min(2 ** 32 - 1, Math.max(0, Math.floor(value("seed")) || 0));

// The sheet's tables.
export const whole = (x) => say(x, 0);
const nameOf = (place) => (place ? t("place.cell", { cell: place }) : t("place.gate"));
const rampsOf = () => task.road.ramp.flatMap((mark, i) => (mark ? [i + 1] : []));
const givenName = (cell) => task.names[rampsOf().indexOf(cell)];
const rampName = (cell) => (givenName(cell) ? t("ramp.named", { name: givenName(cell) }) : t("ramp.of", { cell }));
export const places = () => Array.from({ length: task.road.n + 1 }, (_, p) => p);
export const eachStep = (of) => Array.from({ length: task.steps }, (_, k) => [String(k), ...of(k)]);
export function given() {
  const { road, start } = task, head = ["place", "col.v", "col.w", "col.b", "col.J", "col.C", "col.held", "col.queue"].map((key) => t(key));
  const gate = [nameOf(0), "", "", "", "", whole(road.gate_capacity), "", whole(start.gate_queue)];
  const numbers = (i) => ["speed", "wave", "share", "jam", "capacity"].map((name) => whole(road[name][i]));
  const name = (cell) => (givenName(cell) ? t("place.named", { place: nameOf(cell), ramp: rampName(cell) }) : nameOf(cell));
  const cell = (i) => [name(i + 1), ...numbers(i), whole(start.held[i]), road.ramp[i] ? whole(start.queue[i]) : ""];
  return table(head, [gate, ...road.ramp.map((_, i) => cell(i))]);
}
// What arrives and is released: the columns of the gate and of each on-ramp, and a step's numbers.
export const inflowGroups = () => [[nameOf(0), 1], ...rampsOf().map((c) => [rampName(c), 2])];
export const inflowNames = () => [t("arrivals"), ...rampsOf().flatMap(() => [t("arrivals"), t("release")])];
export function inflowOf(k) {
  const number = (j) => whole(task.rows[k * (1 + 2 * task.road.n) + j]);
  return [number(0), ...rampsOf().flatMap((c) => [number(2 * c - 1), number(2 * c)])];
}
const inflow = () => table([t("step"), ...inflowNames()], eachStep(inflowOf), inflowGroups());
// The columns of an answer: the outflows, and the state after the step in the order of held and queue.
export const placeNames = () => places().map(nameOf);
const outflowWhat = () => places().map((p) => t("outflow.of", { place: nameOf(p) }));
const stateWhat = () => [...places().map((p) => t(p ? "held.of" : "queue.of", { place: nameOf(p) })), ...rampsOf().map((c) => t("queue.of", { place: rampName(c) }))];
export const outflowGroups = () => [[t("group.outflow"), task.road.n + 1]];
export const stateGroups = () => [[t("group.queue"), 1], [t("group.held"), task.road.n], ...(rampsOf().length ? [[t("group.queue"), rampsOf().length]] : [])];
export const stateNames = () => [...placeNames(), ...rampsOf().map(rampName)];
export function stateOf(h, k) {
  const at = k * (task.road.n + 1);
  return [...places().map((p) => whole(h.held[at + p])), ...rampsOf().map((c) => whole(h.queue[at + c]))];
}
// Cells, steps and the seconds of a step, if they are known.
export function shapeOf() {
  const { n, seconds } = task.road;
  return t(seconds ? "sheet.shape" : "sheet.shape.steps", { cells: count(n, "cells"), steps: count(task.steps, "steps"), seconds });
}
export const seeded = () => t("sheet.seed", { seed: task.seed, shape: shapeOf() });

// The exercise that the controls ask for.
function made() {
  if (fault) throw fault;
  const mine = $("own").checked, record = mine ? own : drawn(seed(), value("cells"), value("steps"));
  const { road, start, steps } = engine.readWithin(record, MOST_CELLS, MOST_BYTES), best = engine.run(record);
  const names = $("names").value.split(",").map((x) => x.trim());
  return { record, road, start, steps, names, rows: engine.rows(record, road.n, steps), best: graded ? null : best, seed: mine ? null : seed(), title: $("title").value.trim() };
}
// Takes it, or shows what is wrong with it.
export function setTask() {
  try {
    task = made();
  } catch (e) {
    if (!(e instanceof Refused || e instanceof Fault)) throw e;
    task = null;
    $("exercise-refused").textContent = refusal(e);
  }
  $("exercise-refused").hidden = !!task;
  $("sheet").hidden = !task;
}
// What is given, and the table of answers with its fields; typed: what is in them already.
export function showTask(typed = []) {
  $("sheet-name").textContent = task.seed !== null ? seeded() : graded ? shapeOf() : t("sheet.record", { shape: shapeOf() });
  $("given").replaceChildren(given());
  $("inflow").replaceChildren(inflow());
  const field = (k, what) => {
    const td = el("td");
    td.append(el("input", "", { inputmode: "numeric", autocomplete: "off", "aria-label": t("field", { step: k, what }) }));
    return td;
  };
  const line = (k) => [...outflowWhat().map((what) => field(k, what)), ...stateWhat().map((what) => (graded ? field(k, what) : el("td")))];
  $("grid").replaceChildren(...table([t("step"), ...placeNames(), ...stateNames()], eachStep(line), [...outflowGroups(), ...stateGroups()]).children);
  fields().forEach((x, i) => { x.value = typed[i] ?? ""; });
  showEdges();
}
// The exercise for practice; typed answers stay if it is the same exercise.
export function newExercise(keep = false) {
  const before = task, typed = task ? fields().map((x) => x.value) : [];
  $("own-box").hidden = !own;
  if (!own) $("own").checked = false;
  $("drawn-box").hidden = $("own").checked;
  setTask();
  $("exercise-record").hidden = !task;
  $("linked").textContent = "";
  for (const id of ["print-sheet", "print-key", "link-practice", "link-graded"]) $(id).disabled = !task;
  if (!task) return;
  $("names-box").hidden = !rampsOf().length;
  const same = keep && before && String(before.record) === String(task.record);
  showTask(same ? typed : []);
  verdict("", "");
  if (same && typed.some((x) => x)) judge();
}

// Judging.
export const fields = () => [...$("grid").querySelectorAll("input")];
const plain = (text) => text.trim().replace(/[\s.,’'](?=\d{3}(?!\d))/g, "");   // 1,000 or 1.000 is a thousand
const isNumber = (text) => /^\d{1,7}$/.test(text) && Number(text) <= MOST_OUTFLOW;
function verdict(kind, text, more = "") {
  $("judged").className = kind;
  $("judged").textContent = text;
  $("judged-more").textContent = more;
}
function mark(i) {
  fields()[i].setAttribute("aria-invalid", "true");
  fields()[i].focus();
}
// Shows which steps are right, with their states.
function showRight(h, right) {
  const w = task.road.n + 1;
  $("grid").querySelectorAll("tbody tr").forEach((tr, k) => {
    const tds = [...tr.querySelectorAll("td")], states = k < right && $("show").checked ? stateOf(h, k) : [];
    tds.forEach((td, j) => { td.classList.toggle("right", k < right); if (j >= w) td.textContent = states[j - w] ?? ""; });
  });
}
// Judges the steps that are filled in completely; the others count as 0, an outflow that no rule forbids.
function judge() {
  const w = task.road.n + 1, texts = fields().map((x) => plain(x.value)), blank = texts.indexOf("");
  const done = Math.floor((blank < 0 ? texts.length : blank) / w), wrong = texts.findIndex((x) => x !== "" && !isNumber(x));
  fields().forEach((x) => x.removeAttribute("aria-invalid"));
  showRight(null, 0);
  if (wrong >= 0) {
    mark(wrong);
    return verdict("bad", t("judged.number", { step: Math.floor(wrong / w), place: nameOf(wrong % w), x: fields()[wrong].value }));
  }
  if (!done) return verdict("bad", t("judged.empty"));
  const plan = Uint32Array.from(texts, (x, i) => (i < done * w ? Number(x) : 0)), h = engine.history(task.record, plan, undefined, false);
  showRight(h, Math.min(done, h.steps));
  if (h.number && h.step < done) return broken(h, plan);
  if (done < task.steps) {
    fields()[done * w].focus();
    return verdict("good", t("judged.so-far", { step: done - 1, next: done }));
  }
  const b = task.best, cost = (x) => say(x / 1000, 3);
  const parts = { gate: cost(h.gate), road: cost(h.road), ramp: cost(h.ramp), bgate: cost(b.gate), broad: cost(b.road), bramp: cost(b.ramp) };
  const costs = { x: cost(h.total), best: cost(b.total), more: cost(h.total - b.total), unit: t("unit.steps") };
  verdict("good", t(h.total === b.total ? "judged.least" : "judged.more", costs), t("judged.parts", parts));
}
// The first broken rule, and for an outflow the most that it may be.
function broken(h, plan) {
  const i = h.step * (task.road.n + 1) + h.place;
  if (h.number !== Refusal.OutflowAboveDemand && h.number !== Refusal.EnteringAboveRoom) return verdict("bad", refusal(h));
  mark(i);
  verdict("bad", refusal(h), t("judged.hint", { x: whole(plan[i]), most: whole(mostIn(h)) }));
}
// The greatest outflow of a place in the student's state: what the engine sends in one step from there.
function mostIn({ step, place, state }) {
  const width = 1 + 2 * task.road.n, next = engine.step(task.road, state, task.rows.slice(step * width, (step + 1) * width));
  return place ? next.cumulative[place - 1] - state.cumulative[place - 1] : next.gate_cumulative - state.gate_cumulative;
}

// A student's answers as the graded form saves them, for `nobyaluk mark`; this is the format's one definition. JSON, UTF-8, of
// version 1. For the record of examples/printed-run.rec:
//   { "format": "nobyaluk-answers", "version": 1,
//     "exercise": { "record": "AAAAeAECAAMAAAfQ..", "seed": null, "cells": 2, "steps": 3 },
//     "name": "Ada Lovelace",
//     "outflows": [[1500, 934, 1000], [1358, 933, 1000], [1252, 934, 1000]],
//     "held": [[2500, 2566, 4000], [2142, 2991, 4000], [1890, 3309, 4000]], "queue": [[1700], [1900], [2100]],
//     "gate": 6532, "road": 20866, "ramp": 5700, "total": 33098,
//     "whose": "everyone in the system: on the road, at the gate and at the ramps" }
// exercise.record: the record's bytes in base64 (RFC 4648, section 4, padded). seed: the seed that draws the record, or null for a
// record of the lecturer's; cells and steps: n and T of the record. Marking compares the record's bytes with the exercise.
// outflows, held and queue have a row for each step. outflows: the gate, then each cell. held: what waits at the gate and what each
// cell holds after the step, in the same order. queue: what waits at each on-ramp after the step, by cells; [] without on-ramps.
// Counts are in thousandths of a vehicle; gate, road, ramp and total in thousandths of a vehicle times steps, as `ctm` prints them.
// An answer is a whole number, null if the field is empty, or the text as typed if it is no whole number.
// name and whose are texts, empty if nothing is typed.
export function answersOf(typed) {
  const n = task.road.n, w = n + 1, width = 2 * w + rampsOf().length;
  const rows = (from, to) => Array.from({ length: task.steps }, (_, k) => typed.slice(k * width + from, k * width + to).map(answerOf));
  const [gate, road, ramp, total] = ["gate", "road", "ramp", "total"].map((name) => answerOf($(`time-${name}`).value));
  return {
    format: "nobyaluk-answers", version: 1,
    exercise: { record: btoa(String.fromCharCode(...task.record)), seed: task.seed, cells: n, steps: task.steps },
    name: $("name").value.trim(), outflows: rows(0, w), held: rows(w, 2 * w), queue: rows(2 * w, width),
    gate, road, ramp, total, whose: $("whose").value.trim(),
  };
}
function answerOf(text) {
  const bare = plain(text);
  return bare === "" ? null : /^\d{1,15}$/.test(bare) ? Number(bare) : text.trim();
}

on("plan", "submit", (e) => { e.preventDefault(); if (!graded) judge(); });
on("show", "input", () => { if (fields().some((x) => x.value)) judge(); });
on("clear", "click", () => newExercise());
for (const id of NAMED) on(id, "input", () => { newExercise(true); remember(); });
on("next", "click", () => { clearFault(); $("own").checked = false; $("seed").value = engine.load(seed(), 99999, 1).list[0]; newExercise(); remember(); });
for (const id of [...DRAWN, "own"]) on(id, "input", () => { clearFault(); showSetting(); newExercise(); remember(); });
offer("exercise-record", () => task.record);

// The links for the class: the exercise, its title and names, and the form of the page.
function linkOf(form) {
  const p = new URLSearchParams({ lang, mode: form });
  if (task.seed === null) { p.set("own", "1"); p.set("rec", inLink(task.record)); } else for (const id of DRAWN) p.set(id, id === "seed" ? task.seed : $(id).value);
  for (const id of NAMED) if ($(id).value.trim()) p.set(id, $(id).value.trim());
  return location.href.replace(/#.*/, "") + "#" + p;
}
function giveLink(form, name) {
  const link = linkOf(form), done = (key) => { $("linked").replaceChildren(t(key), " ", el("a", name, { href: link, target: "_blank", rel: "noopener" })); };
  (navigator.clipboard?.writeText(link) ?? Promise.reject()).then(() => done("link.copied"), () => done("link.here"));
}
on("link-practice", "click", () => giveLink("exercise", t("link.open.practice")));
on("link-graded", "click", () => giveLink("graded", t("link.open.graded")));
