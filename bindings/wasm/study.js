// A study: a record with names, units and clock times, the changes by the controls, and the engine's run of it. Units, the scaling of
// traffic and the targets of meter laws are made here; flows, totals, releases, weights and bytes are the engine's.
import { RATE } from "./engine.mjs";
import { engine, value } from "./start.js";
import { say, t } from "./words.js";

const LANES = 3;
export const LAWS = ["record", "open", "fixed", "alinea", "demand-capacity"];
export let study = null;
export function setStudy(to) { study = to; }

// A record that was opened, with its step's seconds, clock time and lengths if they are known.
export function opened(record, known = {}) {
  const { road, start, steps } = engine.read(record), ramps = road.ramp.flatMap((mark, i) => (mark ? [i + 1] : []));
  const seconds = road.seconds || known.seconds || 0, edges = [0];
  for (const km of known.lengths ?? new Array(road.n).fill(1)) edges.push(edges.at(-1) + km);
  const most = seconds ? 1500 : 100 * Math.ceil(Math.max(100, ...ramps.map((c) => road.capacity[c - 1])) / 100);
  return {
    record, road, start, steps, ramps, seconds, edges, rows: engine.rows(record, road.n, steps),
    inKm: !!known.lengths, clock: known.clock ?? null, law: known.law ?? "record",
    works: known.works ?? { cell: Math.ceil(road.n / 2), from: 0, to: Math.ceil(steps / 3) },
    rate: { most, step: seconds ? 15 : most / 100, start: known.rate ?? (seconds ? 675 : most / 2) },
  };
}

// Part-steps in vehicle-hours, or in vehicle-steps if a step's seconds are unknown.
export const hours = (x) => (study.seconds ? x * study.seconds / 3.6e6 : x / 1000);
export const unit = () => t(study.seconds ? "unit.hours" : "unit.steps");
const two = (x) => String(Math.floor(x)).padStart(2, "0");
const clockTime = (s) => `${two(s / 3600 % 24)}:${two(s % 3600 / 60)}`;
export function when(k) {
  if (!study.seconds) return t("when.step", { x: k });
  return study.clock === null ? t("axis.minutes", { x: say(k * study.seconds / 60, 0) }) : clockTime(study.clock + k * study.seconds);
}
export function timeOf() {
  const { steps, seconds, clock } = study;
  if (!seconds) return { from: 0, to: steps, units: [1, 2, 5, 10, 20, 50, 100, 200], label: (k) => t("when.step", { x: k }) };
  if (clock === null) return { from: 0, to: steps * seconds / 60, units: [1, 2, 5, 10, 20, 30, 60, 120], label: (m) => t("axis.minutes", { x: m }) };
  return { from: clock, to: clock + steps * seconds, units: [60, 300, 600, 900, 1800, 3600, 7200], label: clockTime };
}

// The record's rows with their arrivals scaled, each to the nearest part.
function rows() {
  const load = value("load"), width = 1 + 2 * study.road.n;
  const arrival = (j) => j % width === 0 || j % width % 2 === 1;
  return study.rows.map((x, j) => (arrival(j) ? Math.round(x * load / 100) : x));
}
// Closed lanes, or null; as a table of lanes, and as the reference's text of one.
export function closed() {
  const works = { lanes: value("works"), cell: value("cell"), from: value("from"), to: value("to") };
  return works.lanes && works.from < works.to ? works : null;
}
export function lanes() {
  const works = closed(), n = study.road.n, all = (1 << LANES) - 1;
  if (!works) return new Uint8Array(0);
  const table = new Uint8Array(n * (study.steps + 1)).fill(all);
  for (let k = works.from; k < works.to; k++) table[n * (k + 1) + works.cell - 1] = all >> works.lanes;
  return table;
}
export function lanesText() {
  const { lanes, cell, from, to } = closed();
  const shut = Array.from({ length: lanes }, (_, i) => `closed ${LANES - i} cell ${cell} steps ${from} to ${to - 1}\n`);
  return `cells ${study.road.n}\nsteps ${study.steps}\nbuilt ${LANES}\n${shut.join("")}`;
}
// A cell's critical count, at which its demand reaches its capacity.
export const critical = (i) => (study.road.speed[i] ? 1000 * study.road.capacity[i] / study.road.speed[i] : 0);
function rateOf(cell) {
  const x = value(`ramp-${cell}`);
  return x >= study.rate.most ? RATE : study.seconds ? x * study.seconds / 3.6 : x;
}
function lawOf(law, cell) {
  const target = Math.round(critical(cell - 1));
  if (law === "alinea") return ["alinea", value("gain") / 100, target];
  if (law === "demand-capacity") return ["demand-capacity", study.road.capacity[cell - 1], target, rateOf(cell)];
  return ["fixed", law === "open" ? RATE : rateOf(cell)];
}

// The engine's run under a law, with its record, its states and the time spent at each ramp.
export function ran(law) {
  const record = engine.write(study.road, study.start, rows()), table = lanes();
  const laws = Object.fromEntries(study.ramps.map((cell) => [cell, lawOf(law, cell)]));
  const e = law === "record" ? { ...engine.run(record, table), record } : engine.fill(record, laws, table);
  const { held, queue } = engine.history(e.record, e.outflow, table);
  // the time spent at a ramp is the weighted total with weight 1 only there
  const ramps = study.ramps.map((cell) => engine.weigh(e.record, [], study.road.ramp.map((_, i) => (i === cell - 1 ? 1 : 0)), table));
  // what arrives at the gate in a step may leave in the next: of the gate's time one step for each, the sum of the record's own arrivals
  const width = 1 + 2 * study.road.n, arrivals = engine.rows(e.record, study.road.n, study.steps).filter((_, j) => j % width === 0);
  return { ...e, held, queue, ramps, arrivals, arriving: arrivals.reduce((a, b) => a + b, 0) };
}
// Weights of the gate and each cell, the cells' between the first's and the last's; and of the ramps.
export function weights() {
  const n = study.road.n, first = value("w-first"), last = value("w-last");
  const between = (i) => Math.round(n > 1 ? first + (last - first) * i / (n - 1) : first);
  return { places: [value("w-gate"), ...study.road.ramp.map((_, i) => between(i))], ramps: study.road.ramp.map((mark) => mark * value("w-ramp")) };
}
