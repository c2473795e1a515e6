// Shows the engine's answers: totals, who gains and who pays, pictures; and the labels of the controls.
import { COLOURS, LINES, layers, lines, sample, spaceTime } from "./draw.js";
import { $, engine, value } from "./start.js";
import { closed, critical, hours, lanes, study, timeOf, unit, weights, when } from "./study.js";
import { count, el, percent, say, signed, t, table } from "./words.js";

const PARTS = [["gate", "gate"], ["onroad", "road"], ["atramps", "ramp"]];

function legend(list, items) {
  list.replaceChildren(...items.map(([mark, text]) => {
    const li = el("li");
    li.append(sample(mark), text);
    return li;
  }));
}

// A bar of the three parts, and under it the wrong total; the words are in the legend, because a bar may be short.
function bar(name, run, most) {
  const right = el("div", "", { class: "bar" }), wrong = el("div", "", { class: "bar thin" });
  const piece = (kind, x, text) => { const div = el("div", text, { class: kind }); div.style.width = `${100 * x / most}%`; return div; };
  for (const [, key] of PARTS) right.append(piece(key, run[key], run[key] / most > 0.08 ? say(hours(run[key]), study.seconds ? 0 : 1) : ""));
  wrong.append(piece("wrong", run.road, run.road / most > 0.15 ? say(hours(run.road), study.seconds ? 0 : 1) : ""));
  return [el("div", t("bar.total", { name: t(name), x: say(hours(run.total)), unit: unit() }), { class: "note" }), right, wrong];
}
export function showTotals(run, open) {
  const most = Math.max(run.total, open.total, 1), parts = el("ul", "", { class: "legend" });
  legend(parts, [...PARTS.map(([name, key]) => [{ colour: COLOURS[key] }, t(name)]), [{ hatched: true }, t("wrong")]]);
  const columns = study.ramps.length ? 4 : 1;   // without a ramp there is nothing to compare
  $("bars").replaceChildren(...bar("these", run, most), ...(columns > 1 ? bar("allopen", open, most) : []), parts);
  const row = (name, key, kind = "") => {
    const tr = el("tr", "", { class: kind }), a = hours(run[key]), b = hours(open[key]), numbers = [say(a), say(b), signed(a - b), percent(a, b).replace("\u00a0%", "")];
    tr.append(el("th", t(name), { scope: "row" }), ...numbers.slice(0, columns).map((x) => el("td", x)));
    return tr;
  };
  const head = el("tr"), top = el("thead"), body = el("tbody"), names = [t("these"), t("allopen"), t("change"), "%"];
  head.append(...[unit(), ...names.slice(0, columns)].map((x) => el("th", x, { scope: "col" })));
  top.append(head);
  body.append(row("gate", "gate"), row("arriving", "arriving", "part"), row("onroad", "road"), row("atramps", "ramp"), row("together", "total", "sum"), row("wrong", "road", "wrong"));
  $("totals").replaceChildren(top, body);
  $("strip").textContent = `${say(hours(run.total))} ${unit()} (${percent(run.total, open.total) || "±0\u00a0%"})`;
  $("ends").textContent = t("says.ends", { these: say(run.present / 1000), open: say(open.present / 1000) });
}

// The time spent at each ramp, and its longest queue.
export function showRamps(run, open) {
  const w = study.road.n + 1, longest = (cell) => Math.max(...over(study.start.queue[cell - 1], (k) => run.queue[k * w + cell]));
  $("ramps-box").hidden = !study.ramps.length;
  const head = [t("ramps.table"), t("these"), t("allopen"), t("change"), t("ramps.longest")];
  $("ramp-table").replaceChildren(...table(head, study.ramps.map((cell, j) => {
    const a = hours(run.ramps[j]), b = hours(open.ramps[j]);
    return [t("ramp", { cell }), say(a), say(b), signed(a - b), say(longest(cell), digits())];
  })).children);
}

// Who gains and who pays against open meters.
export function verdictOf(run, open) {
  const seen = (x) => Math.abs(x) >= 0.05, all = hours(run.total - open.total), road = hours(run.road - open.road);
  const gains = [], pays = [];
  for (const key of ["gate", "road", "ramp"]) {
    const x = hours(run[key] - open[key]);
    if (seen(x)) (x < 0 ? gains : pays).push(t(`says.${key}`, { x: signed(x) }));
  }
  if (!gains.length && !pays.length) return t(study.ramps.length ? "says.same" : "meters.none");
  const told = (key, who) => t(who.length ? key : `${key}.none`, { who: who.join(t("says.and")) });
  const sum = t(!seen(all) ? "says.even" : all < 0 ? "says.gain" : "says.loss", { x: say(Math.abs(all)), unit: unit(), percent: percent(run.total, open.total) });
  const said = [told("says.gains", gains), told("says.pays", pays), sum];
  const paid = run.ramps.map((x, j) => hours(x - open.ramps[j])), most = Math.max(...paid);
  if (paid.length > 1 && most >= 0.05 && paid.filter((x) => x === most).length === 1) {
    said.push(t("says.most", { cell: study.ramps[paid.indexOf(most)], x: signed(most), unit: unit() }));
  }
  if (seen(road) && road < 0 && road < all) said.push(t("says.deceived", { x: say(-road), percent: percent(run.road, open.road) }));
  return said.join(" ");
}
export function showWeighed(run, open) {
  const { places, ramps } = weights(), plain = places.every((x) => x === 1) && study.ramps.every((c) => ramps[c - 1] === 1);
  $("weighed-box").hidden = plain;
  if (plain) return;
  const [a, b] = [run, open].map((x) => engine.weigh(x.record, places, ramps, lanes()));
  $("weighed").textContent = t("weighed.says", { these: say(hours(a)), open: say(hours(b)), percent: percent(a, b) || "±0\u00a0%" });
  $("weighed").dataset.weighted = a;
  $("weighed-promise").textContent = t(places.every((x, i) => !i || x <= places[i - 1]) ? "weighed.promise" : "weighed.none");
}

// Density over place and time, on a canvas.
export function drawMap(run, canvas) {
  const { road, edges, steps, inKm } = study, n = road.n, every = edges[n] > 6 ? 2 : 1;
  const ratio = (k, i) => run.held[k * (n + 1) + i + 1] / Math.max(1, critical(i) || road.jam[i]);
  const marks = road.ramp.map((mark, i) => (mark ? `▸${i + 1} ` : "") + (i < n - 1 && road.share[i] < 1000 ? "◂" : ""));
  const ticks = inKm ? Array.from({ length: Math.floor(edges[n] / every) + 1 }, (_, i) => [i * every, say(i * every, 0)])
    : road.ramp.flatMap((_, i) => (n < 24 || i % 4 === 0 ? [[i + 0.5, String(i + 1)]] : []));
  spaceTime(canvas, { steps, edges, ratio, marks, ticks, works: closed(), time: timeOf(), label: t(inKm ? "axis.km" : "axis.cells") });
  let top = { x: 0, cell: 1, k: 0 };
  for (let k = 0; k < steps; k++) for (let i = 0; i < n; i++) if (ratio(k, i) > top.x) top = { x: ratio(k, i), cell: i + 1, k };
  canvas.setAttribute("aria-label", t("map.alt", { cell: top.cell, x: say(top.x, 2), when: when(study.seconds ? top.k + 1 : top.k) }));
}
// Vehicles at the start and after each step.
const over = (first, of) => [first / 1000, ...Array.from({ length: study.steps }, (_, k) => of(k) / 1000)];
const digits = () => (study.seconds ? 0 : 1);
// The queues; ramps with the same curve are one line.
export function drawQueues(run) {
  const { start, ramps } = study, w = study.road.n + 1, alike = new Map();
  for (const cell of ramps) {
    const values = over(start.queue[cell - 1], (k) => run.queue[k * w + cell]), key = values.join();
    alike.set(key, { values, cells: [...(alike.get(key)?.cells ?? []), cell] });
  }
  const curves = [{ name: t("queue.gate"), colour: COLOURS.gate, dash: [], width: 2.6, values: over(start.gate_queue, (k) => run.held[k * w] - run.arrivals[k]) }];
  [...alike.values()].forEach(({ values, cells }, j) => {
    const [colour, dash] = LINES[j % LINES.length];
    curves.push({ name: cells.length > 1 ? t("ramps.of", { cells: cells.join(", ") }) : t("ramp.of", { cell: cells[0] }), colour, dash, values });
  });
  lines($("queues"), 230, curves, timeOf(), t("axis.vehicles"), say);
  $("queues").setAttribute("aria-label", t("queues.alt"));
  legend($("queues-legend"), curves.map((c) => [c, t("atmost", { name: c.name, x: say(Math.max(...c.values), digits()) })]));
}
const sum = (list, from, to) => { let s = 0; for (let i = from; i < to; i++) s += list[i]; return s; };
// Who is present at each place after each step: of the three parts, and of all.
function presence(run) {
  const { start, road } = study, w = road.n + 1;
  const parts = {
    road: over(sum(start.held, 0, road.n), (k) => sum(run.held, k * w + 1, k * w + w)),
    gate: over(start.gate_queue, (k) => run.held[k * w]),
    ramp: over(sum(start.queue, 0, road.n), (k) => sum(run.queue, k * w, k * w + w)),
  };
  return { ...parts, all: parts.road.map((x, k) => x + parts.gate[k] + parts.ramp[k]) };
}
export function drawSystem(run, open) {
  const here = presence(run), stack = [PARTS[1], PARTS[0], PARTS[2]].map(([name, key]) => ({ name, colour: COLOURS[key], values: here[key] }));
  layers($("system"), 230, stack, presence(open).all, timeOf(), t("axis.vehicles"), say);
  $("system").setAttribute("aria-label", t("system.alt"));
  legend($("system-legend"), [...stack.map((x) => [{ colour: x.colour }, t(x.name)]), [{ colour: "#000", dash: [6, 4] }, t("allopen")]]);
}
// Arrivals and departures since the start; the last point of the second is the engine's own count of exits.
export function drawCurves(run) {
  const { road, steps } = study, width = 1 + 2 * road.n, given = engine.rows(run.record, road.n, steps), { all } = presence(run);
  let sofar = 1000 * all[0];
  const came = over(sofar, (k) => {
    sofar += given[k * width];
    for (let j = 1; j < width; j += 2) sofar += given[k * width + j];
    return sofar;
  });
  const left = came.map((x, k) => x - all[k]), ends = { came: say(came.at(-1), digits()), left: say(run.exits / 1000, digits()) };
  const pair = [{ colour: "#000", dash: [], values: came }, { colour: COLOURS.ramp, dash: [7, 3], values: left }];
  lines($("curves"), 230, pair, timeOf(), t("axis.vehicles"), say, true);
  Object.assign($("curves").dataset, { left: Math.round(1000 * left.at(-1)), exits: run.exits });
  $("curves").setAttribute("aria-label", t("curves.alt", ends));
  legend($("curves-legend"), [[pair[0], t("curves.came", { x: ends.came })], [pair[1], t("curves.left", { x: ends.left })]]);
}

// The labels next to the controls, and which controls there are.
export function showSetting() {
  const set = (id, text) => { document.querySelector(`output[for="${id}"]`).textContent = text; $(id).setAttribute("aria-valuetext", text); };
  for (const id of ["cells", "steps", "w-gate", "w-first", "w-last", "w-ramp"]) set(id, $(id).value);
  set("load", `${$("load").value}\u00a0%`);
  set("gain", say(value("gain") / 100, 2));
  set("works", value("works") ? $("works").value : t("works.none"));
  $("works-box").hidden = !value("works");
  $("shape").textContent = "";
  if (!study.road) return;
  const { ramps, rate, seconds, steps } = study, law = $("law").value;
  const told = (x) => (x >= rate.most ? t("open") : seconds ? t("perhour", { x: say(x, 0) }) : t("perstep", { x: say(x / 1000, 2) }));
  for (const id of ["all", ...ramps.map((c) => `ramp-${c}`)]) set(id, told(value(id)));
  for (const c of ramps) document.querySelector(`label[for="ramp-${c}"] span`).textContent = t("ramp", { cell: c });
  set("cell", $("cell").value);
  for (const id of ["from", "to"]) set(id, when(value(id)));
  $("meters").hidden = !ramps.length;
  $("no-meters").hidden = !!ramps.length;
  $("gain-box").hidden = law !== "alinea";
  $("rates").hidden = !["fixed", "demand-capacity"].includes(law);
  $("shape").textContent = t(seconds ? "shape" : "shape.steps", { cells: count(study.road.n, "cells"), steps: count(steps, "steps"), seconds, ramps: count(ramps.length, "ramps") });
}
