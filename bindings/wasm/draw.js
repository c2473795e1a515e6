// The page's pictures, on canvases. What is drawn are the engine's numbers; nothing here goes back to it.
// Colours are those that people with colour blindness can tell apart (Okabe and Ito); lines differ in their dashes too.

export const COLOURS = { gate: "#0072B2", road: "#8f8f8f", ramp: "#D55E00" };
export const LINES = [
  ["#D55E00", []], ["#009E73", [8, 3]], ["#B5498A", [3, 2]], ["#9A6B00", [9, 3, 2, 3]], ["#2E9BDF", [14, 3]], ["#000000", [4, 3]], ["#7A3E9D", [2, 3]],
  ["#6B5B1E", [12, 3, 3, 3]],
];
// Held over the critical count: blues below 1, yellow at it, orange to dark red above.
const STOPS = [[0, "#fbfdff"], [0.5, "#dbe9f6"], [0.995, "#a0c4e2"], [1, "#fde391"], [1.4, "#fdae61"], [2.25, "#d9481e"], [3.5, "#67000d"]];
const INK = "#333", GRID = "#e4e4e4";

const channels = (c) => [1, 3, 5].map((i) => parseInt(c.slice(i, i + 2), 16));
function shade(x) {
  let i = 1;
  while (i < STOPS.length - 1 && x > STOPS[i][0]) i++;
  const [[a, from], [b, to]] = [STOPS[i - 1], STOPS[i]], t = Math.min(1, Math.max(0, (x - a) / (b - a))), end = channels(to);
  return `rgb(${channels(from).map((c, j) => Math.round(c + t * (end[j] - c)))})`;
}
export const scale = `linear-gradient(to right, ${STOPS.map(([x, c]) => `${c} ${(100 * x / STOPS.at(-1)[0]).toFixed(1)}%`).join(", ")})`;

// A canvas cleared, with room for its axes.
function frame(canvas, height, right = 14) {
  const ratio = window.devicePixelRatio || 1, width = canvas.clientWidth;
  canvas.width = Math.round(width * ratio); canvas.height = Math.round(height * ratio); canvas.style.height = height + "px";
  const g = canvas.getContext("2d");
  g.setTransform(ratio, 0, 0, ratio, 0, 0); g.clearRect(0, 0, width, height); g.font = "12px system-ui, sans-serif";
  return { g, left: 66, right: width - right, top: 8, bottom: height - 26 };
}
function upright(f, text) {
  const { g } = f;
  g.save();
  g.translate(9, (f.top + f.bottom) / 2); g.rotate(-Math.PI / 2);
  g.fillStyle = INK; g.textAlign = "center"; g.textBaseline = "middle";
  g.fillText(text, 0, 0);
  g.restore();
}
// Ticks at clock times, minutes or steps, no closer than a label's width.
function timeAxis(f, time) {
  const { g } = f, most = Math.max(2, Math.floor((f.right - f.left) / 62)), span = time.to - time.from;
  const unit = time.units.find((u) => span / u <= most) ?? time.units.at(-1) * Math.ceil(span / time.units.at(-1) / most);
  g.fillStyle = INK; g.textAlign = "center"; g.textBaseline = "top";
  for (let t = Math.ceil(time.from / unit) * unit; t <= time.to + 1e-9; t += unit) {
    const x = f.left + (f.right - f.left) * (t - time.from) / span;
    g.fillRect(x, f.bottom, 1, 4); g.fillText(time.label(t), Math.min(x, f.right - 8), f.bottom + 7);
  }
}
// Round numbers up the left side; gives the height of a value.
function valueAxis(f, most, label, say) {
  const { g } = f, unit = [0.1, 0.2, 0.5, 1, 2, 5, 10, 20, 50, 100, 200, 500, 1000, 2000, 5000, 10000, 20000, 50000].find((u) => most / u <= 5) ?? Math.ceil(most / 5);
  const up = Math.max(1, Math.ceil(most / unit - 1e-9)) * unit, y = (v) => f.bottom - (f.bottom - f.top) * v / up;
  g.textAlign = "right"; g.textBaseline = "middle";
  for (let k = 0; k * unit <= up + 1e-9; k++) {
    g.fillStyle = GRID; g.fillRect(f.left, y(k * unit), f.right - f.left, 1);
    g.fillStyle = INK; g.fillText(say(k * unit, unit < 1 ? 1 : 0), f.left - 6, y(k * unit));
  }
  upright(f, label);
  return y;
}

// Held over the critical count, by place and time. marks: of each cell a text at the right; works: {cell, from, to} or null.
export function spaceTime(canvas, { steps, edges, ratio, marks, works, time, label, ticks }) {
  const f = frame(canvas, 330, 40), { g } = f, n = edges.length - 1;
  const y = (km) => f.bottom - (f.bottom - f.top) * km / edges[n], x = (k) => f.left + (f.right - f.left) * k / steps;
  for (let i = 0; i < n; i++) {
    for (let k = 0; k < steps; k++) {
      g.fillStyle = shade(ratio(k, i));
      g.fillRect(x(k), y(edges[i + 1]), x(k + 1) - x(k) + 0.6, y(edges[i]) - y(edges[i + 1]) + 0.6);
    }
    g.fillStyle = INK; g.textBaseline = "middle"; g.textAlign = "left";
    g.fillText(marks[i], f.right + 4, (y(edges[i]) + y(edges[i + 1])) / 2);
  }
  if (works) {
    g.strokeStyle = "#000"; g.lineWidth = 1.5; g.setLineDash([5, 3]);
    g.strokeRect(x(works.from), y(edges[works.cell]), x(works.to) - x(works.from), y(edges[works.cell - 1]) - y(edges[works.cell]));
    g.setLineDash([]);
  }
  g.fillStyle = INK; g.textAlign = "right"; g.textBaseline = "middle";
  for (const [at, text] of ticks) { g.fillRect(f.left - 4, y(at), 4, 1); g.fillText(text, f.left - 7, y(at)); }
  upright(f, label); timeAxis(f, time);
}

// Curves over time, each {values, colour, dash, width}; between: fill the area of the first two.
export function lines(canvas, height, curves, time, label, say, between = false) {
  const f = frame(canvas, height), { g } = f, most = Math.max(0.1, ...curves.map((c) => Math.max(...c.values)));
  const y = valueAxis(f, most, label, say), x = (k, all) => f.left + (f.right - f.left) * k / (all - 1);
  if (between) {
    const [a, b] = curves;
    g.fillStyle = "#e3e3e3"; g.beginPath();
    a.values.forEach((v, k) => g.lineTo(x(k, a.values.length), y(v)));
    for (let k = b.values.length - 1; k >= 0; k--) g.lineTo(x(k, b.values.length), y(b.values[k]));
    g.fill();
  }
  for (const c of curves) {
    g.strokeStyle = c.colour; g.lineWidth = c.width ?? 2; g.setLineDash(c.dash); g.beginPath();
    c.values.forEach((v, k) => g.lineTo(x(k, c.values.length), y(v)));
    g.stroke();
  }
  g.setLineDash([]); timeAxis(f, time);
}

// Stacked layers, each {values, colour}, and a dashed line.
export function layers(canvas, height, stack, beside, time, label, say) {
  const f = frame(canvas, height), { g } = f, size = beside.length, sums = new Array(size).fill(0);
  const all = sums.map((_, k) => stack.reduce((sum, s) => sum + s.values[k], 0));
  const y = valueAxis(f, Math.max(0.1, ...all, ...beside), label, say), x = (k) => f.left + (f.right - f.left) * k / (size - 1);
  for (const { values, colour } of stack) {
    g.fillStyle = colour; g.beginPath();
    for (let k = 0; k < size; k++) g.lineTo(x(k), y(sums[k]));
    for (let k = size - 1; k >= 0; k--) { sums[k] += values[k]; g.lineTo(x(k), y(sums[k])); }
    g.fill();
  }
  g.strokeStyle = "#000"; g.lineWidth = 1.4; g.setLineDash([6, 4]); g.beginPath();
  beside.forEach((v, k) => g.lineTo(x(k), y(v)));
  g.stroke(); g.setLineDash([]); timeAxis(f, time);
}

// A piece of a legend: a line as it is drawn, a patch, or a hatched patch.
export function sample({ colour, dash, hatched }) {
  const ns = "http://www.w3.org/2000/svg", svg = document.createElementNS(ns, "svg"), line = document.createElementNS(ns, dash ? "line" : "rect");
  const set = (x, all) => Object.entries(all).forEach(([k, v]) => x.setAttribute(k, v));
  set(svg, { width: 26, height: 12, "aria-hidden": "true" });
  set(line, dash ? { x1: 0, x2: 26, y1: 6, y2: 6, stroke: colour, "stroke-width": 2.5, "stroke-dasharray": dash.join(" ") } : { x: 6, y: 0, width: 14, height: 12, fill: colour });
  svg.append(line);
  if (hatched) {
    set(line, { fill: "#e4e4e4", stroke: "#999" });
    for (const x of [8, 13, 18]) {
      const stroke = document.createElementNS(ns, "line");
      set(stroke, { x1: x - 2, x2: x + 2, y1: 12, y2: 0, stroke: "#999", "stroke-width": 1.5 });
      svg.append(stroke);
    }
  }
  return svg;
}
