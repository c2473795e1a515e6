// The sheet on paper: empty for the student, or with the engine's run as the key.
import { eachStep, given, inflowGroups, inflowNames, inflowOf, outflowGroups, placeNames, places, seeded, shapeOf, stateGroups, stateNames, stateOf, task, whole } from "./exercise.js";
import { $, engine, on } from "./start.js";
import { el, t, table } from "./words.js";

const MOST_COLUMNS = 10;   // that fit the paper's width

// A table with a row for each step. It is cut into several if the paper is too narrow; each piece has whole groups of columns.
function pieced(groups, names, of, kind) {
  const pieces = [];
  let from = 0;
  for (const [name, columns] of groups) {
    const last = pieces.at(-1), part = { groups: [[name, columns]], from, to: from + columns };
    if (last && part.to - last.from <= MOST_COLUMNS) { last.groups.push(part.groups[0]); last.to = part.to; } else pieces.push(part);
    from += columns;
  }
  return pieces.map((piece) => {
    const all = table([t("step"), ...names.slice(piece.from, piece.to)], eachStep((k) => of(k).slice(piece.from, piece.to)), piece.groups);
    all.className = kind;
    return all;
  });
}
// The times and the total, and whose waiting it counts.
function sums(key) {
  const rows = [["gate", "gate"], ["onroad", "road"], ["atramps", "ramp"], ["times.total", "total"]].map(([name, part]) => [t(name), key ? whole(task.best[part]) : ""]);
  const all = table([t("times"), t("times.unit")], rows), box = el("div", "", { class: "together" });
  all.className = "sum-fields";
  box.append(all, el("h2", t("whose")), ...(key ? [el("p", t("whose.key"))] : [1, 2].map(() => el("div", "", { class: "line" }))));
  return box;
}
function paper(key) {
  const w = task.road.n + 1, h = key ? engine.history(task.record, task.best.outflow) : null, rules = el("ul", "", { class: "rules" });
  rules.append(...["demand", "supply", "outflow", "next"].map((r) => el("li", t(`rule.${r}`))));
  const name = el("p", `${t("sheet.name")} `, { class: "name" }), title = task.title || t("sheet"), blank = (names) => names.map(() => "");
  name.append(el("span"));
  $("paper").replaceChildren(
    el("h1", key ? t("sheet.keyed", { title }) : title), el("p", task.seed === null ? shapeOf() : seeded()), ...(key ? [] : [name]),
    el("h2", t("question")), el("p", t("question.text")), el("p", t("question.units"), { class: "note" }),
    el("h2", t("given")), given(), ...pieced(inflowGroups(), inflowNames(), inflowOf, "given"), el("p", t("given.units"), { class: "note" }),
    el("h2", t("rules")), rules, el("h2", t("answers")),
    ...pieced(outflowGroups(), placeNames(), (k) => (key ? places().map((p) => whole(task.best.outflow[k * w + p])) : blank(places())), "fill"),
    ...pieced(stateGroups(), stateNames(), (k) => (key ? stateOf(h, k) : blank(stateNames())), "fill"), sums(key));
}
function printed(key) {
  if (!task) return;
  paper(key);
  document.body.classList.add("printing");
  window.print();
}
on("print-sheet", "click", () => printed(false));
on("print-graded", "click", () => printed(false));
on("print-key", "click", () => printed(true));
window.addEventListener("afterprint", () => { document.body.classList.remove("printing"); $("paper").replaceChildren(); });
