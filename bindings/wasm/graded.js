// The graded form of the exercise: fields for every answer, and a file of them for `nobyaluk mark`. It checks nothing, and neither key
// nor hint is in the page.
import { answersOf, fields, setTask, showTask, task, whole } from "./exercise.js";
import { keepForm, readAddress } from "./page.js";
import { $, offer, on } from "./start.js";
import { t } from "./words.js";

let unsaved = false;   // whether something is typed that is in no file yet

export function showGraded() {
  if (!task) return;
  $("heading").textContent = task.title || t("sheet");
  showTask(fields().map((x) => x.value));
  $("saved").textContent = "";
}
// answers-ada-lovelace.json: the letters and digits of the name.
function answersName() {
  const name = $("name").value.normalize("NFC").toLowerCase().replace(/[^\p{L}\p{M}\p{N}]+/gu, "-").replace(/^-+|-+$/g, "");
  return name ? `answers-${name}.json` : "answers.json";
}
// The file, and what is empty or no number in it.
function saveAnswers() {
  const saved = answersOf(fields().map((x) => x.value)), { gate, road, ramp, total } = saved;
  const numbers = [...saved.outflows, ...saved.held, ...saved.queue, [gate, road, ramp, total]].flat();
  const blank = numbers.filter((x) => x === null).length + [saved.name, saved.whose].filter((x) => !x).length, odd = numbers.filter((x) => typeof x === "string");
  const said = [t("answers.saved", { file: answersName() })];
  if (blank) said.push(t("answers.blank", { x: whole(blank) }));
  if (odd.length) said.push(t("answers.odd", { x: odd.join(", ") }));
  $("saved").textContent = said.join(" ");
  unsaved = false;
  return JSON.stringify(saved, null, 1) + "\n";
}
export function startGraded() {
  window.addEventListener("beforeunload", (e) => { if (unsaved) e.preventDefault(); });
  readAddress();
  setTask();   // by the controls, which are then removed with everything else for practice
  keepForm();
  document.querySelector("script").remove();   // the texts of hints are in it
  document.body.classList.add("graded");
  $("view-exercise").hidden = false;
  showGraded();
  document.body.dataset.ready = "";
}

on("name", "input", () => { $("answers").download = answersName(); });
$("view-exercise").addEventListener("input", () => { unsaved = true; });
offer("answers", saveAnswers);
