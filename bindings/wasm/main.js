// Starts the page in its form: graded, or for practice.
import { newExercise } from "./exercise.js";
import { showGraded, startGraded } from "./graded.js";
import { keepForm, recall, showTries, update } from "./page.js";
import "./sheet.js";
import { $, graded, isGraded, on } from "./start.js";
import { setLanguage, speak } from "./words.js";

on("lang", "change", () => {
  setLanguage($("lang").value);
  speak();
  if (graded) return showGraded();
  showTries();
  update();
  newExercise(true);
});
window.addEventListener("hashchange", () => (graded || isGraded() ? location.reload() : recall()));
if (graded) {
  startGraded();
} else {
  keepForm();
  recall();
}
