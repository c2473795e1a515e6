// What every module of the page uses: its elements, its address and the engine.
import { DATA } from "./data.mjs";
import { Engine } from "./engine.mjs";

export const $ = (id) => document.getElementById(id);
export const bytesOf = (text) => Uint8Array.from(atob(text), (c) => c.charCodeAt(0));
export const engine = new Engine(await WebAssembly.compile(bytesOf(DATA.wasm)));
export const address = () => new URLSearchParams(location.hash.slice(1));
export const isGraded = () => address().get("mode") === "graded";
export const graded = isGraded();   // the form of the page: graded, or for practice
export const value = (id) => Number($(id).value);
export const on = (id, event, act) => $(id).addEventListener(event, act);
// A file to download, made when its link is followed.
export function offer(id, make) {
  $(id).href = "data:,";
  on(id, "click", () => {
    const url = URL.createObjectURL(new Blob([make()]));
    $(id).href = url;
    setTimeout(() => URL.revokeObjectURL(url), 60000);
  });
}
