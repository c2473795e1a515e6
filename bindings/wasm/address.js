// The setting that the page's address holds: its form, the controls, and a record of the user's.
import { $, address, bytesOf } from "./start.js";
import { study } from "./study.js";
import { Fault, lang, say } from "./words.js";

const IN_LINK = 4096;   // bytes of a record that its address still holds
export const WEIGHTS = ["w-gate", "w-first", "w-last", "w-ramp"];
export const DRAWN = ["seed", "cells", "steps"];
export const NAMED = ["title", "names"];
const HELD = ["load", "works", "cell", "from", "to", "law", "gain", ...WEIGHTS, ...DRAWN, ...NAMED];
export let mode = "study";
export let own = null;     // the bytes of a record of the user's
export let fault = null;   // what was given instead of one
export function setMode(to) { mode = to; }
export function clearFault() { fault = null; }
// Takes a record of the user's, or keeps what is wrong with it.
export function take(given) {
  fault = null;
  try { own = given(); } catch (e) { if (!(e instanceof Fault)) throw e; own = null; fault = e; }
}

// The address: what differs from the study's own setting, and a short record of the user's.
export const held = () => [...HELD, ...(study?.ramps ?? []).map((c) => `ramp-${c}`)].map($);
export const inLink = (bytes) => btoa(String.fromCharCode(...bytes)).replace(/\+/g, "-").replace(/\//g, "_").replace(/=+$/, "");
// The record of a link, or a fault: a link that was cut holds fewer bytes than the record's first field says.
export function outOfLink(text) {
  if (!/^[\w-]*$/.test(text)) throw new Fault("own.changed");
  const bytes = bytesOf((text.length % 4 === 1 ? text.slice(0, -1) : text).replace(/-/g, "+").replace(/_/g, "/"));
  const all = bytes.length < 4 ? Infinity : 4 + new DataView(bytes.buffer).getUint32(0);
  if (bytes.length < all) throw all <= IN_LINK ? new Fault("own.cut", { has: say(bytes.length, 0), all: say(all, 0) }) : new Fault("own.changed");
  return bytes;
}
export function remember() {
  const p = new URLSearchParams({ lang, study: $("study").value });
  if (mode !== "study") p.set("mode", mode);
  for (const x of held()) if (x.value !== x.dataset.start) p.set(x.id, x.value);
  if ($("own").checked) p.set("own", "1");
  if (own && own.length <= IN_LINK && ($("study").value === "own" || $("own").checked)) p.set("rec", inLink(own));
  history.replaceState(null, "", "#" + p);
}
