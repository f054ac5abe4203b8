
"use strict";
// What is shown, and how the fragment of the page's address says it: page.html#view=30,20&cut=5000&hide=2,3

/** What is shown where the address says nothing. */
const initial = {
  view: given.view, // azimuth and elevation in degrees
  at: null, // the point in the middle, or null where all is shown
  half: null, // units in half the picture's height
  cut: null, // the height of the cut
  keep: "below",
  hide: new Set(), // numbers of parts, counted from 1
  flat: false,
  edges: given.edges,
  opacity: given.opacity,
  marks: true,
  through: true,
  outlines: true,
  loops: true,
  box: false,
  dark: matchMedia("(prefers-color-scheme: dark)").matches,
  panel: true,
};

const numbersIn = (text, count) => {
  const numbers = text.split(",").map(Number);
  return numbers.length === count && numbers.every(Number.isFinite) ? numbers : undefined;
};
const clamped = (number, least, most) => Math.min(most, Math.max(least, number));
const yes = { read: (text) => ({ 1: true, 0: false })[text], write: (value) => (value ? "1" : "0") };
const oneOf = (...words) => ({ read: (text) => (words.includes(text) ? text : undefined), write: (value) => value });
const plain = (number, digits) => String(Number(number.toFixed(digits)));

/** For each word of the fragment how its value is read, which is undefined where it means nothing, and written. */
const FRAGMENT = {
  view: {
    read: (text) => {
      const view = numbersIn(text, 2);
      return view && [view[0] % 360, clamped(view[1], -90, 90)];
    },
    write: (view) => view.map((it) => plain(it, 1)).join(","),
  },
  at: { read: (text) => numbersIn(text, 3), write: (at) => at.map((it) => plain(it, 2)).join(",") },
  half: { read: (text) => numbersIn(text, 1)?.find((it) => it > 0), write: (half) => plain(half, 3) },
  cut: { read: (text) => numbersIn(text, 1)?.[0], write: (cut) => plain(cut, 3) },
  keep: oneOf("below", "above"),
  hide: {
    read: (text) => new Set(text.split(",").map(Number).filter((it) => parts[it - 1])),
    write: (hide) => [...hide].sort((a, b) => a - b).join(","),
  },
  flat: yes,
  edges: yes,
  opacity: {
    read: (text) => numbersIn(text, 1)?.map((it) => clamped(it, 0.05, 1))[0],
    write: (opacity) => plain(opacity, 2),
  },
  marks: yes,
  through: yes,
  outlines: yes,
  loops: yes,
  box: yes,
  dark: yes,
  panel: yes,
};

/** The state that a fragment tells, as #cut=5000&hide=2; words without a meaning are passed over. */
function stateOf(fragment) {
  const state = { ...initial, hide: new Set(initial.hide) };
  for (const [name, text] of new URLSearchParams(fragment.replace(/^#/, ""))) {
    const value = Object.hasOwn(FRAGMENT, name) ? FRAGMENT[name].read(text) : undefined;
    if (value !== undefined) state[name] = value;
  }
  return state;
}

/** The fragment that tells a state: what differs from the first one. */
function fragmentOf(state) {
  const words = [];
  for (const [name, { write }] of Object.entries(FRAGMENT)) {
    const text = state[name] === null ? "" : write(state[name]);
    const usual = initial[name] === null ? "" : write(initial[name]);
    if (text !== usual) words.push(`${name}=${text}`);
  }
  return words.length ? `#${words.join("&")}` : "";
}
