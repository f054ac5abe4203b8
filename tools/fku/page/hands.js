
"use strict";
// Mouse, pen, fingers and keys on the picture, and the questions that they ask.

/** Turns the camera by degrees. */
function turn(right, up) {
  const [azimuth, elevation] = state.view;
  hold();
  change({ view: [(azimuth - right) % 360, clamped(elevation + up, -90, 90)] });
}

/** Moves the picture by pixels of the page. */
function move(right, down) {
  hold();
  const perPixel = (2 * camera.half) / canvas.clientHeight;
  change({ at: state.at.map((it, axis) => it + perPixel * (down * camera.up[axis] - right * camera.right[axis])) });
}

/** Zooms in (above 1) or out (below it); the point at a place of the picture stays where it is. */
function zoom(times, x = 0, y = 0) {
  hold();
  const half = clamped(state.half / times, Math.min(1, camera.radius / 4), 20 * camera.radius);
  const point = camera.pointAt(x, y), scale = half / state.half;
  change({ at: state.at.map((it, axis) => point[axis] + scale * (it - point[axis])), half });
}

/** Writes down the middle and the size of the picture where it is fitted, since the view is about to change. */
function hold() {
  camera.look(state, camera.aspect || 1);
  Object.assign(state, { at: camera.target, half: camera.half });
}

/** Shows the answer to a question over the picture. */
function showAnswer(text) {
  element("answer").textContent = text;
}

/** Shows which part, triangle and point is under a place of the picture, and returns the point; or null. */
function ask(x, y) {
  const found = drawing && pick(state, camera, x, y);
  showAnswer("");
  if (!found) return null;
  const { part, triangle, point } = found;
  const crossed = mesh.marks.get(triangle);
  const place = ["x", "y", "z"].map((axis, at) => `${axis} ${written(point[at])}`).join(", ");
  const more = crossed ? `; it crosses ${crossed === 1 ? "1 other" : `${written(crossed)} others`}` : "";
  showAnswer(`${part.name}, triangle ${written(triangle + 1)}: ${place}${more}`);
  return point;
}

/** The number of the place of marked triangles that is shown, from 0; none at first. */
let placeShown = -1;

/** Goes to the next place of marked triangles, or by -1 to the one before it, and says which it is. */
function goToPlace(step) {
  const count = markedPlaces.length;
  placeShown = placeShown < 0 && step < 0 ? count - 1 : (placeShown + step + count) % count;
  const { triangles, low, high } = markedPlaces[placeShown];
  const at = low.map((it, axis) => (it + high[axis]) / 2);
  const size = Math.hypot(...high.map((it, axis) => it - low[axis]));
  const hide = new Set(state.hide);
  hide.delete(partOf(triangles[0]).number);
  const isCut = state.cut !== null && (state.keep === "above" ? high[2] < state.cut : low[2] > state.cut);
  const half = Math.max(1.5 * size, camera.radius / 40);
  change({ at, half, hide, marks: true, cut: isCut ? null : state.cut });
  const numbers = triangles.slice(0, 6).map((it) => it + 1).join(", ") + (triangles.length > 6 ? ", …" : "");
  const word = triangles.length === 1 ? "triangle" : "triangles";
  showAnswer(`Place ${placeShown + 1} of ${count}: ${word} ${numbers}, z ${written(low[2])} to ${written(high[2])}`);
}

/** Returns a place of the page as a place of the picture: x and y from -1 to 1. */
function placeOf(x, y) {
  const { left, top, width, height } = canvas.getBoundingClientRect();
  return [(2 * (x - left)) / width - 1, 1 - (2 * (y - top)) / height];
}

const CLICK = 3; // pixels that a pointer may move in a click

/** The pointers that are down, by their ids: where each is. */
const pointers = new Map();
let travelled = 0; // pixels that pointers moved since the first went down

/** Answers a pointer that moved from one place to another while it was down. */
function drag(event, from, to) {
  const [right, down] = [to[0] - from[0], to[1] - from[1]];
  travelled += Math.abs(right) + Math.abs(down);
  if (pointers.size === 2) {
    const other = [...pointers].find(([id]) => id !== event.pointerId)[1];
    const distance = (place) => Math.hypot(place[0] - other[0], place[1] - other[1]) || 1;
    move(right / 2, down / 2);
    zoom(distance(to) / distance(from), ...placeOf((to[0] + other[0]) / 2, (to[1] + other[1]) / 2));
  } else if (event.buttons & 6 || event.shiftKey) {
    move(right, down);
  } else if (travelled > CLICK) {
    turn(0.4 * right, 0.4 * down);
  }
}

function listenToPointers() {
  canvas.addEventListener("pointerdown", (event) => {
    canvas.setPointerCapture(event.pointerId);
    canvas.classList.add("dragged");
    if (!pointers.size) travelled = 0;
    pointers.set(event.pointerId, [event.clientX, event.clientY]);
  });
  canvas.addEventListener("pointermove", (event) => {
    const from = pointers.get(event.pointerId), to = [event.clientX, event.clientY];
    if (!from) return;
    drag(event, from, to);
    pointers.set(event.pointerId, to);
  });
  const lift = (event) => {
    if (!pointers.delete(event.pointerId) || pointers.size) return;
    canvas.classList.remove("dragged");
    const isClick = event.type === "pointerup" && event.button === 0 && travelled <= CLICK;
    if (isClick) ask(...placeOf(event.clientX, event.clientY));
  };
  canvas.addEventListener("pointerup", lift);
  canvas.addEventListener("pointercancel", lift);
  canvas.addEventListener("contextmenu", (event) => event.preventDefault());
  canvas.addEventListener("dblclick", (event) => {
    const point = ask(...placeOf(event.clientX, event.clientY));
    if (!point) return;
    hold();
    change({ at: point });
  });
  canvas.addEventListener("wheel", turnWheel, { passive: false });
}

/** Zooms by the wheel, which counts pixels, lines or pages. */
function turnWheel(event) {
  event.preventDefault();
  const pixels = event.deltaY * [1, 16, 400][event.deltaMode];
  zoom(Math.exp(-clamped(pixels, -300, 300) / 500), ...placeOf(event.clientX, event.clientY));
}

const KEYS = {
  ArrowLeft: (shift) => (shift ? move(-40, 0) : turn(-5, 0)),
  ArrowRight: (shift) => (shift ? move(40, 0) : turn(5, 0)),
  ArrowUp: (shift) => (shift ? move(0, -40) : turn(0, -5)),
  ArrowDown: (shift) => (shift ? move(0, 40) : turn(0, 5)),
  "+": () => zoom(1.2),
  "=": () => zoom(1.2),
  "-": () => zoom(1 / 1.2),
  PageUp: () => cutAt((state.cut ?? highest) + 5 * cutStep),
  PageDown: () => cutAt((state.cut ?? highest) - 5 * cutStep),
  Home: resetView,
};

function listenToKeys() {
  canvas.addEventListener("keydown", (event) => {
    if (event.ctrlKey || event.altKey || event.metaKey || !Object.hasOwn(KEYS, event.key)) return;
    event.preventDefault();
    KEYS[event.key](event.shiftKey);
  });
}
