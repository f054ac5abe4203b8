
"use strict";
// The page: what is shown, and when the picture is drawn again.

const element = (name) => document.getElementById(name);
const canvas = element("canvas");
const camera = new Camera();
const MARK = [0.9, 0.05, 0.08];
let state = stateOf(location.hash);
let drawing = null;
let isDue = false;
let addressTimer = 0;

/** Takes a change of the state, shows it in the controls, draws, and lets the page's address follow. */
function change(what) {
  Object.assign(state, what);
  showControls();
  draw();
  clearTimeout(addressTimer);
  addressTimer = setTimeout(showAddress, 250);
}

/** Writes the state into the page's address. */
function showAddress() {
  try {
    history.replaceState(null, "", location.href.replace(/#.*/, "") + fragmentOf(state));
  } catch {
    // a browser may keep the address of a file as it is
  }
}

/** Draws once before the screen is shown next. */
function draw() {
  if (!drawing || isDue) return;
  isDue = true;
  requestAnimationFrame(() => {
    isDue = false;
    if (drawing) drawNow();
  });
}

function drawNow() {
  const ratio = window.devicePixelRatio || 1;
  const { clientWidth, clientHeight } = canvas;
  const [width, height] = [clientWidth, clientHeight].map((it) => Math.max(1, Math.round(it * ratio)));
  if (canvas.width !== width || canvas.height !== height) Object.assign(canvas, { width, height });
  camera.look(state, width / height);
  drawing.draw(state, camera, coloursOfPage(), ratio);
  showAxes();
  showScale(clientHeight);
}

/** Returns the colours of the background, of lines and of marks: red, green and blue from 0 to 1. */
function coloursOfPage() {
  const style = getComputedStyle(document.documentElement);
  const colours = { marks: MARK };
  for (const name of ["back", "outlines", "loops", "box"]) {
    const number = parseInt(style.getPropertyValue(`--${name}`).trim().slice(1), 16);
    colours[name] = [number >> 16, (number >> 8) & 255, number & 255].map((it) => it / 255);
  }
  return colours;
}

/** Turns the small axes in the corner as the camera is turned; one that points away is pale. */
function showAxes() {
  element("axes").querySelectorAll("g").forEach((group, axis) => {
    const x = camera.right[axis], y = -camera.up[axis];
    const [line, text] = group.children;
    line.setAttribute("x2", 26 * x);
    line.setAttribute("y2", 26 * y);
    text.setAttribute("x", 36 * x);
    text.setAttribute("y", 36 * y);
    group.setAttribute("opacity", Math.hypot(x, y) < 0.15 ? 0 : camera.towards[axis] < -0.01 ? 0.55 : 1);
  });
}

/** Shows a length of 1, 2 or 5 times a power of ten that takes at most 130 pixels of a picture so high. */
function showScale(height) {
  const perPixel = (2 * camera.half) / height, factor = given.unit ? given.unit.factor : 1;
  const length = roundBelow(130 * perPixel * factor) / factor;
  element("scale_bar").style.width = `${length / perPixel}px`;
  element("scale_text").textContent = lengthOf(length);
}

/** Says why nothing can be drawn. */
function showTrouble() {
  element("trouble").hidden = false;
  element("corner").hidden = true;
  element("trouble").textContent =
    "This browser cannot draw the surface, since WebGL 2 is missing or switched off in it. " +
    "Current versions of Firefox, Chromium, Chrome, Edge and Safari have it; " +
    "some switch it off where the graphics card or its driver is too old.";
}

/** Gives the surface to the graphics card, and draws it. */
function begin() {
  try {
    drawing = new Drawing(canvas);
  } catch (error) {
    showTrouble();
    console.warn(error.message);
  }
  change({});
}

makeParts();
makeFacts();
makeChoices();
makeCut();
listenToControls();
listenToPointers();
listenToKeys();
window.addEventListener("hashchange", () => {
  state = stateOf(location.hash);
  change({});
});
canvas.addEventListener("webglcontextlost", (event) => {
  event.preventDefault();
  drawing = null;
});
canvas.addEventListener("webglcontextrestored", begin);
new ResizeObserver(draw).observe(canvas);
begin();
