
"use strict";
// The settings beside the picture.

const SWITCHES = ["edges", "marks", "through", "outlines", "loops", "box", "dark"];

/** The heights that a cut may have: whole ones from the least to the greatest z. */
const [lowest, highest] = [Math.ceil(bounds.low[2]), Math.floor(bounds.high[2])];

/** Returns the greatest of 1, 2 and 5 times a power of ten that is at most so much. */
function roundBelow(number) {
  const power = 10 ** Math.floor(Math.log10(number));
  return [5, 2, 1].find((it) => it * power <= number) * power;
}

const cutStep = Math.max(1, roundBelow(Math.max(1, (highest - lowest) / 400)));

/** Returns a new element with these properties. */
const made = (tag, properties) => Object.assign(document.createElement(tag), properties);

/** Shows the state in the controls. */
function showControls() {
  for (const name of SWITCHES) element(name).checked = state[name];
  document.documentElement.classList.toggle("dark", state.dark);
  document.body.classList.toggle("plain", !state.panel);
  element("toggle").setAttribute("aria-expanded", state.panel);
  element("toggle").textContent = state.panel ? "Hide settings" : "Settings";
  element("cut").checked = state.cut !== null;
  if (state.cut !== null) showHeight(state.cut);
  const chosen = { keep: state.keep, shading: state.flat ? "flat" : "smooth" };
  for (const [name, value] of Object.entries(chosen)) {
    for (const radio of document.getElementsByName(name)) radio.checked = radio.value === value;
  }
  element("opacity").value = 100 * state.opacity;
  element("opacity_text").textContent = `${Math.round(100 * state.opacity)} %`;
  element("through").disabled = !state.marks;
  for (const part of parts) part.box.checked = !state.hide.has(part.number);
}

/** Shows the height of the cut; a number that is being typed stays. */
function showHeight(height) {
  element("height_slider").value = height;
  if (document.activeElement !== element("height")) element("height").value = height;
  element("height_length").textContent = given.unit ? lengthOf(height) : "";
}

/** Adds the line of a part to the list. */
function addPart(part) {
  part.line = made("li");
  part.box = made("input", { type: "checkbox" });
  const label = made("label", { className: "line" });
  const swatch = made("i", { className: "swatch" });
  swatch.style.background = `rgb(${part.colour.map((it) => Math.round(255 * it)).join(" ")})`;
  const name = made("span", { className: "name", textContent: part.name });
  const count = made("span", { className: "number", textContent: written(part.count), title: "triangles" });
  label.append(part.box, swatch, name, count);
  part.line.append(label);
  part.box.addEventListener("change", () => showParts([part], part.box.checked));
  if (parts.length > 1) {
    const only = made("button", { type: "button", textContent: "Only" });
    only.setAttribute("aria-label", `Show only ${part.name}`);
    only.addEventListener("click", () => {
      change({ hide: new Set(parts.filter((it) => it !== part).map((it) => it.number)) });
    });
    part.line.append(only);
  }
  element("list").append(part.line);
}

/** Makes the list of parts, with the means that a long one needs. */
function makeParts() {
  parts.forEach(addPart);
  element("parts").hidden = !parts.length;
  element("find").hidden = parts.length < 13;
  element("all").parentElement.hidden = parts.length < 2;
}

/** Shows or hides parts. */
function showParts(these, shown) {
  const hide = new Set(state.hide);
  for (const { number } of these) {
    if (shown) hide.delete(number);
    else hide.add(number);
  }
  change({ hide });
}

/** Fills in the names of the files, the numbers and the size. */
function makeFacts() {
  const add = (name, text) => {
    element("facts").append(made("dt", { textContent: name }), made("dd", { textContent: text }));
  };
  for (const { role, name } of given.sources) add(role, name);
  if (parts.length) {
    add("Triangles", written(mesh.triangles.length / 3));
    add("Vertices", written(mesh.points.length / 3));
  }
  if (parts.length > 1) add("Parts", written(parts.length));
  if (given.unit) add("Unit", `${given.unit.factor} ${given.unit.name}`);
  ["x", "y", "z"].forEach((axis, at) => {
    const [low, high] = [bounds.low[at], bounds.high[at]];
    const row = made("tr");
    row.append(made("th", { scope: "row", textContent: axis }));
    for (const text of [written(low, 1), written(high, 1), lengthOf(high - low)]) {
      row.append(made("td", { textContent: text }));
    }
    element("size").tBodies[0].append(row);
  });
}

/** Writes what is known of marks and loops, and hides the controls that have nothing to show. */
function makeChoices() {
  const places = markedPlaces.length === 1 ? "1 place" : `${written(markedPlaces.length)} places`;
  element("marked_text").textContent = mesh.marks.size
    ? `${written(mesh.marks.size)} triangles cross others of their part, at ${places}.`
    : "No triangle crosses another one of its part.";
  if (loops.length) element("loops_text").textContent = `Loops at height ${written(loops[0].points[2])}`;
  const isHidden = {
    look: !parts.length,
    marking: !given.marked,
    marked_choices: !mesh.marks.size,
    outlines_line: !outlines.length,
    loops_line: !loops.length,
    cutting: highest <= lowest,
  };
  for (const [name, hidden] of Object.entries(isHidden)) element(name).hidden = hidden;
}

/** Gives the cut its range, and begins in the middle. */
function makeCut() {
  const [min, max] = [Math.floor(lowest / cutStep) * cutStep, Math.ceil(highest / cutStep) * cutStep];
  Object.assign(element("height_slider"), { min, max, step: cutStep });
  Object.assign(element("height"), { min: lowest, max: highest, step: 1 });
  showHeight(Math.round((lowest + highest) / 2));
}

/** Cuts at a height, or at the nearest one that there is. */
function cutAt(height) {
  if (Number.isFinite(height)) change({ cut: clamped(height, lowest, highest) });
}

/** Shows all, from where it was seen first. */
function resetView() {
  change({ view: initial.view, at: null, half: null });
}

function listenToCut() {
  const slider = element("height_slider"), number = element("height");
  element("cut").addEventListener("change", (event) => {
    if (event.target.checked) cutAt(Number(slider.value));
    else change({ cut: null });
  });
  slider.addEventListener("input", () => cutAt(Number(slider.value)));
  number.addEventListener("change", () => {
    if (number.value !== "") cutAt(Number(number.value));
    number.value = state.cut ?? number.value;
  });
  for (const radio of document.getElementsByName("keep")) {
    radio.addEventListener("change", () => change({ keep: radio.value, cut: state.cut ?? Number(slider.value) }));
  }
}

function listenToParts() {
  const listed = () => parts.filter((it) => !it.line.hidden);
  element("all").addEventListener("click", () => showParts(listed(), true));
  element("none").addEventListener("click", () => showParts(listed(), false));
  element("find").addEventListener("input", (event) => {
    const wanted = event.target.value.trim().toLowerCase();
    for (const part of parts) part.line.hidden = !part.name.toLowerCase().includes(wanted);
  });
}

/** Lets the controls change the state. */
function listenToControls() {
  listenToCut();
  listenToParts();
  for (const name of SWITCHES) {
    element(name).addEventListener("change", (event) => change({ [name]: event.target.checked }));
  }
  for (const radio of document.getElementsByName("shading")) {
    radio.addEventListener("change", () => change({ flat: radio.value === "flat" }));
  }
  element("opacity").addEventListener("input", (event) => change({ opacity: event.target.value / 100 }));
  for (const button of document.querySelectorAll("[data-view]")) {
    const view = button.dataset.view.split(",").map(Number);
    button.addEventListener("click", () => change({ view, at: null, half: null }));
  }
  element("reset").addEventListener("click", resetView);
  element("toggle").addEventListener("click", () => change({ panel: !state.panel }));
  element("next").addEventListener("click", () => goToPlace(1));
  element("before").addEventListener("click", () => goToPlace(-1));
}
