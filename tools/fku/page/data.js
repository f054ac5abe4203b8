
"use strict";
// What the page carries: a JSON text of names and numbers, and arrays of numbers in base64, lowest byte first.

/** Returns the array of numbers of this name. Its element goes, so that its text takes no memory. */
function numbersOf(name, Kind) {
  const element = document.getElementById(`array_${name}`);
  const text = atob(element.textContent);
  element.remove();
  const bytes = new Uint8Array(text.length);
  for (let at = 0; at < bytes.length; at++) bytes[at] = text.charCodeAt(at);
  return new Kind(bytes.buffer);
}

const given = JSON.parse(document.getElementById("data").textContent);

const mesh = {
  points: numbersOf("points", Int32Array), // x, y and z of each vertex, in whole units
  triangles: numbersOf("triangles", given.wide ? Uint32Array : Uint16Array), // three vertices each, counted from 0
  marks: new Map(), // from a triangle, counted from 0, to how many others it crosses
};

const markedTriangles = numbersOf("marks", Uint32Array);
for (let at = 0; at < markedTriangles.length; at += 2) mesh.marks.set(markedTriangles[at], markedTriangles[at + 1]);

/** Each part's number, counted from 1, its name, colour (red, green and blue from 0 to 1), first triangle, number of
 * triangles, and least and greatest z.
 */
const parts = [];
for (const part of given.parts) {
  const before = parts[parts.length - 1];
  const first = before ? before.first + before.count : 0;
  let low = Infinity, high = -Infinity;
  for (let corner = 3 * first; corner < 3 * (first + part.count); corner++) {
    const z = mesh.points[3 * mesh.triangles[corner] + 2];
    low = Math.min(low, z);
    high = Math.max(high, z);
  }
  parts.push({ ...part, number: parts.length + 1, first, low, high });
}

/** Closed lines: each an object of the section text (0 for the first), and its points x, y, z one after another. */
function ringsOf(sizes, points) {
  const rings = [];
  let from = 0;
  for (let at = 0; at < sizes.length; at += 3) {
    const ring = { object: sizes[at], points: [] };
    for (let point = 0; point < sizes[at + 2]; point++, from += 2) {
      ring.points.push(points[from], points[from + 1], sizes[at + 1]);
    }
    rings.push(ring);
  }
  return rings;
}

const outlines = ringsOf(numbersOf("outline_sizes", Int32Array), numbersOf("outline_points", Int32Array));
const loops = ringsOf(numbersOf("loop_sizes", Int32Array), numbersOf("loop_points", Float64Array));

/** The least and the greatest x, y and z of all that there is. */
const bounds = (() => {
  const low = [Infinity, Infinity, Infinity];
  const high = [-Infinity, -Infinity, -Infinity];
  const widen = (numbers) => {
    for (let at = 0; at < numbers.length; at++) {
      const axis = at % 3;
      if (numbers[at] < low[axis]) low[axis] = numbers[at];
      if (numbers[at] > high[axis]) high[axis] = numbers[at];
    }
  };
  widen(mesh.points);
  for (const ring of [...outlines, ...loops]) widen(ring.points);
  return { low, high, middle: low.map((least, axis) => (least + high[axis]) / 2) };
})();

/** Returns a number with at most so many digits after the point, in groups of three. */
function written(number, digits = 0) {
  return number.toLocaleString("en-GB", { maximumFractionDigits: digits }).replace("-", "\u2212");
}

/** Returns a length of so many units, in the unit of the page, or in whole units where the page has none. */
function lengthOf(units) {
  if (!given.unit) return `${written(Number(units.toPrecision(6)), 6)} ${units === 1 ? "unit" : "units"}`;
  return `${written(Number((units * given.unit.factor).toPrecision(6)), 9)} ${given.unit.name}`;
}
