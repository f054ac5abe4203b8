
"use strict";
// What the graphics card keeps: corners of triangles, and pieces of lines.

const CORNER_BYTES = 20; // of a corner: its place, its normal, and the normal of its triangle
const PIECE_BYTES = 24; // of a piece of a line: its two ends

/** A normal of any length as 10 bits for each number, and 2 bits for a mark. */
function packed(x, y, z, mark) {
  const scale = 511 / (Math.sqrt(x * x + y * y + z * z) || 1);
  const a = Math.round(scale * x) & 1023, b = Math.round(scale * y) & 1023, c = Math.round(scale * z) & 1023;
  return a | (b << 10) | (c << 20) | (mark << 30);
}

/** The bytes of all corners of the surface, triangle by triangle. */
function cornerData() {
  const { points, triangles, marks } = mesh;
  const [x, y, z] = bounds.middle;
  const normals = normalsOfTriangles(points, triangles);
  const smooth = normalsOfCorners(points, triangles, parts, normals);
  const floats = new Float32Array((triangles.length * CORNER_BYTES) / 4);
  const integers = new Int32Array(floats.buffer);
  for (let corner = 0, to = 0; corner < triangles.length; corner++, to += 5) {
    const from = 3 * triangles[corner], of = corner - (corner % 3), at = 3 * corner;
    floats[to] = points[from] - x;
    floats[to + 1] = points[from + 1] - y;
    floats[to + 2] = points[from + 2] - z;
    integers[to + 3] = packed(smooth[at], smooth[at + 1], smooth[at + 2], 0);
    integers[to + 4] = packed(normals[of], normals[of + 1], normals[of + 2], marks.has(of / 3) ? 1 : 0);
  }
  return floats;
}

/** The pieces of closed lines, sorted by their objects: all of them, and where those of each object begin and end. */
function pieceData(rings) {
  const data = new Float32Array(rings.reduce((sum, ring) => sum + 2 * ring.points.length, 0));
  const ranges = [];
  let to = 0;
  for (const ring of [...rings].sort((a, b) => a.object - b.object)) {
    const size = ring.points.length, first = to / 6;
    for (let at = 0; at < size; at += 3) {
      for (let k = 0; k < 6; k++) data[to++] = ring.points[(at + k) % size] - bounds.middle[k % 3];
    }
    const last = ranges[ranges.length - 1];
    if (last && last.object === ring.object) last.count += to / 6 - first;
    else ranges.push({ object: ring.object, first, count: to / 6 - first });
  }
  return { data, ranges };
}

/** Adds the piece in which the plane at a height meets a triangle, which has corners below it and others not below it:
 * its two ends, counted from the middle of the box. The corners are places in the list of coordinates.
 */
function addPiece(numbers, corners, height) {
  const { points } = mesh;
  corners.forEach((p, at) => {
    const q = corners[(at + 1) % 3];
    if (points[p + 2] < height === points[q + 2] < height) return;
    const share = (height - points[p + 2]) / (points[q + 2] - points[p + 2]);
    for (let axis = 0; axis < 3; axis++) {
      numbers.push(points[p + axis] + share * (points[q + axis] - points[p + axis]) - bounds.middle[axis]);
    }
  });
}

/** The pieces in which the plane at a height meets the surface, and where those of each part begin and end. */
function sectionData(height) {
  const { points, triangles } = mesh;
  const numbers = [], ranges = [];
  for (const part of parts.filter((it) => it.low <= height && height <= it.high)) {
    const first = numbers.length / 6;
    for (let at = 3 * part.first; at < 3 * (part.first + part.count); at += 3) {
      const a = 3 * triangles[at], b = 3 * triangles[at + 1], c = 3 * triangles[at + 2];
      const below = (points[a + 2] < height) + (points[b + 2] < height) + (points[c + 2] < height);
      if (below === 1 || below === 2) addPiece(numbers, [a, b, c], height);
    }
    ranges.push({ part, first, count: numbers.length / 6 - first });
  }
  return { data: new Float32Array(numbers), ranges };
}

/** The twelve edges of the box as closed lines. */
function boxRings() {
  const at = (x, y, z) => [x, y, z].map((side, axis) => (side ? bounds.high : bounds.low)[axis]);
  const rings = [0, 1].map((z) => [at(0, 0, z), at(1, 0, z), at(1, 1, z), at(0, 1, z)]);
  for (const [x, y] of [[0, 0], [1, 0], [1, 1], [0, 1]]) rings.push([at(x, y, 0), at(x, y, 1)]);
  return rings.map((points) => ({ object: 0, points: points.flat() }));
}

/** The mean distance of neighbouring heights that have outlines: lines that lie close together are drawn thin. */
const outlineGap = (() => {
  const heights = new Set(outlines.map((ring) => ring.points[2]));
  return heights.size > 1 ? (Math.max(...heights) - Math.min(...heights)) / (heights.size - 1) : Infinity;
})();
