
"use strict";
// What lies under a place of the picture, and where marked triangles are.

/** Returns the nearest triangle that is seen under a place of the picture (x and y from -1 to 1), with its part and the
 * point of it; or null.
 */
function pick(state, camera, x, y) {
  const { points, triangles } = mesh;
  const from = camera.pointAt(x, y);
  const px = dot(from, camera.right), py = dot(from, camera.up);
  const along = (axis) => {
    const reach = new Float64Array(points.length / 3);
    for (let at = 0; at < reach.length; at++) {
      reach[at] = axis[0] * points[3 * at] + axis[1] * points[3 * at + 1] + axis[2] * points[3 * at + 2];
    }
    return reach;
  };
  const across = along(camera.right), upward = along(camera.up);
  let best = null, nearest = -Infinity;
  for (const part of parts.filter((it) => !state.hide.has(it.number))) {
    for (let triangle = part.first; triangle < part.first + part.count; triangle++) {
      const a = triangles[3 * triangle], b = triangles[3 * triangle + 1], c = triangles[3 * triangle + 2];
      const ux = across[b] - across[a], uy = upward[b] - upward[a];
      const vx = across[c] - across[a], vy = upward[c] - upward[a];
      const doubled = ux * vy - uy * vx;
      const s = ((px - across[a]) * vy - (py - upward[a]) * vx) / doubled;
      const t = (ux * (py - upward[a]) - uy * (px - across[a])) / doubled;
      if (!(s >= 0 && t >= 0 && s + t <= 1)) continue;
      const point = [0, 1, 2].map((axis) => {
        const [p, q, r] = [a, b, c].map((vertex) => points[3 * vertex + axis]);
        return p + s * (q - p) + t * (r - p);
      });
      const isCut = state.cut !== null && (state.keep === "above" ? point[2] < state.cut : point[2] > state.cut);
      const depth = dot(point, camera.towards);
      if (isCut || depth <= nearest) continue;
      nearest = depth;
      best = { part, triangle, point };
    }
  }
  return best;
}

/** The places of marked triangles: in the order of the file, a triangle belongs to the place before it where their
 * boxes meet. Each has its triangles, and its box.
 */
const markedPlaces = (() => {
  const places = [];
  for (const triangle of [...mesh.marks.keys()].sort((a, b) => a - b)) {
    const low = [Infinity, Infinity, Infinity], high = [-Infinity, -Infinity, -Infinity];
    for (let corner = 3 * triangle; corner < 3 * triangle + 3; corner++) {
      for (let axis = 0; axis < 3; axis++) {
        const value = mesh.points[3 * mesh.triangles[corner] + axis];
        low[axis] = Math.min(low[axis], value);
        high[axis] = Math.max(high[axis], value);
      }
    }
    const last = places[places.length - 1];
    if (last && [0, 1, 2].every((axis) => low[axis] <= last.high[axis] && last.low[axis] <= high[axis])) {
      last.triangles.push(triangle);
      last.low = last.low.map((it, axis) => Math.min(it, low[axis]));
      last.high = last.high.map((it, axis) => Math.max(it, high[axis]));
    } else {
      places.push({ triangles: [triangle], low, high });
    }
  }
  return places;
})();

/** The part that a triangle is of. */
const partOf = (triangle) => parts.find((it) => triangle < it.first + it.count);
