
"use strict";
// Normals of a surface: of its triangles, and of their corners for smooth shading.

const SHARP = Math.cos((50 * Math.PI) / 180); // where two triangles make a sharper bend, an edge is seen

/** Returns the unit normals of the triangles, 3 numbers each; 0, 0, 0 for one without area. */
function normalsOfTriangles(points, triangles) {
  const normals = new Float32Array(triangles.length);
  for (let at = 0; at < triangles.length; at += 3) {
    const a = 3 * triangles[at], b = 3 * triangles[at + 1], c = 3 * triangles[at + 2];
    const ux = points[b] - points[a], uy = points[b + 1] - points[a + 1], uz = points[b + 2] - points[a + 2];
    const vx = points[c] - points[a], vy = points[c + 1] - points[a + 1], vz = points[c + 2] - points[a + 2];
    const x = uy * vz - uz * vy, y = uz * vx - ux * vz, z = ux * vy - uy * vx;
    const length = Math.sqrt(x * x + y * y + z * z) || 1;
    normals[at] = x / length;
    normals[at + 1] = y / length;
    normals[at + 2] = z / length;
  }
  return normals;
}

/** Returns the angle of each corner, in radians. */
function anglesOfCorners(points, triangles) {
  const angles = new Float32Array(triangles.length);
  for (let at = 0; at < triangles.length; at++) {
    const next = at % 3 === 2 ? at - 2 : at + 1, last = at % 3 === 0 ? at + 2 : at - 1;
    const p = 3 * triangles[at], q = 3 * triangles[next], r = 3 * triangles[last];
    const ux = points[q] - points[p], uy = points[q + 1] - points[p + 1], uz = points[q + 2] - points[p + 2];
    const vx = points[r] - points[p], vy = points[r + 1] - points[p + 1], vz = points[r + 2] - points[p + 2];
    const size = Math.sqrt((ux * ux + uy * uy + uz * uz) * (vx * vx + vy * vy + vz * vz));
    angles[at] = size ? Math.acos(Math.max(-1, Math.min(1, (ux * vx + uy * vy + uz * vz) / size))) : 0;
  }
  return angles;
}

/** Returns for each triangle a number that it shares with those it may be shaded with: caps, which are flat in z, and
 * walls, of one part.
 */
function groupsOfTriangles(points, triangles, parts) {
  const groups = new Uint16Array(triangles.length / 3);
  parts.forEach((part, number) => {
    for (let triangle = part.first; triangle < part.first + part.count; triangle++) {
      const at = 3 * triangle, height = points[3 * triangles[at] + 2];
      const isCap = height === points[3 * triangles[at + 1] + 2] && height === points[3 * triangles[at + 2] + 2];
      groups[triangle] = 2 * number + (isCap ? 1 : 0);
    }
  });
  return groups;
}

/** Returns the corners at each vertex: those of vertex v are corners[first[v]] and on, up to first[v + 1]. */
function cornersOfVertices(vertices, triangles) {
  const first = new Uint32Array(vertices + 2);
  for (const vertex of triangles) first[vertex + 2]++;
  for (let vertex = 2; vertex < first.length; vertex++) first[vertex] += first[vertex - 1];
  const corners = new Uint32Array(triangles.length);
  for (let corner = 0; corner < triangles.length; corner++) corners[first[triangles[corner] + 1]++] = corner;
  return { first, corners };
}

/** Returns the normals of the corners, 3 numbers each, not of unit length: the mean over the triangles at the vertex
 * that make no sharp bend with the corner's own, by their angles there.
 */
function normalsOfCorners(points, triangles, parts, normals) {
  const groups = groupsOfTriangles(points, triangles, parts);
  const angles = anglesOfCorners(points, triangles);
  const { first, corners } = cornersOfVertices(points.length / 3, triangles);
  const sums = new Float32Array(3 * triangles.length);
  for (let corner = 0; corner < triangles.length; corner++) {
    const own = (corner / 3) | 0, vertex = triangles[corner], group = groups[own], past = first[vertex + 1];
    const x = normals[3 * own], y = normals[3 * own + 1], z = normals[3 * own + 2];
    let sx = 0, sy = 0, sz = 0;
    for (let at = first[vertex]; at < past; at++) {
      const other = (corners[at] / 3) | 0, from = 3 * other;
      const alike = x * normals[from] + y * normals[from + 1] + z * normals[from + 2];
      if (groups[other] !== group || alike < SHARP) continue;
      const weight = angles[corners[at]];
      sx += weight * normals[from];
      sy += weight * normals[from + 1];
      sz += weight * normals[from + 2];
    }
    sums[3 * corner] = sx;
    sums[3 * corner + 1] = sy;
    sums[3 * corner + 2] = sz;
  }
  return sums;
}
