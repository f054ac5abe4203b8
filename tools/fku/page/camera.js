
"use strict";
// The camera: a parallel projection, as the pictures of tools/show have it.

/** The sum of the products of two lists of three numbers. */
const dot = (a, b) => a[0] * b[0] + a[1] * b[1] + a[2] * b[2];

/** Looks at a target along three axes: `right`, `up`, and `towards` the viewer. Half of the picture's height
 * shows `half` units.
 */
class Camera {
  constructor() {
    this.radius = Math.hypot(...bounds.high.map((high, axis) => high - bounds.low[axis])) / 2 || 1;
    this.fitted = "";
  }

  /** Takes the azimuth (degrees round the height, 0 from the front, 90 from the right) and the elevation (degrees up),
   * and the target and the half height where these are not null: else the picture shows all.
   */
  look({ view, at, half }, aspect) {
    const turn = ((view[0] - 90) * Math.PI) / 180, rise = (view[1] * Math.PI) / 180;
    this.right = [-Math.sin(turn), Math.cos(turn), 0];
    this.up = [-Math.cos(turn) * Math.sin(rise), -Math.sin(turn) * Math.sin(rise), Math.cos(rise)];
    this.towards = [Math.cos(turn) * Math.cos(rise), Math.sin(turn) * Math.cos(rise), Math.sin(rise)];
    this.aspect = aspect;
    if (!at || !half) this.fit(`${view} ${aspect}`);
    this.target = at || this.whole.at;
    this.half = half || this.whole.half;
  }

  /** Finds the target and the half height that show all, unless they were found for this key. */
  fit(key) {
    if (key === this.fitted) return;
    const axes = [this.right, this.up, this.towards];
    const low = [Infinity, Infinity, Infinity], high = [-Infinity, -Infinity, -Infinity];
    const widen = (points) => {
      for (let at = 0; at < points.length; at += 3) {
        axes.forEach((axis, k) => {
          const reach = axis[0] * points[at] + axis[1] * points[at + 1] + axis[2] * points[at + 2];
          if (reach < low[k]) low[k] = reach;
          if (reach > high[k]) high[k] = reach;
        });
      }
    };
    widen(mesh.points);
    for (const ring of [...outlines, ...loops]) widen(ring.points);
    const middle = low.map((it, k) => (it + high[k]) / 2);
    const at = [0, 1, 2].map((k) => middle[0] * axes[0][k] + middle[1] * axes[1][k] + middle[2] * axes[2][k]);
    const half = 0.56 * Math.max(high[1] - low[1], (high[0] - low[0]) / this.aspect, 2);
    this.whole = { at, half };
    this.fitted = key;
  }

  /** The point in space under a place of the picture (x and y from -1 to 1), in the plane through the target. */
  pointAt(x, y) {
    return this.target.map((it, k) => it + this.half * (x * this.aspect * this.right[k] + y * this.up[k]));
  }
}
