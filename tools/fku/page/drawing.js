
"use strict";
// Draws by WebGL 2: the surface, where a cut opens it the section, lines, and marked triangles.

const ALL = 0, UNMARKED = 1, MARKED = 2; // which triangles are drawn
const NO_LIMIT = 1e30; // farther than any height

/** Draws what a state asks for, as a camera sees it. */
class Drawing {
  constructor(canvas) {
    const gl = canvas.getContext("webgl2", { stencil: true, antialias: true, alpha: false });
    if (!gl) throw new Error("no WebGL 2");
    this.gl = gl;
    this.surface = new Program(gl, SURFACE, ["position", "cornerNormal", "triangleNormal"]);
    this.count = new Program(gl, COUNT, ["position"]);
    this.plane = new Program(gl, PLANE, []);
    this.line = new Program(gl, LINE, ["from", "to"]);
    this.corners = this.cornerArray();
    this.outlines = this.lineArray(pieceData(outlines));
    this.loops = this.lineArray(pieceData(loops));
    this.box = this.lineArray(pieceData(boxRings()));
    this.rim = this.lineArray({ data: new Float32Array(), ranges: [] });
    this.nothing = gl.createVertexArray();
    gl.depthFunc(gl.LEQUAL);
    gl.blendFunc(gl.SRC_ALPHA, gl.ONE_MINUS_SRC_ALPHA);
    gl.enable(gl.DEPTH_TEST);
  }

  cornerArray() {
    const { gl } = this;
    const array = gl.createVertexArray();
    gl.bindVertexArray(array);
    gl.bindBuffer(gl.ARRAY_BUFFER, gl.createBuffer());
    gl.bufferData(gl.ARRAY_BUFFER, cornerData(), gl.STATIC_DRAW);
    gl.vertexAttribPointer(0, 3, gl.FLOAT, false, CORNER_BYTES, 0);
    gl.vertexAttribPointer(1, 4, gl.INT_2_10_10_10_REV, true, CORNER_BYTES, 12);
    gl.vertexAttribPointer(2, 4, gl.INT_2_10_10_10_REV, true, CORNER_BYTES, 16);
    for (const place of [0, 1, 2]) gl.enableVertexAttribArray(place);
    return array;
  }

  lineArray({ data, ranges }) {
    const { gl } = this;
    const array = gl.createVertexArray(), buffer = gl.createBuffer();
    gl.bindVertexArray(array);
    gl.bindBuffer(gl.ARRAY_BUFFER, buffer);
    gl.bufferData(gl.ARRAY_BUFFER, data, gl.STATIC_DRAW);
    for (const place of [0, 1]) {
      gl.enableVertexAttribArray(place);
      gl.vertexAttribDivisor(place, 1);
    }
    return { array, buffer, ranges };
  }

  /** Draws in these colours of the background, the lines and the marks; a pixel of the page has `ratio` pixels of the
   * screen along each side.
   */
  draw(state, camera, colours, ratio) {
    const { gl } = this;
    const way = state.keep === "above" ? -1 : 1;
    const pixels = [gl.drawingBufferWidth, gl.drawingBufferHeight];
    this.ratio = ratio;
    this.unitsPerPixel = (2 * camera.half * ratio) / pixels[1];
    this.lift = Math.min(0.004, (4 * this.unitsPerPixel) / camera.radius);
    this.shared = {
      target: camera.target.map((it, axis) => it - bounds.middle[axis]),
      axes: [0, 1, 2].flatMap((axis) => [camera.right[axis], camera.up[axis], camera.towards[axis]]),
      stretch: [1 / (camera.half * camera.aspect), 1 / camera.half, 0.99 / camera.radius],
      limit: state.cut === null ? way * NO_LIMIT : state.cut - bounds.middle[2],
      way,
      slack: 1e-6 * camera.radius,
      ratio,
      pixels,
      flatly: state.flat,
      edges: state.edges,
      marksShown: state.marks,
      markColour: colours.marks,
    };
    gl.viewport(0, 0, ...pixels);
    gl.clearColor(...colours.back, 1);
    gl.clear(gl.COLOR_BUFFER_BIT | gl.DEPTH_BUFFER_BIT | gl.STENCIL_BUFFER_BIT);
    const seen = parts.filter((part) => !state.hide.has(part.number));
    if (state.opacity < 1) this.drawThin(state, seen, colours);
    else this.drawSolid(state, seen, colours);
  }

  /** Draws all as it is, and then marks once more where something hides them. */
  drawSolid(state, seen, colours) {
    const { gl } = this;
    this.drawParts(seen, { opacity: 1, which: ALL });
    this.drawSection(state, seen, 1);
    this.drawLines(state, colours);
    if (!state.marks || !state.through || !mesh.marks.size) return;
    gl.enable(gl.BLEND);
    gl.depthMask(false);
    gl.depthFunc(gl.GREATER);
    this.drawParts(seen, { opacity: 0.5, which: MARKED, edges: false });
    gl.depthFunc(gl.LEQUAL);
    gl.depthMask(true);
    gl.disable(gl.BLEND);
  }

  /** Draws lines and marks as they are, and then the nearest layer of the rest, through which they are seen. */
  drawThin(state, seen, colours) {
    const { gl } = this;
    this.drawLines(state, colours);
    this.drawParts(seen, { opacity: 1, which: MARKED });
    gl.enable(gl.BLEND);
    gl.colorMask(false, false, false, false);
    this.drawParts(seen, { opacity: 1, which: UNMARKED });
    gl.colorMask(true, true, true, true);
    this.drawSection(state, seen, state.opacity);
    this.drawParts(seen, { opacity: state.opacity, which: UNMARKED });
    gl.disable(gl.BLEND);
  }

  drawParts(seen, values) {
    const { gl, surface } = this;
    gl.bindVertexArray(this.corners);
    surface.use({ ...this.shared, ...values });
    for (const part of seen) {
      surface.set({ colour: part.colour });
      gl.drawArrays(gl.TRIANGLES, 3 * part.first, 3 * part.count);
    }
  }

  /** Draws the sections that a cut opens in parts, filled and with a rim. */
  drawSection(state, seen, opacity) {
    if (state.cut === null) return;
    const { gl } = this;
    const [low, high] = [bounds.low, bounds.high].map((it) => it.map((value, axis) => value - bounds.middle[axis]));
    gl.enable(gl.STENCIL_TEST);
    for (const part of seen.filter((it) => it.low <= state.cut && state.cut <= it.high)) {
      this.countSides(part);
      gl.stencilFunc(gl.NOTEQUAL, 0, 255);
      gl.stencilOp(gl.ZERO, gl.ZERO, gl.ZERO);
      gl.bindVertexArray(this.nothing);
      this.plane.use({ ...this.shared, low, high, colour: part.colour, opacity });
      gl.drawArrays(gl.TRIANGLE_STRIP, 0, 4);
    }
    gl.disable(gl.STENCIL_TEST);
    this.drawRim(state);
  }

  /** Counts for each pixel, on what is kept of a part, how often it is seen from inside less how often from outside:
   * where that is not 0, the plane of the cut lies inside the part.
   */
  countSides(part) {
    const { gl } = this;
    gl.disable(gl.DEPTH_TEST);
    gl.depthMask(false);
    gl.colorMask(false, false, false, false);
    gl.stencilFunc(gl.ALWAYS, 0, 255);
    gl.stencilOpSeparate(gl.FRONT, gl.KEEP, gl.KEEP, gl.DECR_WRAP);
    gl.stencilOpSeparate(gl.BACK, gl.KEEP, gl.KEEP, gl.INCR_WRAP);
    gl.bindVertexArray(this.corners);
    this.count.use(this.shared);
    gl.drawArrays(gl.TRIANGLES, 3 * part.first, 3 * part.count);
    gl.enable(gl.DEPTH_TEST);
    gl.depthMask(true);
    gl.colorMask(true, true, true, true);
  }

  /** Draws the rim of the sections, in a dark shade of each part's colour. */
  drawRim(state) {
    const { gl, rim } = this;
    if (rim.height !== state.cut) {
      const { data, ranges } = sectionData(state.cut);
      gl.bindBuffer(gl.ARRAY_BUFFER, rim.buffer);
      gl.bufferData(gl.ARRAY_BUFFER, data, gl.DYNAMIC_DRAW);
      Object.assign(rim, { ranges, height: state.cut });
    }
    for (const range of rim.ranges.filter((it) => !state.hide.has(it.part.number))) {
      const colour = range.part.colour.map((it) => 0.42 * it), limit = this.shared.way * NO_LIMIT;
      this.drawPieces(rim, [range], { colour, wide: 1.4 * this.ratio, lift: 0.0005, limit });
    }
  }

  drawLines(state, colours) {
    const { outlines, loops, box, ratio, lift } = this;
    if (state.box) {
      const limit = this.shared.way * NO_LIMIT;
      this.drawPieces(box, box.ranges, { colour: colours.box, wide: ratio, lift: 0, limit });
    }
    if (state.outlines) {
      const ranges = outlines.ranges.filter((it) => !given.matched || !state.hide.has(it.object + 1));
      const wide = ratio * clamped((0.2 * outlineGap) / this.unitsPerPixel, 0.6, 1.6);
      this.drawPieces(outlines, ranges, { colour: colours.outlines, wide, lift });
    }
    if (state.loops) {
      this.drawPieces(loops, loops.ranges, { colour: colours.loops, wide: 3 * ratio, lift: 1.25 * lift });
    }
  }

  /** Draws some ranges of the pieces of lines. */
  drawPieces({ array, buffer }, ranges, values) {
    const { gl } = this;
    this.line.use({ ...this.shared, ...values });
    gl.bindVertexArray(array);
    gl.bindBuffer(gl.ARRAY_BUFFER, buffer);
    for (const { first, count } of ranges) {
      gl.vertexAttribPointer(0, 3, gl.FLOAT, false, PIECE_BYTES, PIECE_BYTES * first);
      gl.vertexAttribPointer(1, 3, gl.FLOAT, false, PIECE_BYTES, PIECE_BYTES * first + 12);
      gl.drawArraysInstanced(gl.TRIANGLE_STRIP, 0, 4, count);
    }
  }
}
