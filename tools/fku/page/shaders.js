
"use strict";
// The programs of the graphics card.

// A point as the camera sees it. Depth counts from the middle of the box, so that nothing is ever cut off in front.
const PROJECTION = `#version 300 es
precision highp float;
uniform vec3 target; // what the camera looks at
uniform mat3 axes; // its rows: right, up, towards the viewer
uniform vec3 stretch; // what a unit is, right, up and in depth
vec4 projected(vec3 point) {
  vec3 seen = axes * (point - target);
  float depth = dot(vec3(axes[0][2], axes[1][2], axes[2][2]), point);
  return vec4(seen.xy * stretch.xy, -depth * stretch.z, 1.0);
}
`;

// What lies past the cut, up (1) or down (-1), is left out. The limit is infinite where there is no cut.
const CUT = `#version 300 es
precision highp float;
uniform float limit;
uniform float way;
uniform float slack; // more than the card's rounding
bool isCut(float height) { return way * (height - limit) > slack; }
`;

const SURFACE = {
  vertex: `${PROJECTION}
uniform bool flatly;
uniform bool marksShown;
in vec3 position;
in vec4 cornerNormal; // for smooth shading
in vec4 triangleNormal; // its last number is 1 where the triangle is marked
out vec3 normal;
out vec3 corner;
centroid out float height;
flat out float mark;
flat out float facing; // 1 where the triangle lies in the plane of the picture, 0 where it is seen from its side
void main() {
  gl_Position = projected(position);
  vec3 ofTriangle = axes * triangleNormal.xyz;
  facing = abs(ofTriangle.z);
  if (ofTriangle.z < 0.0) gl_Position.z += 0.00001; // of two triangles back to back the one that faces us is seen
  normal = flatly ? ofTriangle : axes * cornerNormal.xyz;
  int number = gl_VertexID % 3;
  corner = vec3(number == 0, number == 1, number == 2);
  height = position.z;
  mark = marksShown ? triangleNormal.w : 0.0;
}`,
  fragment: `${CUT}
uniform vec3 colour;
uniform vec3 markColour;
uniform float opacity;
uniform bool edges;
uniform float ratio; // pixels of the screen in a pixel of the page
uniform int which; // 0 all triangles, 1 those without a mark, 2 those with one
in vec3 normal;
in vec3 corner;
centroid in float height; // never that of a place outside the triangle
flat in float mark;
flat in float facing;
out vec4 result;
vec3 lit(vec3 base, vec3 n) {
  float key = max(dot(n, normalize(vec3(-0.45, 0.6, 0.75))), 0.0);
  float shine = pow(max(dot(n, normalize(vec3(-0.25, 0.33, 1.0))), 0.0), 48.0);
  float light = 0.24 + 0.08 * n.y + 0.55 * key + 0.36 * max(n.z, 0.0);
  return pow(pow(base, vec3(2.2)) * light + 0.05 * shine, vec3(1.0 / 2.2));
}
float edge() {
  vec3 wide = fwidth(corner);
  vec3 away = corner / wide;
  float nearest = min(away.x, min(away.y, away.z));
  float room = 1.0 / max(wide.x, max(wide.y, wide.z)); // the triangle's least height in pixels
  return (1.0 - smoothstep(0.1, 0.8, nearest / ratio)) * smoothstep(1.5, 8.0, room / ratio);
}
void main() {
  float line = edges ? edge() : 0.0;
  bool marked = mark > 0.5;
  if (isCut(height) || which == 1 && marked || which == 2 && !marked) discard;
  vec3 base = marked ? markColour : colour;
  vec3 n = normalize(normal);
  if (!gl_FrontFacing) {
    n = -n;
    // an inside is dark, but for triangles seen from their side, which glimmer through at the border of the surface
    if (!marked) base = mix(base, mix(base, vec3(0.42), 0.45) * 0.62, smoothstep(0.02, 0.2, facing));
  }
  vec3 shown = lit(base, n);
  result = vec4(mix(shown, shown * 0.4, line), opacity);
}`,
};

// Counts surfaces in the stencil buffer; it paints nothing.
const COUNT = {
  vertex: `${PROJECTION}
in vec3 position;
centroid out float height;
void main() {
  gl_Position = projected(position);
  height = position.z;
}`,
  fragment: `${CUT}
centroid in float height;
out vec4 result;
void main() {
  if (isCut(height)) discard;
  result = vec4(1.0);
}`,
};

// The plane of the cut, as far as the box reaches.
const PLANE = {
  vertex: `${PROJECTION}
uniform vec3 low;
uniform vec3 high;
uniform float limit;
void main() {
  vec2 place = vec2(gl_VertexID & 1, gl_VertexID >> 1);
  gl_Position = projected(vec3(mix(low.xy, high.xy, place), limit));
  gl_Position.z -= 0.00002;
}`,
  fragment: `#version 300 es
precision highp float;
uniform vec3 colour;
uniform float opacity;
out vec4 result;
void main() { result = vec4(mix(colour, vec3(1.0), 0.3), opacity); }`,
};

// Straight pieces of lines, as wide as is asked for at any distance, a little in front of the surface.
const LINE = {
  vertex: `${PROJECTION}
uniform vec2 pixels; // the picture's width and height
uniform float wide; // in pixels
uniform float lift;
in vec3 from;
in vec3 to;
out float height;
void main() {
  vec4 a = projected(from);
  vec4 b = projected(to);
  vec2 way = (b.xy - a.xy) * pixels;
  vec2 along = length(way) > 0.0 ? normalize(way) : vec2(1.0, 0.0);
  vec2 across = vec2(-along.y, along.x);
  bool second = (gl_VertexID & 1) == 1;
  float side = float(gl_VertexID >> 1) * 2.0 - 1.0;
  gl_Position = second ? b : a;
  gl_Position.xy += (across * side + along * (second ? 0.7 : -0.7)) * wide / pixels;
  gl_Position.z -= lift;
  height = (second ? to : from).z;
}`,
  fragment: `${CUT}
uniform vec3 colour;
in float height;
out vec4 result;
void main() {
  if (isCut(height)) discard;
  result = vec4(colour, 1.0);
}`,
};

/** A program of the graphics card, with its uniforms by their names. */
class Program {
  constructor(gl, { vertex, fragment }, attributes) {
    this.gl = gl;
    this.program = gl.createProgram();
    gl.attachShader(this.program, this.shader(gl.VERTEX_SHADER, vertex));
    gl.attachShader(this.program, this.shader(gl.FRAGMENT_SHADER, fragment));
    attributes.forEach((name, place) => gl.bindAttribLocation(this.program, place, name));
    gl.linkProgram(this.program);
    if (!gl.getProgramParameter(this.program, gl.LINK_STATUS)) throw new Error(gl.getProgramInfoLog(this.program));
    this.places = new Map();
    for (let at = 0; at < gl.getProgramParameter(this.program, gl.ACTIVE_UNIFORMS); at++) {
      const { name, type } = gl.getActiveUniform(this.program, at);
      this.places.set(name, { place: gl.getUniformLocation(this.program, name), type });
    }
  }

  shader(kind, text) {
    const { gl } = this;
    const shader = gl.createShader(kind);
    gl.shaderSource(shader, text);
    gl.compileShader(shader);
    if (!gl.getShaderParameter(shader, gl.COMPILE_STATUS)) throw new Error(gl.getShaderInfoLog(shader));
    return shader;
  }

  /** Uses the program, with these values of its uniforms; names that it does not have are ignored. */
  use(values) {
    this.gl.useProgram(this.program);
    this.set(values);
  }

  set(values) {
    const { gl } = this;
    for (const [name, value] of Object.entries(values)) {
      const uniform = this.places.get(name);
      if (!uniform) continue;
      const { place, type } = uniform;
      if (type === gl.FLOAT_MAT3) gl.uniformMatrix3fv(place, false, value);
      else if (type === gl.FLOAT_VEC3) gl.uniform3fv(place, value);
      else if (type === gl.FLOAT_VEC2) gl.uniform2fv(place, value);
      else if (type === gl.FLOAT) gl.uniform1f(place, value);
      else gl.uniform1i(place, value);
    }
  }
}
