/** Text drawn by WebGL2 through a texture cache: what a renderer does with each answer of the cache. */
import { TextureCache } from '../../web/index.js';

const VERTEX = `#version 300 es
in vec2 position, texel;
in vec4 tint;
uniform vec2 view;
out vec2 at;
out vec4 colour;
void main() {
  gl_Position = vec4(position / view * vec2(2, -2) + vec2(-1, 1), 0, 1);
  at = texel;
  colour = tint;
}`;
// Texels are divided by the texture's size when they are drawn: the page may have grown since the quad was batched.
const FRAGMENT = `#version 300 es
precision highp float;
uniform sampler2D page;
in vec2 at;
in vec4 colour;
out vec4 pixel;
void main() { pixel = colour * texture(page, at / vec2(textureSize(page, 0))).r; }`;

export class TextRenderer {
  constructor(gl, options) {
    this.gl = gl;
    this.cache = new TextureCache({ padding: 1, ...options });
    this.textures = []; // of the pages, each with its sides
    this.quads = []; // eight numbers for each corner: where it is drawn, its texel, its colour
    this.runs = []; // how many corners of which page come after one another
    this.program = programOf(gl);
    gl.bindBuffer(gl.ARRAY_BUFFER, gl.createBuffer());
    for (const [name, count, offset] of [['position', 2, 0], ['texel', 2, 8], ['tint', 4, 16]]) {
      const at = gl.getAttribLocation(this.program, name);
      gl.enableVertexAttribArray(at);
      gl.vertexAttribPointer(at, count, gl.FLOAT, false, 32, offset);
    }
    gl.enable(gl.BLEND);
    gl.blendFunc(gl.ONE, gl.ONE_MINUS_SRC_ALPHA);
    gl.pixelStorei(gl.UNPACK_ALIGNMENT, 1);
  }

  /** Begins a frame; `draw` and at last `flush` follow. */
  begin() {
    this.cache.beginFrame();
    this.gl.clear(this.gl.COLOR_BUFFER_BIT);
  }

  /** Batches a glyph: its key, its size, and its coverage, a byte for each pixel. The colour has its alpha multiplied in. */
  draw(glyph, x, y, colour) {
    const { page, inner } = this.placeOf(glyph);
    if (inner.width === 0 || inner.height === 0) return; // a blank, such as a space
    const { width, height } = inner;
    for (const [i, j] of [[0, 0], [1, 0], [0, 1], [0, 1], [1, 0], [1, 1]]) {
      this.quads.push(x + i * width, y + j * height, inner.x + i * width, inner.y + j * height, ...colour);
    }
    // Quads stay in their order, since glyphs may overlap: a run ends where another page begins.
    const last = this.runs.at(-1);
    if (last?.page === page) last.corners += 6;
    else this.runs.push({ page, corners: 6 });
  }

  placeOf(glyph) {
    const { key, width, height } = glyph;
    const held = this.cache.get(key);
    if (held !== null) return held;
    let place = this.cache.insert(key, width, height);
    this.follow();
    if (place === null) {
      // This frame uses all that the pages have room for: what is batched is drawn, and then its places may go.
      this.flush();
      this.cache.beginFrame();
      place = this.cache.insert(key, width, height);
      this.follow();
    }
    if (place.isNew) this.write(glyph, place);
    return place;
  }

  /** Writes the whole rectangle: the glyph, and a cleared border around it, where something else lay before. */
  write({ width, height, coverage }, { page, rectangle, inner }) {
    if (rectangle.width === 0 || rectangle.height === 0) return;
    const pixels = new Uint8Array(rectangle.width * rectangle.height);
    const first = (inner.y - rectangle.y) * rectangle.width + inner.x - rectangle.x;
    for (let row = 0; row < height; row++) pixels.set(coverage.subarray(row * width, (row + 1) * width), first + row * rectangle.width);
    const { gl } = this;
    gl.bindTexture(gl.TEXTURE_2D, this.textures[page].texture);
    gl.texSubImage2D(gl.TEXTURE_2D, 0, rectangle.x, rectangle.y, rectangle.width, rectangle.height, gl.RED, gl.UNSIGNED_BYTE, pixels);
  }

  /** Does what the cache did, before anything is written into a place that it gave. */
  follow() {
    const before = new Map(); // copies of the pages on which keys move, as they were
    for (const change of this.cache.changes()) {
      const { kind, page } = change;
      if (kind === 'pageAdded') this.textures.push(this.textureOf(change));
      if (kind === 'pageGrown') this.textures[page] = this.copyOf(this.textures[page], change);
      if (kind === 'pageRemoved') this.gl.deleteTexture(this.textures.pop().texture);
      if (kind !== 'moved') continue; // of a key that is evicted nothing is kept here
      const { from, to } = change;
      if (!before.has(from.page)) before.set(from.page, this.copyOf(this.textures[from.page], this.textures[from.page], true));
      this.copy(before.get(from.page), from.rectangle, this.textures[to.page], to.rectangle);
    }
    for (const { texture } of before.values()) this.gl.deleteTexture(texture);
  }

  /** Draws what is batched. The viewport's size is that of the canvas. */
  flush() {
    const { gl, program, quads, runs } = this;
    const { width, height } = gl.canvas;
    gl.viewport(0, 0, width, height);
    gl.useProgram(program);
    gl.uniform2f(gl.getUniformLocation(program, 'view'), width, height);
    gl.bufferData(gl.ARRAY_BUFFER, new Float32Array(quads), gl.STREAM_DRAW);
    let first = 0;
    for (const { page, corners } of runs) {
      gl.bindTexture(gl.TEXTURE_2D, this.textures[page].texture);
      gl.drawArrays(gl.TRIANGLES, first, corners);
      first += corners;
    }
    [this.quads, this.runs] = [[], []];
  }

  /** Has the free room of a page come together. What is batched has the old places, so it is drawn before. */
  repack(page) {
    this.flush();
    this.cache.repack(page);
    this.follow();
  }

  textureOf({ width, height }) {
    const { gl } = this;
    const texture = gl.createTexture();
    gl.bindTexture(gl.TEXTURE_2D, texture);
    gl.texStorage2D(gl.TEXTURE_2D, 1, gl.R8, width, height);
    for (const name of [gl.TEXTURE_MIN_FILTER, gl.TEXTURE_MAG_FILTER]) gl.texParameteri(gl.TEXTURE_2D, name, gl.NEAREST);
    return { texture, width, height };
  }

  /** A texture of a size with the pixels of another, which goes unless it is kept. */
  copyOf(old, size, isKept = false) {
    const made = this.textureOf(size);
    const whole = { x: 0, y: 0, width: old.width, height: old.height };
    this.copy(old, whole, made, whole);
    if (!isKept) this.gl.deleteTexture(old.texture);
    return made;
  }

  copy(from, { x, y, width, height }, to, place) {
    const { gl } = this;
    this.copier ??= gl.createFramebuffer();
    gl.bindFramebuffer(gl.READ_FRAMEBUFFER, this.copier);
    gl.framebufferTexture2D(gl.READ_FRAMEBUFFER, gl.COLOR_ATTACHMENT0, gl.TEXTURE_2D, from.texture, 0);
    gl.bindTexture(gl.TEXTURE_2D, to.texture);
    gl.copyTexSubImage2D(gl.TEXTURE_2D, 0, place.x, place.y, x, y, width, height);
    gl.bindFramebuffer(gl.READ_FRAMEBUFFER, null);
  }
}

export function programOf(gl) {
  const program = gl.createProgram();
  for (const [kind, text] of [[gl.VERTEX_SHADER, VERTEX], [gl.FRAGMENT_SHADER, FRAGMENT]]) {
    const shader = gl.createShader(kind);
    gl.shaderSource(shader, text);
    gl.compileShader(shader);
    gl.attachShader(program, shader);
  }
  gl.linkProgram(program);
  if (!gl.getProgramParameter(program, gl.LINK_STATUS)) throw new Error(gl.getProgramInfoLog(program));
  return program;
}
