/** Frames of text that examples/webgl2 draws through a cache, each compared, pixel by pixel, with one that is drawn without a cache. The
 * page's address says where the renderer is (`renderer=`), and how many frames are drawn (`frames=`). It posts what it found. */
import { load } from '../index.js';

const given = new URLSearchParams(location.search);
const FRAMES = Number(given.get('frames') ?? 300);
const [WIDTH, HEIGHT] = [256, 128];
// How far a colour may be off. WebGPU's frames are compared with those of WebGL2, where what is blended may be rounded otherwise.
const ROUNDED = given.has('gpu') ? 2 : 0;
const COLOURS = [[0.1, 0.2, 0.4, 1], [0.5, 0.2, 0, 0.5], [0, 0.25, 0.5, 0.75], [0.2, 0.1, 0, 0.25]];

let state = 1;
function below(bound) {
  state = (Math.imul(state, 1103515245) + 12345) >>> 0;
  return (state >>> 8) % bound;
}

/** Glyphs whose pixels are drawn at random, so that each pixel of one that lies elsewhere is seen; some are blank. */
const glyphs = Array.from({ length: 120 }, (_, number) => {
  const isBlank = number % 15 === 0;
  const [width, height] = isBlank ? [0, number % 2 * 9] : [4 + below(14), 5 + below(16)];
  const coverage = Uint8Array.from({ length: width * height }, () => 55 + below(201));
  return { key: `glyph ${number}`, width, height, coverage };
});

/** What a frame has: of each glyph where it lies and its colour. They overlap one another. Which are used shifts from frame to frame. */
function sceneOf(frame) {
  const many = frame % 11 === 10 ? 110 : 15 + below(35);
  return Array.from({ length: many }, () => ({
    glyph: glyphs[(frame + below(frame % 11 === 10 ? 120 : 45)) % glyphs.length],
    x: below(WIDTH) - 4, y: below(HEIGHT) - 4, colour: COLOURS[below(COLOURS.length)],
  }));
}

/** Draws each glyph from a texture of its own, one by one. */
class Plain {
  constructor(gl, program) {
    Object.assign(this, { gl, program, textures: new Map() });
    gl.bindBuffer(gl.ARRAY_BUFFER, gl.createBuffer());
    for (const [name, count, offset] of [['position', 2, 0], ['texel', 2, 8], ['tint', 4, 16]]) {
      const at = gl.getAttribLocation(program, name);
      gl.enableVertexAttribArray(at);
      gl.vertexAttribPointer(at, count, gl.FLOAT, false, 32, offset);
    }
    gl.enable(gl.BLEND);
    gl.blendFunc(gl.ONE, gl.ONE_MINUS_SRC_ALPHA);
    gl.pixelStorei(gl.UNPACK_ALIGNMENT, 1);
    gl.viewport(0, 0, WIDTH, HEIGHT);
  }

  textureOf({ key, width, height, coverage }) {
    const { gl } = this;
    if (!this.textures.has(key)) {
      this.textures.set(key, gl.createTexture());
      gl.bindTexture(gl.TEXTURE_2D, this.textures.get(key));
      gl.texImage2D(gl.TEXTURE_2D, 0, gl.R8, width, height, 0, gl.RED, gl.UNSIGNED_BYTE, coverage);
      for (const name of [gl.TEXTURE_MIN_FILTER, gl.TEXTURE_MAG_FILTER]) gl.texParameteri(gl.TEXTURE_2D, name, gl.NEAREST);
    }
    return this.textures.get(key);
  }

  draw(scene) {
    const { gl } = this;
    gl.clear(gl.COLOR_BUFFER_BIT);
    gl.useProgram(this.program);
    gl.uniform2f(gl.getUniformLocation(this.program, 'view'), WIDTH, HEIGHT);
    for (const { glyph, x, y, colour } of scene) {
      const { width, height } = glyph;
      if (width === 0 || height === 0) continue;
      gl.bindTexture(gl.TEXTURE_2D, this.textureOf(glyph));
      const corners = [[0, 0], [1, 0], [0, 1], [1, 1]].flatMap(([i, j]) => [x + i * width, y + j * height, i * width, j * height, ...colour]);
      gl.bufferData(gl.ARRAY_BUFFER, new Float32Array(corners), gl.STREAM_DRAW);
      gl.drawArrays(gl.TRIANGLE_STRIP, 0, 4);
    }
  }
}

function contextOf() {
  const canvas = Object.assign(document.createElement('canvas'), { width: WIDTH, height: HEIGHT });
  return canvas.getContext('webgl2', { antialias: false, preserveDrawingBuffer: true });
}

function pixelsOf(gl) {
  const pixels = new Uint8Array(4 * WIDTH * HEIGHT);
  gl.readPixels(0, 0, WIDTH, HEIGHT, gl.RGBA, gl.UNSIGNED_BYTE, pixels);
  return pixels;
}

/** A texture of WebGPU to draw to, and how its pixels are read, the lowest row first as WebGL gives them. */
async function gpuTarget() {
  const device = await (await navigator.gpu?.requestAdapter())?.requestDevice();
  if (device === undefined) return null;
  const faults = [];
  device.addEventListener('uncapturederror', ({ error }) => faults.push(error.message));
  const usage = GPUTextureUsage.RENDER_ATTACHMENT | GPUTextureUsage.COPY_SRC;
  const texture = device.createTexture({ size: [WIDTH, HEIGHT], format: 'rgba8unorm', usage });
  const read = async () => {
    const buffer = device.createBuffer({ size: 4 * WIDTH * HEIGHT, usage: GPUBufferUsage.MAP_READ | GPUBufferUsage.COPY_DST });
    const encoder = device.createCommandEncoder();
    encoder.copyTextureToBuffer({ texture }, { buffer, bytesPerRow: 4 * WIDTH }, [WIDTH, HEIGHT]);
    device.queue.submit([encoder.finish()]);
    await buffer.mapAsync(GPUMapMode.READ);
    const [rows, pixels] = [new Uint8Array(buffer.getMappedRange()), new Uint8Array(4 * WIDTH * HEIGHT)];
    for (let y = 0; y < HEIGHT; y++) pixels.set(rows.subarray(4 * WIDTH * y, 4 * WIDTH * (y + 1)), 4 * WIDTH * (HEIGHT - 1 - y));
    buffer.destroy();
    return pixels;
  };
  return { device, texture, read, faults };
}

/** Counts what the cache did, as the renderer follows it. */
function counted(cache) {
  const counts = { pageAdded: 0, pageGrown: 0, pageRemoved: 0, evicted: 0, moved: 0, full: 0, blank: 0, grownInBatch: 0 };
  const { changes, insert } = cache;
  cache.changes = function* all() {
    for (const change of changes.call(cache)) {
      counts[change.kind] += 1;
      yield change;
    }
  };
  cache.insert = (...words) => {
    const place = insert.apply(cache, words);
    counts.full += place === null;
    counts.blank += place?.inner.width === 0;
    return place;
  };
  return counts;
}

/** What may happen between two frames. */
function between(renderer, frame) {
  if (frame % 7 === 3) renderer.repack(frame % renderer.cache.pageCount);
  if (frame % 23 === 22) renderer.cache.trim(2);
  if (frame % 50 === 49) {
    renderer.cache.clear();
    renderer.cache.shrink();
  }
  renderer.follow();
}

async function compared() {
  const [gl, other, gpu] = [contextOf(), contextOf(), given.has('gpu') ? await gpuTarget() : undefined];
  if (gl === null || other === null) return { absent: 'WebGL2' };
  if (gpu === null) return { absent: 'WebGPU' };
  await load();
  const { TextRenderer } = await import(given.get('renderer') ?? '/examples/webgl2/text.js');
  const { programOf } = await import('/examples/webgl2/text.js');
  const options = { page: { width: 32, height: 32 }, largestPage: { width: 96, height: 96 }, pages: 2 };
  const renderer = gpu ? new TextRenderer(gpu.device, 'rgba8unorm', () => gpu.texture, options) : new TextRenderer(gl, options);
  const [plain, counts] = [new Plain(other, programOf(other)), counted(renderer.cache)];
  const read = gpu ? gpu.read : () => pixelsOf(gl);
  const different = [];
  let inked = 0;
  for (let frame = 0; frame < FRAMES; frame++) {
    const scene = sceneOf(frame);
    renderer.begin();
    for (const { glyph, x, y, colour } of scene) {
      const before = renderer.runs.length > 0 ? counts.pageGrown : Infinity;
      renderer.draw(glyph, x, y, colour);
      counts.grownInBatch += counts.pageGrown > before;
    }
    renderer.flush();
    plain.draw(scene);
    const [pixels, wanted] = [await read(), pixelsOf(other)];
    if (pixels.some((value, at) => Math.abs(value - wanted[at]) > ROUNDED)) different.push(frame);
    inked += wanted.some((value) => value !== 0);
    between(renderer, frame);
  }
  return { frames: FRAMES, different, inked, error: gl.getError() || other.getError() || (gpu?.faults.length ?? 0), ...counts };
}

compared().catch((error) => ({ fault: `${error}\n${error.stack}` }))
  .then((found) => fetch('/answer', { method: 'POST', body: JSON.stringify(found) }));
