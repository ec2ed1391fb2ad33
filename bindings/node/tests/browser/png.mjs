/** Makes a picture of a page smaller: at most 256 of its colours remain, none too near another. */

import { deflateSync, inflateSync } from "node:zlib";

const SIGNATURE = Buffer.from("\x89PNG\r\n\x1a\n", "latin1");
const COLOURS = 256;

/** The distance of two colours that remain, as a square. */
const NEAR = 300;

/** Bytes of a pixel: red, green and blue, as Chromium writes them. */
const PIXEL = 3;

/**
 * @param {Buffer} png of eight bits for each colour, without alpha and not interlaced
 * @returns {Buffer} a PNG
 */
export function withFewColours(png) {
  const chunks = [...chunksOf(png)];
  const header = Buffer.from(chunks[0].data);
  const [width, height] = [header.readUInt32BE(0), header.readUInt32BE(4)];
  const data = chunks.filter(({ type }) => type === "IDAT").map((chunk) => chunk.data);
  const pixels = unfiltered(inflateSync(Buffer.concat(data)), width * PIXEL, height);
  const { palette, indexes } = reduced(pixels);
  const rows = Buffer.alloc((width + 1) * height);
  for (let row = 0; row < height; row++) {
    indexes.copy(rows, row * (width + 1) + 1, row * width, (row + 1) * width);
  }
  header[9] = 3; // a palette
  return Buffer.concat([
    SIGNATURE, chunk("IHDR", header), chunk("PLTE", palette),
    chunk("IDAT", deflateSync(rows, { level: 9, memLevel: 9 })), chunk("IEND", Buffer.alloc(0)),
  ]);
}

/** @param {Buffer} png */
function* chunksOf(png) {
  for (let at = SIGNATURE.length; at < png.length; ) {
    const length = png.readUInt32BE(at);
    yield { type: png.toString("latin1", at + 4, at + 8), data: png.subarray(at + 8, at + 8 + length) };
    at += length + 12;
  }
}

/**
 * @param {string} type
 * @param {Buffer} data
 */
function chunk(type, data) {
  const content = Buffer.concat([Buffer.from(type, "latin1"), data]);
  const ends = Buffer.alloc(8);
  ends.writeUInt32BE(data.length, 0);
  ends.writeUInt32BE(crc32(content), 4);
  return Buffer.concat([ends.subarray(0, 4), content, ends.subarray(4)]);
}

/**
 * https://www.w3.org/TR/png-3/#5CRC-algorithm
 * @param {Buffer} bytes
 */
function crc32(bytes) {
  let crc = 0xffffffff;
  for (const byte of bytes) {
    crc ^= byte;
    for (let bit = 0; bit < 8; bit++) {
      crc = crc & 1 ? (crc >>> 1) ^ 0xedb88320 : crc >>> 1;
    }
  }
  return ~crc >>> 0;
}

/**
 * The rows without the filters that the format has put on them.
 * https://www.w3.org/TR/png-3/#9Filters
 * @param {Buffer} rows each after the number of its filter
 * @param {number} width in bytes
 * @param {number} height
 */
function unfiltered(rows, width, height) {
  const pixels = Buffer.alloc(width * height);
  for (let row = 0; row < height; row++) {
    const filter = rows[row * (width + 1)];
    for (let column = 0; column < width; column++) {
      const at = row * width + column;
      const left = column >= PIXEL ? pixels[at - PIXEL] : 0;
      const up = row > 0 ? pixels[at - width] : 0;
      const corner = row > 0 && column >= PIXEL ? pixels[at - width - PIXEL] : 0;
      const guess = [0, left, up, (left + up) >> 1, paeth(left, up, corner)][filter];
      pixels[at] = rows[row * (width + 1) + 1 + column] + guess;
    }
  }
  return pixels;
}

/**
 * @param {number} left
 * @param {number} up
 * @param {number} corner
 */
function paeth(left, up, corner) {
  const [toLeft, toUp, toCorner] = [left, up, corner].map((each) => Math.abs(left + up - corner - each));
  if (toLeft <= toUp && toLeft <= toCorner) {
    return left;
  }
  return toUp <= toCorner ? up : corner;
}

/** @param {Buffer} pixels */
function reduced(pixels) {
  /** @type {Map<number, number>} */
  const counts = new Map();
  for (let at = 0; at < pixels.length; at += PIXEL) {
    const colour = pixels.readUIntBE(at, PIXEL);
    counts.set(colour, (counts.get(colour) ?? 0) + 1);
  }
  /** @type {number[]} */
  const colours = [];
  for (const [colour] of [...counts].sort(([, one], [, other]) => other - one)) {
    const isNew = colours.every((other) => distance(colour, other) >= NEAR);
    if (isNew && colours.length < COLOURS) {
      colours.push(colour);
    }
  }
  const indexOf = new Map([...counts.keys()].map((colour) => [colour, nearest(colour, colours)]));
  const indexes = Buffer.alloc(pixels.length / PIXEL);
  indexes.forEach((_, at) => (indexes[at] = indexOf.get(pixels.readUIntBE(at * PIXEL, PIXEL)) ?? 0));
  const palette = Buffer.alloc(colours.length * PIXEL);
  colours.forEach((colour, at) => palette.writeUIntBE(colour, at * PIXEL, PIXEL));
  return { palette, indexes };
}

/**
 * @param {number} colour
 * @param {number[]} colours
 */
function nearest(colour, colours) {
  let best = 0;
  colours.forEach((other, at) => {
    best = distance(colour, other) < distance(colour, colours[best]) ? at : best;
  });
  return best;
}

/**
 * @param {number} one
 * @param {number} other
 */
function distance(one, other) {
  return [16, 8, 0].reduce((sum, shift) => sum + (((one >> shift) & 255) - ((other >> shift) & 255)) ** 2, 0);
}
