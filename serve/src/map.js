"use strict";
/* The picture: a grid of values with coasts, degrees and a colour scale. Nothing is asked for here. */

/* Viridis: its brightness rises evenly, so that it can be read without telling colours apart. */
const COLOURS = ("440154 481a6c 472f7d 414487 39568c 31688e 2a788e 23888e " +
  "1f988b 22a884 35b779 54c568 7ad151 a5db36 d2e21b fde725").split(" ")
  .map(hex => [0, 2, 4].map(at => parseInt(hex.slice(at, at + 2), 16)));

/* The colour at a share from 0 to 1. */
function colour(share) {
  const at = Math.min(Math.max(share, 0), 1) * (COLOURS.length - 1);
  const low = Math.min(Math.floor(at), COLOURS.length - 2);
  return COLOURS[low].map((part, i) => Math.round(part + (at - low) * (COLOURS[low + 1][i] - part)));
}

/* 256 colours as the words of an ImageData, red in the lowest byte; in five steps towards white, for the lines of equal value. */
const PALETTES = [0, 0.12, 0.24, 0.36, 0.48].map(white => Uint32Array.from({ length: 256 }, (_, i) => {
  const [red, green, blue] = colour(i / 255).map(part => Math.round(part + white * (255 - part)));
  return (255 << 24 | blue << 16 | green << 8 | red) >>> 0;
}));

/* The least of 1, 2 or 5 times a power of ten that is not below a number. */
function roundStep(number) {
  const power = 10 ** Math.floor(Math.log10(number));
  return [1, 2, 5, 10].map(times => times * power).find(step => step >= number * 0.999);
}

/* From where to where the colours go, in round numbers: from 0 for a content, around the values for a height. */
function rangeOf(values, fromZero) {
  let least = fromZero ? 0 : Infinity, most = fromZero ? 0 : -Infinity;
  for (const value of values) {
    if (value < least) least = value;
    if (value > most) most = value;
  }
  if (!(most > least)) [least, most] = least === most ? [least, least + 1000] : [0, 1000];
  const step = roundStep((most - least) / 8);
  return { low: Math.floor(least / step) * step, high: Math.ceil(most / step) * step, step };
}

/* Where the grid stands on the canvas, in CSS pixels. */
class Frame {
  constructor(map, width, tallest) {
    const { latitudes: lat, longitudes: lon } = map;
    [this.north, this.south] = [Math.max(lat.first, lat.last), Math.min(lat.first, lat.last)];
    [this.west, this.east] = [Math.min(lon.first, lon.last), Math.max(lon.first, lon.last)];
    if (this.north === this.south) { this.north += 1; this.south -= 1; }
    if (this.west === this.east) { this.west -= 1; this.east += 1; }
    this.left = 46; this.top = 8;
    this.wide = width - this.left - 22;
    this.high = this.wide * (this.north - this.south) / (this.east - this.west);
    if (this.high > tallest) {
      this.left += this.wide * (1 - tallest / this.high) / 2;
      this.wide *= tallest / this.high;
      this.high = tallest;
    }
  }
  x(lon) { return this.left + (lon - this.west) / (this.east - this.west) * this.wide; }
  y(lat) { return this.top + (this.north - lat) / (this.north - this.south) * this.high; }
  lon(x) { return this.west + (x - this.left) / this.wide * (this.east - this.west); }
  lat(y) { return this.north - (y - this.top) / this.high * (this.north - this.south); }
}

/* For each pixel along an axis: the nodes on both sides, how far it is from the first, and how far a pixel goes. */
function neighbours(axis, pixels, from, to, stride = 1) {
  const pace = axis.count < 2 ? 0 : Math.abs((to - from) / pixels / axis.step);
  return Array.from({ length: pixels }, (_, i) => {
    const at = axis.count < 2 ? 0 : (from + (i + 0.5) / pixels * (to - from) - axis.first) / axis.step;
    const low = Math.min(Math.max(Math.floor(at), 0), Math.max(axis.count - 2, 0));
    return { low: low * stride, high: Math.min(low + 1, axis.count - 1) * stride, part: at - low, pace };
  });
}

/* How white a pixel is: 4 on a line of equal value, 0 a pixel and more away from it. */
function whiteness(value, slope, step) {
  const away = Math.abs(value - Math.round(value / step) * step) / slope;
  return away < 1 ? Math.round(4 * (1 - away)) : 0;
}

/* One row of pixels between two rows of nodes; NaN, where one of four nodes has no value, leaves the pixel clear. */
function paintRow(pixels, values, range, row, columns) {
  const scale = 255 / (range.high - range.low);
  columns.forEach((column, i) => {
    const [nw, ne] = [values[row.low + column.low], values[row.low + column.high]];
    const [sw, se] = [values[row.high + column.low], values[row.high + column.high]];
    const west = nw + (sw - nw) * row.part, east = ne + (se - ne) * row.part, value = west + (east - west) * column.part;
    if (value !== value) return;
    const slope = Math.hypot((east - west) * column.pace, (sw - nw + (se - ne - sw + nw) * column.part) * row.pace);
    const index = Math.min(Math.max(Math.round((value - range.low) * scale), 0), 255);
    pixels[i] = PALETTES[whiteness(value, slope, range.step)][index];
  });
}

/* The values between the nodes, as a canvas of its own. */
function picture(map, range, frame, wide, high) {
  const canvas = document.createElement("canvas");
  [canvas.width, canvas.height] = [wide, high];
  const image = new ImageData(wide, high), pixels = new Uint32Array(image.data.buffer);
  const columns = neighbours(map.longitudes, wide, frame.west, frame.east);
  neighbours(map.latitudes, high, frame.north, frame.south, map.longitudes.count).forEach((row, i) =>
    paintRow(pixels.subarray(i * wide, (i + 1) * wide), map.values, range, row, columns));
  canvas.getContext("2d").putImageData(image, 0, 0);
  return canvas;
}

function hatching(pen) {
  const tile = document.createElement("canvas");
  tile.width = tile.height = 8;
  const inner = tile.getContext("2d");
  inner.fillStyle = "#e3e4e6";
  inner.fillRect(0, 0, 8, 8);
  inner.strokeStyle = "#8b9098";
  for (const shift of [-8, 0, 8]) { inner.moveTo(shift, 8); inner.lineTo(shift + 8, 0); }
  inner.stroke();
  return pen.createPattern(tile, "repeat");
}

/* The canvas in the size that it has on the screen, and a pen in CSS pixels. */
function fitted(canvas, high) {
  const ratio = window.devicePixelRatio || 1, wide = canvas.clientWidth;
  canvas.style.height = high + "px";
  [canvas.width, canvas.height] = [Math.round(wide * ratio), Math.round(high * ratio)];
  const pen = canvas.getContext("2d");
  pen.setTransform(ratio, 0, 0, ratio, 0, 0);
  pen.font = "12px system-ui, 'DejaVu Sans', sans-serif";
  return pen;
}

/* Multiples of a step of whole degrees from low to high, at least so many pixels apart. */
function degreesOf(low, high, pixels, apart) {
  const step = [1, 2, 5, 10, 15, 30, 45, 60, 90].find(step => step * pixels / (high - low) >= apart) || 180;
  const first = Math.ceil(low / step);
  return Array.from({ length: Math.floor(high / step) - first + 1 }, (_, i) => (first + i) * step);
}

function drawCoast(pen, frame, coast) {
  pen.beginPath();
  for (const turn of [-360, 0, 360]) {
    for (const line of coast) {
      pen.moveTo(frame.x(line[0] / 10 + turn), frame.y(line[1] / 10));
      for (let i = 2; i < line.length; i += 2) pen.lineTo(frame.x(line[i] / 10 + turn), frame.y(line[i + 1] / 10));
    }
  }
  pen.lineJoin = "round";
  /* dark around light: seen on every colour below it */
  for (const [style, width] of [["#0009", 2.4], ["#fffe", 1]]) { pen.strokeStyle = style; pen.lineWidth = width; pen.stroke(); }
}

function drawDegrees(pen, frame, ink) {
  const lons = degreesOf(frame.west, frame.east, frame.wide, 52), lats = degreesOf(frame.south, frame.north, frame.high, 34);
  const letter = (degrees, plus, minus) => Math.abs(degrees) + "°" + (degrees % 180 === 0 ? "" : degrees > 0 ? plus : minus);
  pen.strokeStyle = "#fff5"; pen.lineWidth = 1; pen.beginPath();
  for (const lon of lons) { pen.moveTo(frame.x(lon), frame.top); pen.lineTo(frame.x(lon), frame.top + frame.high); }
  for (const lat of lats) { pen.moveTo(frame.left, frame.y(lat)); pen.lineTo(frame.left + frame.wide, frame.y(lat)); }
  pen.stroke();
  pen.fillStyle = ink; pen.textAlign = "center"; pen.textBaseline = "top";
  for (const lon of lons) {
    const within = ((lon + 180) % 360 + 360) % 360 - 180;
    pen.fillText(letter(within, "E", "W"), frame.x(lon), frame.top + frame.high + 6);
  }
  pen.textAlign = "right"; pen.textBaseline = "middle";
  for (const lat of lats) pen.fillText(letter(lat, "N", "S"), frame.left - 6, frame.y(lat));
}

/* The nodes of an answer by their share, and the place itself. */
function drawPlace(pen, frame, place, nodes) {
  const disc = (lon, lat, radius, fill) => {
    for (const turn of [-360, 0, 360]) {
      pen.beginPath(); pen.arc(frame.x(lon + turn), frame.y(lat), radius, 0, 2 * Math.PI);
      pen.strokeStyle = "#000c"; pen.lineWidth = 1.2; if (fill) { pen.fillStyle = fill; pen.fill(); } pen.stroke();
    }
  };
  for (const node of nodes) disc(node.lon, node.lat, 2 + 4 * Math.sqrt(node.share), "#fffc");
  if (!place) return;
  const [x, y] = [frame.x(place.lon), frame.y(place.lat)];
  for (const [style, width] of [["#000c", 5], ["#ff5a1f", 2.4]]) {
    pen.strokeStyle = style; pen.lineWidth = width;
    pen.beginPath(); pen.arc(x, y, 9, 0, 2 * Math.PI);
    for (const [dx, dy] of [[1, 0], [-1, 0], [0, 1], [0, -1]]) {
      pen.moveTo(x + 9 * dx, y + 9 * dy);
      pen.lineTo(x + 16 * dx, y + 16 * dy);
    }
    pen.stroke();
  }
}

/* Draws within the frame of the map alone. */
function inside(pen, frame, work) {
  pen.save();
  pen.beginPath();
  pen.rect(frame.left, frame.top, frame.wide, frame.high);
  pen.clip();
  work();
  pen.restore();
}

/* Draws all of the map, and tells where it stands. */
function drawMap(canvas, map, range, coast, place, nodes, ink) {
  const tallest = Math.max(160, 0.72 * window.innerHeight), frame = new Frame(map, canvas.clientWidth, tallest);
  const pen = fitted(canvas, frame.top + frame.high + 26), box = [frame.left, frame.top, frame.wide, frame.high];
  const sharp = Math.min(window.devicePixelRatio || 1, 1600 / frame.wide);
  inside(pen, frame, () => {
    pen.fillStyle = hatching(pen);
    pen.fillRect(...box);
    pen.drawImage(picture(map, range, frame, Math.ceil(frame.wide * sharp), Math.ceil(frame.high * sharp)), ...box);
    drawCoast(pen, frame, coast);
  });
  drawDegrees(pen, frame, ink);
  inside(pen, frame, () => drawPlace(pen, frame, place, nodes));
  pen.strokeStyle = ink;
  pen.lineWidth = 1;
  pen.strokeRect(frame.left - 0.5, frame.top - 0.5, frame.wide + 1, frame.high + 1);
  return frame;
}

/* The colours with their numbers, below the map; a mark at the value that is told. */
function drawScale(canvas, frame, range, unit, value, ink) {
  const pen = fitted(canvas, 42);
  const at = thousandths => frame.left + (thousandths - range.low) / (range.high - range.low) * frame.wide;
  for (let i = 0; i < 256; i++) {
    pen.fillStyle = `rgb(${colour(i / 255)})`;
    pen.fillRect(frame.left + i / 256 * frame.wide, 8, frame.wide / 256 + 0.6, 13);
  }
  pen.fillStyle = ink; pen.textBaseline = "top";
  const ticks = Math.round((range.high - range.low) / range.step), digits = Math.max(0, -Math.floor(Math.log10(range.step / 1000)));
  for (let i = 0; i <= ticks; i++) {
    const tick = range.low + i * range.step;
    pen.fillRect(at(tick) - 0.5, 21, 1, 4);
    pen.textAlign = i === ticks ? "right" : "center";
    /* the last number has the unit beside it, and room for both */
    if (i === ticks) pen.fillText((tick / 1000).toFixed(digits) + " " + unit, at(tick) + 12, 27);
    else if (at(range.high) - at(tick) > 62) pen.fillText((tick / 1000).toFixed(digits), at(tick), 27);
  }
  if (value === undefined) return;
  pen.beginPath(); pen.moveTo(at(value), 9); pen.lineTo(at(value) - 6, 0); pen.lineTo(at(value) + 6, 0); pen.fill();
}
