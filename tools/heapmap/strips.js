'use strict';

const data = JSON.parse(document.getElementById('data').textContent);
const [LIVE, CACHE, STRUCTURE, TRAY, FAST, BIN, TOP] = data.kinds.keys();
const TICKS = 7, BAR = 40, AXIS = 18, LEAST = 3, SHOWN = 25, LISTED = 60;
const darkness = matchMedia('(prefers-color-scheme: dark)');
let printing = false, chosen = null;

const element = (name, content = '', attributes = {}) => {
  const made = document.createElement(name);
  made.textContent = content;
  for (const key in attributes) made.setAttribute(key, attributes[key]);
  return made;
};
const byId = (id) => document.getElementById(id);
const number = (n) => n.toLocaleString('en');
const hexadecimal = (n) => '0x' + n.toString(16).padStart(12, '0');
const bytesShort = (n) => {
  for (const [unit, word] of [[2 ** 30, 'GiB'], [2 ** 20, 'MiB'], [2 ** 10, 'KiB']]) {
    if (n >= unit) return +(n / unit).toFixed(2) + ' ' + word;
  }
  return n + ' B';
};

// ---- the chunks: of each strip where its entries begin in it, and at which addresses

function unpacked(strip) {
  const raw = atob(strip.packed);
  let at = 0;
  const next = () => {
    let value = 0, scale = 1;
    for (;;) {
      const byte = raw.charCodeAt(at++);
      value += (byte & 127) * scale;
      if (byte < 128) return value;
      scale *= 128;
    }
  };
  const n = strip.count;
  strip.offset = new Float64Array(n + 1);
  strip.address = new Float64Array(n);
  strip.kind = new Uint8Array(n);
  strip.thread = new Uint8Array(n);
  strip.label = new Uint32Array(n);
  let address = strip.start, offset = 0;
  for (let i = 0; i < n; i++) {
    address += next() * 16;
    strip.address[i] = address;
    strip.offset[i] = offset;
    const size = next() * 16, kind = raw.charCodeAt(at++);
    strip.kind[i] = kind;
    if (kind === LIVE || kind === CACHE || kind === STRUCTURE) strip.thread[i] = next();
    if (kind === LIVE || kind === TRAY || kind === FAST || kind === BIN) strip.label[i] = next();
    address += size;
    offset += size;
  }
  strip.offset[n] = offset;
  delete strip.packed;
}

const strips = data.strips;
let all = 0;
for (const strip of strips) {
  unpacked(strip);
  strip.first = all;
  all += strip.count;
  strip.from = 0;
  strip.to = strip.length;
}

const sizeOf = (strip, i) => strip.offset[i + 1] - strip.offset[i];
const isChunk = (strip, i) => strip.kind[i] < data.kinds.length - 2;

// The last index whose number is at most this one.
function indexAt(numbers, count, wanted) {
  let low = 0, high = count - 1;
  while (low < high) {
    const middle = (low + high + 1) >> 1;
    if (numbers[middle] <= wanted) low = middle; else high = middle - 1;
  }
  return low;
}

const firsts = strips.map((strip) => strip.first);

function stripOf(id) {
  const strip = strips[indexAt(firsts, firsts.length, id)];
  return [strip, id - strip.first];
}

function placeOf(strip, i) {
  const kind = strip.kind[i], word = data.kinds[kind];
  if (kind === LIVE) return `live ${strip.thread[i]} ${strip.label[i]}`;
  if (kind === CACHE || kind === STRUCTURE) return `${word} ${strip.thread[i]}`;
  if (kind === TRAY || kind === FAST || kind === BIN) return `${word} ${strip.label[i]}`;
  return word;
}

function meaning(strip, i) {
  const kind = strip.kind[i], thread = strip.thread[i], name = strip.label[i];
  return [`live, thread ${thread}, name ${name}`, `in the cache of thread ${thread}`,
    `the structure of thread ${thread}'s cache`, `in tray ${name}`, `free, in fast bin ${name}`,
    name === 1 ? 'free, in unsorted' : `free, in bin ${name}`, 'top', 'fence', 'header', 'lead'][kind];
}

const userOf = (strip, i) => strip.address[i] + (isChunk(strip, i) ? 16 : 0);

// ---- drawing

const colourName = (strip, i) => strip.kind[i] === LIVE ? 'live ' + strip.thread[i] : data.kinds[strip.kind[i]];
const colourNames = Object.keys(data.light);
const colourIndex = new Map(colourNames.map((name, i) => [name, i]));

function hatch(pen, ratio) {
  const tile = document.createElement('canvas');
  tile.width = tile.height = 6 * ratio;
  const fine = tile.getContext('2d');
  fine.strokeStyle = 'rgba(0,0,0,.5)';
  fine.lineWidth = ratio;
  fine.beginPath();
  for (const shift of [-6, 0, 6]) {
    fine.moveTo((shift - 1) * ratio, 7 * ratio);
    fine.lineTo((shift + 7) * ratio, -1 * ratio);
  }
  fine.stroke();
  return pen.createPattern(tile, 'repeat');
}

// What of each column of pixels is in which colour, and the chunks that are wide enough to be drawn each for itself.
function columnsOf(strip, width, scale, ratio) {
  const many = colourNames.length, columns = new Float32Array(width * many), wide = [];
  for (let i = indexAt(strip.offset, strip.count, strip.from); i < strip.count && strip.offset[i] < strip.to; i++) {
    const left = Math.max(0, (strip.offset[i] - strip.from) * scale);
    const right = Math.min(width, (strip.offset[i + 1] - strip.from) * scale);
    const colour = colourIndex.get(colourName(strip, i));
    for (let x = Math.floor(left); x < right; x++) {
      columns[x * many + colour] += Math.min(right, x + 1) - Math.max(left, x);
    }
    if (right - left >= 5 * ratio) wide.push([i, left, right]);
  }
  return [columns, wide];
}

// How high each share of a column is drawn: by its bytes, but none so low that nobody sees it.
function heights(shares, high, least) {
  const total = shares.reduce((sum, share) => sum + share, 0), few = Math.min(least, high / shares.length);
  const isLow = (share) => share / total * high < few;
  const rest = shares.reduce((sum, share) => sum + (isLow(share) ? 0 : share), 0);
  const left = high - few * shares.filter(isLow).length;
  return shares.map((share) => isLow(share) ? few : share / rest * left);
}

// Above each column in which live blocks are less than a tenth of the bytes, a tick.
function drawTicks(pen, columns, width, ratio, colours) {
  const many = colourNames.length;
  const live = colourNames.flatMap((name, c) => name.startsWith('live ') ? [c] : []);
  pen.fillStyle = colours.ink;
  for (let x = 0; x < width; x++) {
    const bytes = live.reduce((sum, c) => sum + columns[x * many + c], 0);
    if (bytes > 0 && bytes < 0.1) pen.fillRect(x, 0, ratio, (TICKS - 2) * ratio);
  }
}

// A column in which several colours have bytes is divided by height, so that no chunk is lost however many there are.
function drawColumns(pen, columns, width, bar, ratio, colours) {
  const many = colourNames.length;
  for (let x = 0; x < width;) {
    const present = [];
    for (let c = 0; c < many; c++) if (columns[x * many + c] > 0) present.push(c);
    const parts = heights(present.map((c) => columns[x * many + c]), bar, LEAST * ratio);
    let end = x + 1, y = 0;
    if (present.length === 1) {
      while (end < width && columns[end * many + present[0]] > 0.999) end++;
    }
    present.forEach((c, i) => {
      pen.fillStyle = colours[colourNames[c]];
      pen.fillRect(x, y, end - x, parts[i]);
      y += parts[i];
    });
    x = end;
  }
}

// Draws what of the strip is in view.
function draw(strip) {
  const canvas = strip.canvas, ratio = printing ? 2 : window.devicePixelRatio || 1;
  const width = Math.max(1, Math.round(canvas.clientWidth * ratio)), bar = BAR * ratio;
  canvas.width = width;
  canvas.height = (TICKS + BAR + AXIS) * ratio;
  const pen = canvas.getContext('2d');
  const colours = darkness.matches && !printing ? data.dark : data.light;
  const scale = width / (strip.to - strip.from);
  const [columns, wide] = columnsOf(strip, width, scale, ratio);
  drawTicks(pen, columns, width, ratio, colours);
  pen.translate(0, TICKS * ratio);
  drawColumns(pen, columns, width, bar, ratio, colours);
  drawWide(pen, strip, wide, bar, ratio, colours);
  drawChosen(pen, strip, scale, width, bar, ratio, colours);
  pen.strokeStyle = colours.soft;
  pen.lineWidth = ratio;
  pen.strokeRect(ratio / 2, ratio / 2, width - ratio, bar - ratio);
  drawAxis(pen, strip, scale, width, bar, ratio, colours);
}

// Borders, hatching and words of the chunks that are wide enough for them.
function drawWide(pen, strip, wide, bar, ratio, colours) {
  const pattern = hatch(pen, ratio);
  pen.font = `${11 * ratio}px sans-serif`;
  pen.textBaseline = 'middle';
  for (const [i, left, right] of wide) {
    const kind = strip.kind[i];
    if (kind === BIN || kind === FAST) {
      pen.fillStyle = pattern;
      pen.fillRect(left, 0, right - left, bar);
    }
    pen.fillStyle = colours.ground;
    if (left > 0) pen.fillRect(Math.round(left), 0, ratio, bar);
    const words = `${placeOf(strip, i)} · ${number(sizeOf(strip, i))}`;
    const need = pen.measureText(words).width;
    if (need + 12 * ratio < right - left) {
      const middle = (left + right) / 2;
      pen.fillStyle = colours[colourName(strip, i)];
      pen.fillRect(middle - need / 2 - 4 * ratio, bar / 2 - 9 * ratio, need + 8 * ratio, 18 * ratio);
      pen.fillStyle = inkOn(colours[colourName(strip, i)]);
      pen.fillText(words, middle - need / 2, bar / 2);
    }
  }
}

function inkOn(colour) {
  const [red, green, blue] = [1, 3, 5].map((at) => parseInt(colour.slice(at, at + 2), 16));
  return 0.299 * red + 0.587 * green + 0.114 * blue > 118 ? '#000000' : '#ffffff';
}

function drawChosen(pen, strip, scale, width, bar, ratio, colours) {
  if (chosen === null || chosen < strip.first || chosen >= strip.first + strip.count) return;
  const i = chosen - strip.first;
  const left = (strip.offset[i] - strip.from) * scale, right = (strip.offset[i + 1] - strip.from) * scale;
  if (right < 0 || left > width) return;
  const middle = Math.min(width - 3 * ratio, Math.max(3 * ratio, (left + right) / 2));
  pen.lineWidth = 2 * ratio;
  pen.strokeStyle = colours.ground;
  pen.strokeRect(left - ratio, 2 * ratio, Math.max(right - left, ratio) + 2 * ratio, bar - 4 * ratio);
  pen.strokeStyle = colours.ink;
  pen.strokeRect(left, ratio, Math.max(right - left, ratio), bar - 2 * ratio);
  pen.fillStyle = colours.ink;
  pen.beginPath();
  pen.moveTo(middle, bar);
  pen.lineTo(middle - 5 * ratio, bar + 7 * ratio);
  pen.lineTo(middle + 5 * ratio, bar + 7 * ratio);
  pen.fill();
}

// An offset so that two ticks differ.
function offsetShort(at, step) {
  const unit = [2 ** 30, 2 ** 20, 2 ** 10, 1].find((bytes) => at >= bytes) || 1;
  return step < unit / 64 ? number(at) + ' B' : bytesShort(at);
}

// Round offsets from the strip's start.
function drawAxis(pen, strip, scale, width, bar, ratio, colours) {
  let step = 16;
  while (step * scale < 110 * ratio) step *= 2;
  pen.fillStyle = colours.soft;
  pen.font = `${11 * ratio}px sans-serif`;
  pen.textBaseline = 'alphabetic';
  for (let at = Math.ceil(strip.from / step) * step; at <= strip.to; at += step) {
    const x = (at - strip.from) * scale;
    pen.fillRect(Math.min(x, width - ratio), bar, ratio, 4 * ratio);
    const words = '+' + offsetShort(at, step);
    const need = pen.measureText(words).width;
    if (x + need + 5 * ratio < width) pen.fillText(words, x + 3 * ratio, bar + 14 * ratio);
  }
}

// ---- choosing and zooming

function show(strip, from, to) {
  const least = Math.min(64, strip.length);
  const length = Math.min(strip.length, Math.max(least, to - from));
  strip.from = Math.min(Math.max(0, from), strip.length - length);
  strip.to = strip.from + length;
  strip.whole.disabled = strip.out.disabled = length === strip.length;
  draw(strip);
}

function zoom(strip, factor, around) {
  const length = (strip.to - strip.from) * factor;
  const share = (around - strip.from) / (strip.to - strip.from);
  show(strip, around - share * length, around - share * length + length);
}

function centre(strip) {
  const i = chosen - strip.first;
  if (chosen === null || i < 0 || i >= strip.count) return (strip.from + strip.to) / 2;
  return Math.min(strip.to, Math.max(strip.from, (strip.offset[i] + strip.offset[i + 1]) / 2));
}

function describe(strip, i) {
  const what = isChunk(strip, i) ? 'a chunk of' : 'with';
  return [hexadecimal(userOf(strip, i)), `${what} ${number(sizeOf(strip, i))} bytes: ${meaning(strip, i)}`,
    strip.name === 'mapped chunks' ? 'in a mapping of its own' : `in ${strip.name}`];
}

function choose(id, reveal) {
  const before = chosen;
  chosen = id;
  const [strip, i] = stripOf(id);
  const [address, what, where] = describe(strip, i);
  byId('chosen').replaceChildren(element('b', address), ' ' + what + ', ' + where);
  if (before !== null && stripOf(before)[0] !== strip) draw(stripOf(before)[0]);
  const left = strip.offset[i], right = strip.offset[i + 1];
  const pixels = (right - left) / (strip.to - strip.from) * strip.canvas.clientWidth;
  if (reveal && pixels < 4) {
    const length = Math.max(64, (right - left) * 40);
    show(strip, (left + right - length) / 2, (left + right + length) / 2);
  } else if (left < strip.from || right > strip.to) {
    const length = Math.max(strip.to - strip.from, right - left);
    show(strip, (left + right - length) / 2, (left + right + length) / 2);
  } else {
    draw(strip);
  }
}

// Chosen in a table or a list: its strip comes into sight too.
function goTo(id) {
  const strip = stripOf(id)[0];
  unfold(strip);
  choose(id, true);
  strip.canvas.focus({preventScroll: true});
  strip.canvas.scrollIntoView({block: 'center'});
}

function unfold(strip) {
  const folded = strip.canvas.closest('details');
  if (folded) folded.open = true;
}

const isLive = (strip, i) => strip.kind[i] === LIVE || strip.kind[i] === TRAY;
const isHole = (strip, i) => strip.kind[i] === BIN || strip.kind[i] === FAST;

// The next chunk of that kind behind the chosen one, or before it, in this strip or in one further on.
function seek(strip, by, isWanted) {
  let here = chosen !== null && stripOf(chosen)[0] === strip ? chosen - strip.first : null;
  if (here === null) here = by > 0 ? indexAt(strip.offset, strip.count, strip.from) - 1 : strip.count;
  for (let at = strips.indexOf(strip); at >= 0 && at < strips.length; at += by) {
    const there = strips[at];
    if (there !== strip) here = by > 0 ? -1 : there.count;
    for (let i = here + by; i >= 0 && i < there.count; i += by) {
      if (!isWanted(there, i)) continue;
      if (there === strip) choose(strip.first + i, true); else goTo(there.first + i);
      return;
    }
  }
}

function offsetAt(strip, event) {
  const box = strip.canvas.getBoundingClientRect();
  const share = Math.min(1, Math.max(0, (event.clientX - box.left) / box.width));
  return Math.min(strip.length - 1, strip.from + share * (strip.to - strip.from));
}

function point(strip, event) {
  const i = indexAt(strip.offset, strip.count, offsetAt(strip, event));
  const tip = byId('tip');
  const [address, what, where] = describe(strip, i);
  const one = (strip.to - strip.from) / strip.canvas.clientWidth;
  const under = offsetAt(strip, event);
  const [last, first] = [under + one / 2, under - one / 2].map((at) => indexAt(strip.offset, strip.count, at));
  const others = last - first > 1 ? `\n(about ${number(last - first)} chunks in this pixel)` : '';
  tip.textContent = `${address}\n${what}\n${where}${others}`;
  tip.hidden = false;
  const box = tip.getBoundingClientRect();
  const left = Math.max(4, Math.min(event.clientX + 14, innerWidth - box.width - 8));
  const below = event.clientY + 18, above = event.clientY - box.height - 10;
  tip.style.transform = `translate(${left}px,${below + box.height < innerHeight ? below : above}px)`;
}

function press(strip, event) {
  const start = event.clientX, from = offsetAt(strip, event);
  strip.canvas.focus({preventScroll: true});
  strip.canvas.setPointerCapture(event.pointerId);
  const move = (now) => {
    if (Math.abs(now.clientX - start) < 4) return;
    draw(strip);
    const box = strip.canvas.getBoundingClientRect(), ratio = strip.canvas.width / box.width;
    const pen = strip.canvas.getContext('2d');
    pen.fillStyle = 'rgba(128,128,128,.55)';
    const left = Math.min(start, now.clientX) - box.left, width = Math.abs(now.clientX - start);
    pen.fillRect(left * ratio, 0, width * ratio, BAR * ratio);      // behind the ticks, where draw left the pen
  };
  const end = (now) => {
    strip.canvas.removeEventListener('pointermove', move);
    strip.canvas.removeEventListener('pointerup', end);
    strip.canvas.removeEventListener('pointercancel', end);
    if (now.type === 'pointercancel') return draw(strip);
    const to = offsetAt(strip, now);
    if (Math.abs(now.clientX - start) >= 4) show(strip, Math.min(from, to), Math.max(from, to));
    else choose(strip.first + indexAt(strip.offset, strip.count, from), false);
  };
  strip.canvas.addEventListener('pointermove', move);
  strip.canvas.addEventListener('pointerup', end);
  strip.canvas.addEventListener('pointercancel', end);
}

function key(strip, event) {
  if (event.ctrlKey || event.metaKey || event.altKey) return;
  const here = chosen !== null && stripOf(chosen)[0] === strip ? chosen - strip.first : null;
  const step = (by) => {
    const start = indexAt(strip.offset, strip.count, by > 0 ? strip.from : strip.to - 1);
    choose(strip.first + Math.min(strip.count - 1, Math.max(0, here === null ? start : here + by)), false);
  };
  const length = strip.to - strip.from;
  const moves = {
    ArrowRight: () => step(1), ArrowLeft: () => step(-1),
    n: () => seek(strip, 1, isLive), p: () => seek(strip, -1, isLive),
    h: () => seek(strip, 1, isHole), g: () => seek(strip, -1, isHole),
    Home: () => choose(strip.first, false), End: () => choose(strip.first + strip.count - 1, false),
    PageUp: () => show(strip, strip.from - length * 0.8, strip.to - length * 0.8),
    PageDown: () => show(strip, strip.from + length * 0.8, strip.to + length * 0.8),
    '+': () => zoom(strip, 0.5, centre(strip)), '=': () => zoom(strip, 0.5, centre(strip)),
    '-': () => zoom(strip, 2, centre(strip)), Escape: () => show(strip, 0, strip.length),
  };
  if (!moves[event.key]) return;
  event.preventDefault();
  moves[event.key]();
}

function setUp(strip, figure) {
  const canvas = strip.canvas = element('canvas', '', {tabindex: 0, role: 'img', 'aria-describedby': 'chosen',
    'aria-label': `${strip.name}, ${strip.length} bytes. Arrow keys go from chunk to chunk, n to the next live block, h to the next hole, plus and minus zoom.`});
  figure.append(canvas);
  const tools = figure.querySelector('.tools');
  const button = (sign, label, action) => {
    const made = element('button', sign, {type: 'button', 'aria-label': `${label}: ${strip.name}`, title: label});
    made.addEventListener('click', action);
    tools.append(made);
    return made;
  };
  button('next live', 'next live block', () => seek(strip, 1, isLive));
  button('next hole', 'next hole', () => seek(strip, 1, isHole));
  button('+', 'zoom in', () => zoom(strip, 0.5, centre(strip)));
  strip.out = button('−', 'zoom out', () => zoom(strip, 2, centre(strip)));
  strip.whole = button('whole', 'show the whole strip', () => show(strip, 0, strip.length));
  strip.out.disabled = strip.whole.disabled = true;
  canvas.addEventListener('pointermove', (event) => point(strip, event));
  canvas.addEventListener('pointerleave', () => { byId('tip').hidden = true; });
  canvas.addEventListener('pointerdown', (event) => { if (event.button === 0) press(strip, event); });
  canvas.addEventListener('dblclick', () => show(strip, 0, strip.length));
  canvas.addEventListener('keydown', (event) => key(strip, event));
  canvas.addEventListener('wheel', (event) => {
    if (document.activeElement !== canvas && !event.ctrlKey) return;
    event.preventDefault();
    zoom(strip, event.deltaY < 0 ? 0.8 : 1.25, offsetAt(strip, event));
  }, {passive: false});
}

document.querySelectorAll('.strip').forEach((figure, i) => setUp(strips[i], figure));
const near = new Set();
const watcher = new IntersectionObserver((seen) => {
  for (const {target, isIntersecting} of seen) {
    const strip = strips.find((s) => s.canvas === target);
    if (isIntersecting) { near.add(strip); draw(strip); } else near.delete(strip);
  }
}, {rootMargin: '200px'});
strips.forEach((strip) => watcher.observe(strip.canvas));
const redraw = () => near.forEach(draw);
addEventListener('resize', redraw);
darkness.addEventListener('change', redraw);
addEventListener('beforeprint', () => { printing = true; strips.forEach(draw); });
addEventListener('afterprint', () => { printing = false; strips.forEach(draw); });
function setScale() {
  const longest = strips.reduce((most, s) => Math.max(most, s.length), 1);
  for (const strip of strips) {
    strip.canvas.style.width = byId('onescale').checked ? `max(6px, ${strip.length / longest * 100}%)` : '';
  }
  redraw();
}
byId('onescale').addEventListener('change', setScale);
setScale();
document.addEventListener('click', (event) => {
  const link = event.target.closest('[data-go]');
  if (link) goTo(+link.dataset.go);
});
