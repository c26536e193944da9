/* The map of the page: tiles, patterns, regions, nets, and the legend. */

const MARGIN = 2;           // tiles around what is zoomed to
const FEWEST = 3;           // tiles across the map at the closest
const SEEN = 3;             // pixels a tile from which patterns are drawn
// Colours: from no use to all of the capacity, then the grades of overflow.
const LIGHT = { full: [[247, 251, 255], [171, 208, 230], [55, 135, 192], [27, 83, 151]], none: [217, 217, 217],
  over: [[253, 184, 99], [230, 97, 1], [127, 29, 11]], ink: "#000000", paper: "#ffffff" };
const DARK = { full: [[22, 30, 40], [28, 62, 96], [48, 108, 160], [110, 176, 226]], none: [60, 60, 60],
  over: [[255, 205, 120], [240, 120, 20], [176, 36, 10]], ink: "#ffffff", paper: "#000000" };
const WIRES = ["#1b9e77", "#d01c8b", "#7570b3", "#e6ab02", "#66a61e", "#00bcd4", "#a6761d", "#ff5252"];
const DASHES = [[], [9, 4], [3, 3], [12, 3, 3, 3]];

const boxWords = (low, high) => {
  const at = (side, value) => +(data.corner[side] + value * data.step[side]).toFixed(4);
  return `(${at(0, low[0])}, ${at(1, low[1])}) - (${at(0, high[0] + 1)}, ${at(1, high[1] + 1)})`;
};

class Picture {
  constructor(canvas) {
    this.canvas = canvas;
    this.pen = canvas.getContext("2d");
    this.image = document.createElement("canvas");
    this.image.width = data.columns;
    this.image.height = data.rows;
    const most = Math.max(...data.step);
    this.aspect = data.step.map((step) => step / most);
    this.made = null;       // what the image was made of
    this.isDue = false;
    this.dark = matchMedia("(prefers-color-scheme: dark)");
    this.dark.addEventListener("change", () => this.draw());
    new ResizeObserver(() => this.draw()).observe(canvas);
  }

  get colours() {
    return this.dark.matches ? DARK : LIGHT;
  }

  draw() {
    if (this.isDue) return;
    this.isDue = true;
    requestAnimationFrame(() => {
      this.isDue = false;
      this.paint();
      document.documentElement.dataset.picture ??= performance.now().toFixed(0);
    });
  }

  // The middle of the view, in tiles, and pixels a tile.
  get view() {
    if (shown.view) return shown.view;
    const scale = Math.min(this.wide / (data.columns * this.aspect[0]), this.high / (data.rows * this.aspect[1]));
    return [data.columns / 2, data.rows / 2, scale * 0.98];
  }

  get wide() {
    return this.canvas.clientWidth;
  }

  get high() {
    return this.canvas.clientHeight;
  }

  // Where a point in tiles lies on the canvas, and back.
  toScreen(x, y) {
    const [middle, level, scale] = this.view;
    return [this.wide / 2 + (x - middle) * scale * this.aspect[0],
      this.high / 2 - (y - level) * scale * this.aspect[1]];
  }

  toTiles(left, top) {
    const [middle, level, scale] = this.view;
    return [middle + (left - this.wide / 2) / (scale * this.aspect[0]),
      level - (top - this.high / 2) / (scale * this.aspect[1])];
  }

  // The view of tiles from one to another.
  viewOf(low, high) {
    const wide = (high[0] - low[0] + 1 + 2 * MARGIN) * this.aspect[0];
    const tall = (high[1] - low[1] + 1 + 2 * MARGIN) * this.aspect[1];
    return [(low[0] + high[0] + 1) / 2, (low[1] + high[1] + 1) / 2, Math.min(this.wide / wide, this.high / tall)];
  }

  zoom(factor, left = this.wide / 2, top = this.high / 2) {
    const [x, y] = this.toTiles(left, top), [middle, level, scale] = this.view;
    const least = 0.5 * Math.min(this.wide / data.columns, this.high / data.rows);
    const now = Math.max(least, Math.min(this.wide / FEWEST, scale * factor));
    go({ view: [x + (middle - x) * scale / now, y + (level - y) * scale / now, now] }, false);
  }

  chosen() {
    return data.planes.filter((plane) => (!shown.layer || plane.layer === shown.layer - 1)
      && (shown.way === null || plane.way === shown.way));
  }

  // What is coloured: the planes as they are, or for each direction their sum.
  coloured() {
    if (!shown.isSummed) return this.chosen();
    return [0, 1].map((way) => {
      const planes = this.chosen().filter((plane) => plane.way === way), count = data.columns * data.rows;
      const sum = (key) => planes.reduce((total, plane) => total.map((value, at) => value + plane[key][at]),
        new Float64Array(count));
      return { way, demand: sum("demand"), capacity: sum("capacity") };
    });
  }

  // Of each tile: the greatest use of a wire edge (-1 where none has capacity), the greatest overflow, and that at
  // capacity 0.
  compute() {
    const { columns, rows } = data, count = columns * rows;
    const full = new Float32Array(count).fill(-1), over = new Uint32Array(count), closed = new Uint32Array(count);
    for (const { way, demand, capacity } of this.coloured()) {
      const step = way ? columns : 1, lastColumn = columns - (way ? 0 : 1), lastRow = rows - (way ? 1 : 0);
      for (let row = 0; row < lastRow; row++) {
        for (let at = row * columns; at < row * columns + lastColumn; at++) {
          const excess = demand[at] - capacity[at], other = at + step;
          if (capacity[at]) {
            const use = demand[at] / capacity[at];
            if (use > full[at]) full[at] = use;
            if (use > full[other]) full[other] = use;
            if (excess > over[at]) over[at] = excess;
            if (excess > over[other]) over[other] = excess;
          } else if (excess > 0) {
            if (excess > closed[at]) closed[at] = excess;
            if (excess > closed[other]) closed[other] = excess;
          }
        }
      }
    }
    Object.assign(this, { full, over, closed });
  }

  paintTiles() {
    const { columns, rows } = data, { full: ramp, none, over: grades } = this.colours;
    this.compute();
    const pixels = new ImageData(columns, rows);
    for (let row = 0, at = 0; row < rows; row++) {
      for (let column = 0; column < columns; column++, at++) {
        const grade = gradeOf(this.over[at]);
        const colour = grade >= 0 ? grades[grade] : this.full[at] < 0 ? none : blend(ramp, this.full[at]);
        pixels.data.set([...colour, 255], 4 * ((rows - 1 - row) * columns + column));
      }
    }
    this.image.getContext("2d").putImageData(pixels, 0, 0);
  }

  paint() {
    const { canvas, pen } = this, ratio = devicePixelRatio || 1;
    const made = `${shown.layer} ${shown.way} ${shown.isSummed} ${this.dark.matches}`;
    if (this.made !== made) {
      this.paintTiles();
      paintLegend(this.colours);
      this.made = made;
    }
    canvas.width = Math.round(this.wide * ratio);
    canvas.height = Math.round(this.high * ratio);
    pen.scale(ratio, ratio);
    const [left, top] = this.toScreen(0, data.rows), [right, low] = this.toScreen(data.columns, 0);
    const scale = this.view[2];
    pen.imageSmoothingEnabled = scale < 1;
    pen.drawImage(this.image, left, top, right - left, low - top);
    if (scale >= SEEN) this.paintPatterns();
    this.paintRegions();
    if (shown.wall) this.paintWall(data.walls[shown.wall - 1]);
    if (shown.net >= 0) this.paintNet(shown.net);
    if (shown.at) this.paintCursor();
  }

  paintPatterns() {
    const [x0, y1] = this.toTiles(0, 0), [x1, y0] = this.toTiles(this.wide, this.high);
    const paths = data.grades.map(() => new Path2D()), shut = new Path2D();
    for (let row = Math.max(0, Math.floor(y0)); row < Math.min(data.rows, y1); row++) {
      for (let column = Math.max(0, Math.floor(x0)); column < Math.min(data.columns, x1); column++) {
        const at = row * data.columns + column;
        if (!this.over[at] && !this.closed[at]) continue;
        const [left, top] = this.toScreen(column, row + 1), [right, low] = this.toScreen(column + 1, row);
        if (this.over[at]) paths[gradeOf(this.over[at])].rect(left, top, right - left, low - top);
        if (this.closed[at]) shut.rect(left, top, right - left, low - top);
      }
    }
    paths.forEach((path, grade) => this.fillWith(path, patternOf(this.pen, grade, LIGHT.ink)));
    this.fillWith(shut, patternOf(this.pen, "closed", this.colours.ink));
  }

  fillWith(path, pattern) {
    this.pen.fillStyle = pattern;
    this.pen.fill(path);
  }

  paintRegions() {
    const { pen } = this, { ink, paper } = this.colours;
    pen.font = "bold 12px system-ui, sans-serif";
    data.regions.forEach((region, at) => {
      const [left, top] = this.toScreen(region.low[0], region.high[1] + 1);
      const [right, low] = this.toScreen(region.high[0] + 1, region.low[1]);
      const wide = shown.region === at + 1 ? 3 : 1;
      for (const [more, colour] of [[2, paper], [0, ink]]) {
        pen.strokeStyle = colour;
        pen.lineWidth = wide + more;
        pen.strokeRect(left, top, right - left, low - top);
      }
      const text = String(at + 1);
      pen.fillStyle = paper;
      pen.fillRect(left + 1, top + 1, pen.measureText(text).width + 4, 14);
      pen.fillStyle = ink;
      pen.fillText(text, left + 3, top + 12);
    });
  }

  paintWall(wall) {
    const { pen } = this, [low, high] = endsOf(wall), { ink, paper } = this.colours;
    const [left, top] = this.toScreen(low[0], high[1]), [right, bottom] = this.toScreen(high[0], low[1]);
    const dashes = wall.needs > wall.holds ? "#e66101" : paper;
    for (const [wide, colour, dash] of [[6, paper, []], [3, ink, []], [3, dashes, [8, 6]]]) {
      pen.lineWidth = wide;
      pen.strokeStyle = colour;
      pen.setLineDash(dash);
      pen.strokeRect(left, top, right - left, bottom - top);
    }
    pen.setLineDash([]);
  }

  middle(cell) {
    const { columns, rows } = data;
    return this.toScreen(cell % columns + 0.5, Math.floor(cell / columns) % rows + 0.5);
  }

  paintNet(net) {
    const { pen } = this, vias = [];
    pen.lineCap = "round";
    for (const [from, to, layer, isVia] of runsOf(net)) {
      if (isVia) {
        vias.push(from);
        continue;
      }
      // A line of ink below, so that the colour stands out everywhere.
      const { ink, paper } = this.colours;
      for (const [wide, colour, dash] of [[7, ink, []], [5, paper, []], [5, ...wireOf(layer)]]) {
        pen.lineWidth = wide;
        pen.strokeStyle = colour;
        pen.setLineDash(dash);
        pen.beginPath();
        pen.moveTo(...this.middle(from));
        pen.lineTo(...this.middle(to));
        pen.stroke();
      }
    }
    pen.setLineDash([]);
    vias.forEach((cell) => this.mark(cell, "via"));
    for (let at = data.pinsFrom[net + 1]; at-- > data.pinsFrom[net];) {
      this.mark(data.pinValues[at], at === data.pinsFrom[net] ? "driver" : "sink");
    }
    if (!data.hasTimes) return;
    for (let at = data.buffersFrom[net]; at < data.buffersFrom[net + 1]; at++) {
      this.mark(data.bufferValues[at], "buffer");
    }
  }

  mark(cell, kind) {
    const [x, y] = this.middle(cell);
    drawMark(this.pen, x, y, kind, this.colours);
  }

  paintCursor() {
    const [i, j] = shown.at, { pen } = this;
    const [left, top] = this.toScreen(i / 2 + (i % 2 ? 0.3 : 0.05), j / 2 + (j % 2 ? 0.7 : 0.95));
    const [right, low] = this.toScreen(i / 2 + (i % 2 ? 0.7 : 0.95), j / 2 + (j % 2 ? 0.3 : 0.05));
    for (const [wide, colour] of [[5, this.colours.paper], [2, this.colours.ink]]) {
      pen.lineWidth = wide;
      pen.strokeStyle = colour;
      pen.strokeRect(left, top, right - left, low - top);
    }
  }
}

// The corners of a wall, in tiles: of a straight one both lie on the line that it goes along.
function endsOf({ kind, numbers: [first, ...others] }) {
  if (kind === "column") return [[first + 1, 0], [first + 1, data.rows]];
  if (kind === "row") return [[0, first + 1], [data.columns, first + 1]];
  return [[first, others[0]], [others[1] + 1, others[2] + 1]];
}

// The colour and the dashes of a layer's wires.
const wireOf = (layer) => [WIRES[layer % WIRES.length],
  DASHES[(layer + Math.floor(layer / WIRES.length)) % DASHES.length]];

// The grade of an overflow, or -1.
const gradeOf = (over) => data.grades.findLastIndex(([least]) => over >= least);

function blend(ramp, share) {
  const place = Math.min(1, share) * (ramp.length - 1), at = Math.min(ramp.length - 2, Math.floor(place));
  return ramp[at].map((value, side) => Math.round(value + (ramp[at + 1][side] - value) * (place - at)));
}

const patterns = new Map();

// Dots, bars and a grid for the grades of overflow, slanted strokes for overflow at capacity 0.
function patternOf(pen, kind, ink) {
  const key = `${kind} ${ink}`;
  if (!patterns.has(key)) {
    const tile = document.createElement("canvas"), marks = tile.getContext("2d");
    tile.width = tile.height = 8;
    marks.fillStyle = marks.strokeStyle = ink;
    marks.globalAlpha = 0.5;
    if (kind === 0) marks.fillRect(3, 3, 2, 2);
    if (kind === 1) marks.fillRect(0, 3, 8, 1);
    if (kind === 2) {
      marks.fillRect(0, 3, 8, 1);
      marks.fillRect(3, 0, 1, 8);
    }
    if (kind === "closed") {
      marks.globalAlpha = 0.8;
      marks.beginPath();
      for (const shift of [-8, 0, 8]) {
        marks.moveTo(shift - 1, 9);
        marks.lineTo(shift + 9, -1);
      }
      marks.stroke();
    }
    patterns.set(key, pen.createPattern(tile, "repeat"));
  }
  return patterns.get(key);
}

function drawMark(pen, x, y, kind, { ink, paper }) {
  const shapes = { via: [[3, 0], [0, 3], [-3, 0], [0, -3]], sink: [[5, 5], [-5, 5], [-5, -5], [5, -5]],
    driver: [[8, 0], [0, 8], [-8, 0], [0, -8]], buffer: [[0, -8], [7, 6], [-7, 6]] };
  pen.beginPath();
  for (const [right, down] of shapes[kind]) pen.lineTo(x + right, y + down);
  pen.closePath();
  pen.fillStyle = kind === "buffer" ? paper : ink;
  pen.strokeStyle = kind === "buffer" ? ink : paper;
  pen.lineWidth = kind === "buffer" ? 2 : 1;
  pen.fill();
  pen.stroke();
}

// Of each run of a net: its first and last cell, its layer, and whether it is a via.
function* runsOf(net) {
  const { columns, rows, layers } = data, area = columns * rows;
  for (let at = data.runsFrom[net]; at < data.runsFrom[net + 1]; at++) {
    const first = data.runFirst[at], length = data.runLength[at];
    if (data.runWay[at] === 0) {
      yield [first, first + length, Math.floor(first / area), false];
    } else if (data.runWay[at] === 1) {
      const cell = (way) => (Math.floor(way / area) * rows + way % rows) * columns + Math.floor(way / rows) % columns;
      yield [cell(first), cell(first + length), Math.floor(first / area), false];
    } else {
      const cell = first % layers.length * area + Math.floor(first / layers.length);
      yield [cell, cell + length * area, first % layers.length, true];
    }
  }
}

function paintLegend(colours) {
  const items = [["0 %", (pen) => fillAll(pen, `rgb(${colours.full[0]})`)],
    ["100 % of capacity", (pen) => fillAll(pen, `rgb(${colours.full.at(-1)})`)],
    ...data.grades.map(([, words], grade) => [`overflow ${words}`, (pen) => {
      fillAll(pen, `rgb(${colours.over[grade]})`);
      fillAll(pen, patternOf(pen, grade, LIGHT.ink));
    }]),
    ["overflow at capacity 0", (pen) => {
      fillAll(pen, `rgb(${colours.none})`);
      fillAll(pen, patternOf(pen, "closed", colours.ink));
    }],
    ["no wires", (pen) => fillAll(pen, `rgb(${colours.none})`)],
    ...[...data.layers.keys()].filter(hasWires).map((layer) => [`wire on ${layerWords(layer)}`, (pen) => {
      const [colour, dash] = wireOf(layer);
      pen.lineWidth = 5;
      pen.strokeStyle = colour;
      pen.setLineDash(dash);
      pen.beginPath();
      pen.moveTo(0, 7);
      pen.lineTo(26, 7);
      pen.stroke();
    }]),
    ...["driver", "sink", "via", ...(data.hasTimes ? ["buffer"] : [])].map((kind) => [kind,
      (pen) => drawMark(pen, 13, 7, kind, colours)])];
  byId("legend").replaceChildren(...items.map(([words, paint]) => {
    const item = document.createElement("li"), sample = document.createElement("canvas");
    sample.width = 26;
    sample.height = 13;
    sample.setAttribute("aria-hidden", "true");
    paint(sample.getContext("2d"));
    item.append(sample, words);
    return item;
  }));
}

function fillAll(pen, style) {
  pen.fillStyle = style;
  pen.fillRect(0, 0, 26, 13);
}

const layerWords = (layer) => data.unit === "microns" ? data.layers[layer] : `layer ${data.layers[layer]}`;
const hasWires = (layer) => data.planes.some((plane) => plane.layer === layer);

