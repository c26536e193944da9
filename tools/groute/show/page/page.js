/* The data of the page, what is shown of it, and what one does. */

const byId = (id) => document.getElementById(id);
const TYPES = { u1: Uint8Array, u2: Uint16Array, u4: Uint32Array, f8: Float64Array };
const CLEAR = 16;           // pixels a tile from which edges can be pointed at
const number = (value) => value.toLocaleString("en-US");
const fixed = (value, digits) => value.toLocaleString("en-US",
  { minimumFractionDigits: digits, maximumFractionDigits: digits });

/* The data. */

async function unpacked() {
  const text = atob(byId("data").content.textContent);
  const bytes = new Uint8Array(text.length);
  for (let at = 0; at < text.length; at++) bytes[at] = text.charCodeAt(at);
  const stream = new Blob([bytes]).stream().pipeThrough(new DecompressionStream("deflate"));
  const buffer = await new Response(stream).arrayBuffer();
  const length = new DataView(buffer).getUint32(0, true);
  const found = JSON.parse(new TextDecoder().decode(new Uint8Array(buffer, 4, length)));
  for (const [name, [type, at, count]] of Object.entries(found.arrays)) {
    found[name] = new TYPES[type](buffer, 4 + length + at, count);
  }
  byId("data").remove();
  found.planes = found.planes.map(([layer, way], at) => ({ layer, way, demand: found[`demand${at}`],
    capacity: found[`capacity${at}`] }));
  found.names = found.names.length ? new TextDecoder().decode(found.names).split("\n") : [];
  for (const name of ["pins", "runs", "buffers"]) if (found[name]) found[`${name}From`] = begins(found[name]);
  return found;
}

// Where each list begins in the values of all.
function begins(counts) {
  const found = new Uint32Array(counts.length + 1);
  for (let at = 0; at < counts.length; at++) found[at + 1] = found[at] + counts[at];
  return found;
}

/* What is shown, and its words in the address: layer from 1 or 0 for all, way 0, 1 or null, region from 1 or 0, a net's
   number or -1, a wall from 1 or 0, the nets that are listed, whether colours are of sums over layers, the place that
   the keys have come to, and the view. */

const shown = { layer: 0, way: null, region: 0, net: -1, wall: 0, use: "", isSummed: false, at: null, view: null,
  missing: "" };
let data, picture, layersTable, regionsTable, wallsTable, netsTable;

function toAddress() {
  const words = new URLSearchParams();
  if (shown.layer) words.set("layer", shown.layer);
  if (shown.way !== null) words.set("way", "hv"[shown.way]);
  if (shown.region) words.set("region", shown.region);
  if (shown.net >= 0) words.set("net", data.names[shown.net]);
  if (shown.wall) words.set("wall", shown.wall);
  if (shown.use) words.set("nets", shown.use);
  if (shown.isSummed) words.set("colours", "sum");
  if (shown.view) words.set("view", shown.view.join(","));
  return words.toString();
}

function fromAddress() {
  const words = new URLSearchParams(location.hash.slice(1));
  const layer = parseInt(words.get("layer"), 10), region = parseInt(words.get("region"), 10);
  shown.layer = layer >= 1 && layer <= data.layers.length ? layer : 0;
  shown.way = words.get("way") === "h" ? 0 : words.get("way") === "v" ? 1 : null;
  shown.region = region >= 1 && region <= data.regions.length ? region : 0;
  shown.net = words.has("net") ? data.names.indexOf(words.get("net")) : -1;
  shown.missing = words.has("net") && shown.net < 0 ? `net ${words.get("net")} is not on this page` : "";
  const wall = parseInt(words.get("wall"), 10);
  shown.wall = wall >= 1 && wall <= data.walls.length ? wall : 0;
  const use = words.get("nets") ?? "";
  shown.use = Object.hasOwn(data.uses, use) ? use : "";
  shown.isSummed = words.get("colours") === "sum";
  const view = (words.get("view") ?? "").split(",").map(Number);
  shown.view = view.length === 3 && view.every(Number.isFinite) && view[2] > 0 ? view : null;
}

// Shows what has changed; a step that one may want to go back over is one of the browser's history.
function go(changes, isStep) {
  Object.assign(shown, { missing: "" }, changes);
  shown.view &&= shown.view.map((value) => +value.toFixed(3));    // as the address has it
  const address = `#${toAddress()}`;
  if (address !== (location.hash || "#")) history[isStep ? "pushState" : "replaceState"](null, "", address);
  show();
}

function show() {
  byId("layer").value = shown.layer;
  byId("way").value = shown.way === null ? "" : "hv"[shown.way];
  byId("colours").value = shown.isSummed ? "sum" : "";
  byId("use").value = shown.use;
  byId("shown").textContent = shown.net >= 0 ? netWords(shown.net)
    : shown.missing || (shown.region ? `Region ${shown.region}` : "");
  layersTable.mark((row) => shown.layer && data.table[row].layer === data.layers[shown.layer - 1]);
  regionsTable.mark((row) => row === shown.region - 1);
  wallsTable?.mark((row) => row === shown.wall - 1);
  listNets();
  netsTable.mark((row) => row === shown.net);
  picture.draw();
}

function netWords(net) {
  const words = [`net ${data.names[net]}`, `pins ${number(data.pins[net])}`, `tiles of wire ${number(data.wires[net])}`,
    `vias ${number(data.vias[net])}`];
  if (data.hasTimes) words.push(`${data.bySlack ? "slack" : "required"} ${timeWords(net)}`, `buffers ${kindWords(net)}`);
  return words.join(", ");
}

// How many buffers a net has, by kind.
function kindWords(net) {
  const counts = new Map();
  for (let at = data.buffersFrom[net]; at < data.buffersFrom[net + 1]; at++) {
    const kind = data.kinds[data.kindValues[at]];
    counts.set(kind, (counts.get(kind) ?? 0) + 1);
  }
  return counts.size ? [...counts].map(([kind, count]) => `${count} ${kind}`).join(" and ") : "0";
}

const timeWords = (net) => Number.isNaN(data.required[net]) ? timeOf(net) : `${timeOf(net)} ps`;
const timeOf = (net) => Number.isNaN(data.required[net]) ? (data.bySlack ? "free" : "-") : fixed(data.required[net], 1);

/* Words for a place: even numbers are tiles, odd ones the edges between them. */

function edgeWords(plane, at) {
  const demand = plane.demand[at], capacity = plane.capacity[at];
  return `${layerWords(plane.layer)} ${data.ways[plane.way]}: capacity ${number(capacity)}, demand ${number(demand)}`
    + (demand > capacity ? `, overflow ${number(demand - capacity)}` : "");
}

const MOST_NAMED = 20;      // nets through an edge that are named

// The nets of this page that cross an edge of a plane.
function netsThrough({ layer, way }, at) {
  const { columns, rows, runWay, runFirst, runLength, runsFrom } = data, found = [];
  const number = way ? (layer * columns + at % columns) * rows + Math.floor(at / columns) : layer * columns * rows + at;
  for (let net = 0; net < data.names.length; net++) {
    for (let run = runsFrom[net]; run < runsFrom[net + 1]; run++) {
      if (runWay[run] !== way || number < runFirst[run] || number >= runFirst[run] + runLength[run]) continue;
      found.push(data.names[net]);
      break;
    }
  }
  return found;
}

// Whose nets cross the edge at a place, by layer.
function crossingWords([i, j]) {
  if (i % 2 === j % 2) return "";
  const at = (j >> 1) * data.columns + (i >> 1);
  return picture.chosen().filter((plane) => plane.way === (i % 2 ? 0 : 1)).map((plane) => {
    const names = netsThrough(plane, at), more = names.length - MOST_NAMED;
    return names.length ? `\nnets on ${layerWords(plane.layer)}: ${names.slice(0, MOST_NAMED).join(", ")}`
      + (more > 0 ? ` and ${number(more)} more` : "") : "";
  }).join("");
}

function placeWords([i, j]) {
  const low = [i >> 1, j >> 1], high = [(i + 1) >> 1, (j + 1) >> 1], at = low[1] * data.columns + low[0];
  const where = `${boxWords(low, high)} ${data.unit}`;
  if (i % 2 === 0 && j % 2 === 0) {
    const worst = worstOf(...low);
    return `Tile ${low.join(" ")}, ${where}\n` + (worst ? `fullest edge: ${edgeWords(...worst)}` : "no wires");
  }
  const lines = picture.chosen().filter((plane) => plane.way === (i % 2 ? 0 : 1)).map((plane) => edgeWords(plane, at));
  return `Edge of tiles ${low.join(" ")} and ${high.join(" ")}, ${where}\n` + (lines.join("; ") || "no wires");
}

// The plane and the place of the fullest of a tile's edges.
function worstOf(column, row) {
  const at = row * data.columns + column;
  let worst = null, most = -1;
  for (const plane of picture.chosen()) {
    const step = plane.way ? data.columns : 1;
    const hasUpper = plane.way ? row < data.rows - 1 : column < data.columns - 1, hasLower = plane.way ? row : column;
    for (const place of [...hasUpper ? [at] : [], ...hasLower ? [at - step] : []]) {
      const demand = plane.demand[place], capacity = plane.capacity[place];
      const use = capacity ? demand / capacity : demand ? 1 : -1;
      if (use > most) [worst, most] = [[plane, place], use];
    }
  }
  return worst;
}

// The place under a point of the canvas, or null.
function placeUnder(left, top) {
  const [x, y] = picture.toTiles(left, top), column = Math.floor(x), row = Math.floor(y);
  if (column < 0 || row < 0 || column >= data.columns || row >= data.rows) return null;
  let [i, j] = [2 * column, 2 * row];
  if (picture.view[2] >= CLEAR) {
    const [right, up] = [x - column - 0.5, y - row - 0.5];
    if (Math.max(Math.abs(right), Math.abs(up)) > 0.3) {
      if (Math.abs(right) > Math.abs(up)) i += Math.sign(right);
      else j += Math.sign(up);
    }
  }
  return i < 0 || j < 0 || i > 2 * data.columns - 2 || j > 2 * data.rows - 2 ? [2 * column, 2 * row] : [i, j];
}

/* What one does. */

function toRegion(row) {
  const region = data.regions[row];
  go({ region: row + 1, net: -1, at: null, view: picture.viewOf(region.low, region.high) }, true);
}

function toWall(row) {
  const { kind, numbers: [first, ...others] } = data.walls[row], last = [data.columns - 1, data.rows - 1];
  const ends = { column: [[first, 0], [first + 1, last[1]]], row: [[0, first], [last[0], first + 1]],
    box: [[first, others[0]], others.slice(1)] };
  go({ wall: row + 1, at: null, view: picture.viewOf(...ends[kind]) }, true);
}

function toEdge({ plane, column, row }) {
  const at = plane.way ? [2 * column, 2 * row + 1] : [2 * column + 1, 2 * row];
  go({ at, layer: plane.layer + 1, view: picture.viewOf([column - 2, row - 2], [column + 3, row + 3]) }, true);
  byId("told").textContent = byId("live").textContent = placeWords(at) + crossingWords(at);
}

function toNet(net) {
  const columns = [], rows = [], note = (cell) => {
    columns.push(cell % data.columns);
    rows.push(Math.floor(cell / data.columns) % data.rows);
  };
  for (let at = data.pinsFrom[net]; at < data.pinsFrom[net + 1]; at++) note(data.pinValues[at]);
  for (const [from, to] of runsOf(net)) [from, to].forEach(note);
  const ends = (values) => values.reduce(([low, high], value) => [Math.min(low, value), Math.max(high, value)],
    [Infinity, 0]);
  const [[left, right], [low, high]] = [ends(columns), ends(rows)];
  go({ net, at: null, view: picture.viewOf([left, low], [right, high]) }, true);
}

function back() {
  const region = data.regions[shown.region - 1];
  if (shown.net >= 0) go({ net: -1, view: region ? picture.viewOf(region.low, region.high) : null }, true);
  else go({ region: 0, wall: 0, at: null, view: null }, true);
}

function move(right, up) {
  const most = [2 * data.columns - 2, 2 * data.rows - 2], middle = picture.view;
  let [i, j] = shown.at ?? [2 * Math.floor(middle[0]), 2 * Math.floor(middle[1])];
  if (shown.at) {
    const step = (right ? j : i) % 2 ? 2 : 1;   // between four tiles there is no edge
    i = Math.max(0, Math.min(most[0] - (i % 2 && step === 2), i + right * step));
    j = Math.max(0, Math.min(most[1] - (j % 2 && step === 2), j + up * step));
    if (i % 2 && j % 2) [i, j] = shown.at;
  }
  const [x, y] = picture.toScreen(i / 2 + 0.5, j / 2 + 0.5);
  const isOut = x < 0 || y < 0 || x > picture.wide || y > picture.high;
  go({ at: [i, j], ...isOut && { view: [i / 2 + 0.5, j / 2 + 0.5, middle[2]] } }, false);
  byId("told").textContent = byId("live").textContent = placeWords([i, j]) + crossingWords([i, j]);
}

function onKey(event) {
  const arrows = { ArrowLeft: [-1, 0], ArrowRight: [1, 0], ArrowDown: [0, -1], ArrowUp: [0, 1] };
  if (arrows[event.key]) move(...arrows[event.key]);
  else if (event.key === "PageUp") changeLayer(1);
  else if (event.key === "PageDown") changeLayer(-1);
  else if (event.key === "+" || event.key === "=") picture.zoom(1.5);
  else if (event.key === "-") picture.zoom(1 / 1.5);
  else return;
  event.preventDefault();
}

function changeLayer(by) {
  const count = data.layers.length + 1;
  go({ layer: (shown.layer + by + count) % count }, true);
  byId("live").textContent = shown.layer ? layerWords(shown.layer - 1) : "all layers";
}

function listen() {
  const canvas = byId("map");
  let held = null, hasMoved = false;
  canvas.addEventListener("pointerdown", (event) => {
    held = [event.offsetX, event.offsetY, ...picture.view];
    hasMoved = false;
    canvas.setPointerCapture(event.pointerId);
  });
  canvas.addEventListener("pointermove", (event) => {
    if (!held) {
      const at = placeUnder(event.offsetX, event.offsetY);
      if (!at || String(at) !== String(shown.at)) byId("told").textContent = at ? placeWords(at) : "";
      return;
    }
    const [right, down] = [event.offsetX - held[0], event.offsetY - held[1]];
    hasMoved ||= Math.hypot(right, down) > 4;
    if (hasMoved) {
      const [, , x, y, scale] = held;
      go({ view: [x - right / scale / picture.aspect[0], y + down / scale / picture.aspect[1], scale] }, false);
    }
  });
  canvas.addEventListener("pointerup", (event) => {
    if (held && !hasMoved) pressed(event.offsetX, event.offsetY);
    held = null;
  });
  canvas.addEventListener("wheel", (event) => {
    event.preventDefault();
    picture.zoom(Math.exp(-event.deltaY / 400), event.offsetX, event.offsetY);
  }, { passive: false });
  canvas.addEventListener("keydown", onKey);
  document.addEventListener("keydown", (event) => {
    if (event.key === "Escape" && event.target.id !== "search") back();
  });
  byId("layer").onchange = (event) => go({ layer: +event.target.value }, true);
  byId("way").onchange = (event) => go({ way: event.target.value ? "hv".indexOf(event.target.value) : null }, true);
  byId("colours").onchange = (event) => go({ isSummed: event.target.value === "sum" }, true);
  byId("use").onchange = (event) => go({ use: event.target.value }, true);
  byId("closer").onclick = () => picture.zoom(1.5);
  byId("farther").onclick = () => picture.zoom(1 / 1.5);
  byId("whole").onclick = () => go({ view: null }, true);
  byId("search").oninput = show;
  addEventListener("popstate", showAddress);
  addEventListener("hashchange", showAddress);
}

function showAddress() {
  fromAddress();
  show();
  wallsTable?.reveal();
}

// A click on the map: on a region that isn't shown, goes there; else tells the place.
function pressed(left, top) {
  const [x, y] = picture.toTiles(left, top);
  const region = data.regions.findIndex(({ low, high }) => low[0] <= x && x < high[0] + 1
    && low[1] <= y && y < high[1] + 1);
  if (region >= 0 && region + 1 !== shown.region && shown.net < 0) return toRegion(region);
  const at = placeUnder(left, top);
  go({ at }, false);
  byId("told").textContent = byId("live").textContent = at ? placeWords(at) + crossingWords(at) : "";
}

async function begin() {
  data = await unpacked();
  document.title = `${data.design}: ${data.verdict}`;
  byId("verdict").textContent = data.verdict;
  data.uses = usesOf();
  for (const use of Object.keys(data.uses)) if (use) byId("use").append(new Option(use, use));
  const { routed, wirelength, vias } = data.totals;
  byId("design").textContent = `${data.design}: ${number(data.columns)} by ${number(data.rows)} tiles, `
    + `${data.layers.length} layers, ${number(routed)} nets routed, wirelength ${number(wirelength)}, `
    + `${number(vias)} vias`;
  byId("ace").textContent = data.ace;
  ["all", ...data.layers].forEach((name, at) => byId("layer").append(new Option(name, at)));
  fillLayers();
  fillRegions();
  if (data.rounds.length > 1) fillRounds();
  if (data.timing.length) fillTiming();
  if (data.walls.length) fillWalls();
  fillClosed();
  fillNets();
  picture = new Picture(byId("map"));
  listen();
  showAddress();
}

begin().catch((fault) => {
  byId("verdict").textContent = `This browser can't show the page: ${fault.message}`;
  throw fault;
});
