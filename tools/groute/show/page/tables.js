/* Tables of the page: rows are made as they come into sight. */

const ROW = 19;             // pixels that a row of a table is high

class Table {
  // columns: head, and value(row) to sort by; text(row) where it is shown otherwise.
  constructor(place, caption, columns, rows, pick) {
    Object.assign(this, { place, columns, rows, pick, sorted: null, isFalling: false, isHere: () => false });
    const table = document.createElement("table");
    this.caption = table.createCaption();
    this.caption.textContent = caption;
    const head = table.createTHead().insertRow();
    this.heads = columns.map((column) => {
      const cell = document.createElement("th"), button = document.createElement("button");
      cell.scope = "col";
      button.textContent = column.head;
      button.onclick = () => this.sort(column, this.sorted === column ? !this.isFalling : column.isNumber);
      if (column.isNumber) cell.className = "number";
      cell.append(button);
      head.append(cell);
      return cell;
    });
    this.body = table.createTBody();
    this.table = table;
    place.append(table);
    place.addEventListener("scroll", () => this.render());
    new ResizeObserver(() => this.render()).observe(place);
  }

  sort(column, isFalling) {
    this.sorted = column;
    this.isFalling = isFalling;
    this.columns.forEach((each, at) => {
      if (each === column) this.heads[at].setAttribute("aria-sort", isFalling ? "descending" : "ascending");
      else this.heads[at].removeAttribute("aria-sort");
    });
    this.order();
  }

  order() {
    if (this.sorted) {
      const { value } = this.sorted, sign = this.isFalling ? -1 : 1;
      const compare = (a, b) => {
        const x = value(a), y = value(b);
        if (x < y) return -sign;
        return x > y ? sign : Number.isNaN(x) - Number.isNaN(y) || a - b;
      };
      this.rows.sort(compare);
    }
    this.table.setAttribute("aria-rowcount", this.rows.length + 1);
    this.render();
  }

  // Puts other rows in.
  fill(rows) {
    this.rows = rows;
    this.place.scrollTop = 0;
    this.order();
  }

  mark(isHere) {
    this.isHere = isHere;
    this.render();
  }

  // Scrolls to the marked row, if there is one.
  reveal() {
    const at = this.rows.findIndex((row) => this.isHere(row));
    if (at >= 0) this.place.scrollTop = (at - 2) * ROW;
  }

  render() {
    const from = Math.max(0, Math.floor(this.place.scrollTop / ROW) - 12);
    const to = Math.min(this.rows.length, from + Math.ceil(this.place.clientHeight / ROW) + 24);
    const active = this.body.contains(document.activeElement) ? document.activeElement.closest("tr").dataset.row : null;
    const lines = [];
    if (from > 0) lines.push(this.space(from));
    for (let at = from; at < to; at++) lines.push(this.line(this.rows[at], at));
    if (to < this.rows.length) lines.push(this.space(this.rows.length - to));
    this.body.replaceChildren(...lines);
    if (active !== null) this.body.querySelector(`tr[data-row="${active}"] button`)?.focus({ preventScroll: true });
  }

  // What stands for so many rows that are out of sight.
  space(rows) {
    const line = document.createElement("tr"), cell = line.insertCell();
    line.className = "space";
    line.setAttribute("aria-hidden", "true");
    cell.colSpan = this.columns.length;
    cell.style.height = `${rows * ROW}px`;
    return line;
  }

  line(row, at) {
    const line = document.createElement("tr");
    line.setAttribute("aria-rowindex", at + 2);
    line.dataset.row = row;
    if (this.isHere(row)) line.className = "here";
    this.columns.forEach((column, place) => {
      const cell = line.insertCell();
      const text = column.text ? column.text(row) : column.isNumber ? number(column.value(row)) : column.value(row);
      if (column.isNumber) cell.className = "number";
      if (place > 0) {
        cell.textContent = text;
        return;
      }
      const button = document.createElement("button");
      button.textContent = text;
      button.title = text;
      cell.append(button);
    });
    line.onclick = () => this.pick(row);
    return line;
  }

  // A last row that isn't sorted.
  foot(cells) {
    const line = this.table.createTFoot().insertRow();
    cells.forEach((text, at) => {
      const cell = line.insertCell();
      cell.textContent = text;
      if (this.columns[at].isNumber) cell.className = "number";
    });
  }
}

function fillLayers() {
  const of = (key) => (row) => data.table[row][key], last = data.table.at(-1);
  const use = (line) => line.use === null ? "-" : fixed(line.use, 1);
  const counted = (head, key) => ({ head, value: of(key), isNumber: true });
  const columns = [{ head: "layer", value: (row) => row, text: of("layer") },
    { head: "direction", value: of("direction") }, counted("resource", "resource"), counted("demand", "demand"),
    { head: "use, %", value: (row) => data.table[row].use ?? NaN, text: (row) => use(data.table[row]), isNumber: true },
    counted("greatest", "maximum"), counted("overflow", "overflow"), counted("edges over", "over"),
    counted("at capacity 0", "closed")];
  layersTable = new Table(byId("layers"), "Layers", columns, [...Array(data.table.length - 1).keys()],
    (row) => go({ layer: data.layers.indexOf(data.table[row].layer) + 1 }, true));
  layersTable.foot([last.layer, "", number(last.resource), number(last.demand), use(last),
    ...[last.maximum, last.overflow, last.over, last.closed].map(number)]);
  layersTable.order();
}

function fillRegions() {
  const corners = (row) => [data.regions[row].low, data.regions[row].high];
  const counted = (head, key) => ({ head, value: (row) => data.regions[row][key], isNumber: true });
  const columns = [{ head: "region", value: (row) => row + 1 },
    { head: "tiles", value: (row) => row, text: (row) => corners(row).flat().join(" ") },
    { head: `box, ${data.unit}`, value: (row) => row, text: (row) => boxWords(...corners(row)) },
    counted("overflow", "overflow"), counted("edges over", "over"), counted("at capacity 0", "closed"),
    { head: "nets", value: (row) => data.regions[row].nets.length, isNumber: true }];
  regionsTable = new Table(byId("regions"), "Worst regions", columns, [...data.regions.keys()], toRegion);
  regionsTable.order();
}

// The fullest walls, if a text of bounds has some.
function fillWalls() {
  const of = (key) => (row) => data.walls[row][key];
  const counted = (head) => ({ head, value: of(head), isNumber: true });
  const place = ({ kind, numbers }) => [kind, ...numbers].join(" ");
  const use = ({ needs, holds }) => 100 * needs / holds;
  const columns = [{ head: "wall", value: (row) => row, text: (row) => place(data.walls[row]) },
    counted("needs"), counted("holds"), { head: "needs, %", value: (row) => use(data.walls[row]),
      text: (row) => of("holds")(row) ? fixed(use(data.walls[row]), 1) : "-", isNumber: true }];
  byId("walls").hidden = false;
  wallsTable = new Table(byId("walls"), "Fullest walls", columns, [...data.walls.keys()], toWall);
  wallsTable.order();
}

// The wire edges of capacity 0 that are used, those most over first.
function fillClosed() {
  const edges = [];
  for (const plane of data.planes) {
    plane.demand.forEach((demand, at) => {
      if (demand && !plane.capacity[at]) {
        edges.push({ plane, demand, column: at % data.columns, row: Math.floor(at / data.columns) });
      }
    });
  }
  edges.sort((a, b) => b.demand - a.demand);
  byId("closed").hidden = !edges.length;
  if (!edges.length) return;
  const columns = [{ head: "edge", value: (row) => row, text: (row) => `${edges[row].column} ${edges[row].row}` },
    { head: "layer", value: (row) => edges[row].plane.layer, text: (row) => data.layers[edges[row].plane.layer] },
    { head: "direction", value: (row) => data.ways[edges[row].plane.way] },
    { head: "overflow", value: (row) => edges[row].demand, isNumber: true }];
  new Table(byId("closed"), "Overflow at capacity 0", columns, [...edges.keys()], (row) => toEdge(edges[row])).order();
}

// Which nets are listed, by what is asked for.
function usesOf() {
  const found = { "": () => true };
  const some = (name, nets) => {
    const has = new Set(nets);
    found[name] = (net) => has.has(net);
  };
  if (data.unjoined.length) some("unjoined", data.unjoined);
  if (data.clocks.length) {
    some("clocks", data.clocks);
    const isClock = found.clocks;
    found.signals = (net) => !isClock(net);
  }
  return found;
}

// What each round left, and which one's routes these are: overflow goes by its logarithm along the curve.
function fillRounds() {
  const told = (value) => value === null ? "-" : number(value);
  const counted = (head, key) => ({ head, value: (row) => data.rounds[row][key] ?? NaN,
    text: (row) => told(data.rounds[row][key]), isNumber: true });
  byId("rounds").hidden = byId("curve").hidden = false;
  const table = new Table(byId("rounds"), `Rounds: the routes are those of round ${data.written}`,
    [{ head: "round", value: (row) => row, text: (row) => `${row}` }, counted("overflow", "overflow"),
      counted("nets", "nets"), counted("plans without room", "full")], [...data.rounds.keys()], () => {});
  table.mark((row) => row === data.written);
  table.order();
  const heights = data.rounds.map((round) => Math.log1p(round.overflow)), most = Math.max(...heights, 1);
  const across = (at) => 4 + 292 * at / Math.max(1, heights.length - 1), up = (height) => 106 - 102 * height / most;
  const drawing = document.querySelector("#curve svg");
  const add = (name, given) => {
    const part = document.createElementNS(drawing.namespaceURI, name);
    for (const [key, value] of Object.entries(given)) part.setAttribute(key, value);
    drawing.append(part);
  };
  add("polyline", { points: heights.map((height, at) => `${across(at)},${up(height)}`).join(" ") });
  add("line", { x1: across(data.written), x2: across(data.written), y1: 2, y2: 108 });
  drawing.setAttribute("aria-label", `Overflow by round: ${data.rounds.map((round) => number(round.overflow)).join(", ")}; `
    + `round ${data.written} is written`);
}

// What a timer says before and after buffers, and the nets of the worst paths after.
function fillTiming() {
  const of = (at) => (row) => data.timing[row][at];
  byId("timing").hidden = byId("paths").hidden = false;
  new Table(byId("timing"), "Timing", [{ head: "", value: of(0) }, { head: "before", value: of(1), text: of(1),
    isNumber: true }, { head: "after", value: of(2), text: of(2), isNumber: true }], [...data.timing.keys()],
  () => {}).order();
  const nets = data.paths.flatMap(([slack, some], at) => some.map((net) => ({ net, slack, path: at + 1 })));
  const columns = [{ head: "net", value: (row) => data.names[nets[row].net] },
    { head: "path", value: (row) => nets[row].path, isNumber: true },
    { head: "slack, ps", value: (row) => nets[row].slack, text: (row) => fixed(nets[row].slack, 1), isNumber: true }];
  new Table(byId("paths"), "Worst paths", columns, [...nets.keys()], (row) => toNet(nets[row].net)).order();
}

function fillNets() {
  const of = (key) => (row) => data[key][row];
  const columns = [{ head: "net", value: (row) => data.names[row] }];
  if (data.hasTimes) columns.push({ head: data.bySlack ? "slack, ps" : "required, ps", value: of("required"), text: timeOf, isNumber: true });
  columns.push({ head: "pins", value: of("pins"), isNumber: true },
    { head: "wire, tiles", value: of("wires"), isNumber: true }, { head: "vias", value: of("vias"), isNumber: true });
  if (data.hasTimes) columns.push({ head: "buffers", value: of("buffers"), isNumber: true });
  columns.push({ head: "overfull edges", value: (row) => counts?.get(row) ?? data.over[row], isNumber: true });
  netsTable = new Table(byId("nets"), "Nets", columns, [], (row) => toNet(row));
  if (data.hasTimes) netsTable.sort(columns[1], false);
  else netsTable.sort(columns.at(-1), true);
}

let counts = null, listed = null;   // of the region: overfull edges by net; and what the list was made of

function listNets() {
  const words = byId("search").value.toLowerCase(), region = data.regions[shown.region - 1];
  if (listed === `${shown.region} ${shown.use} ${words}`) return;
  listed = `${shown.region} ${shown.use} ${words}`;
  counts = region ? new Map(region.nets.map((net, at) => [net, region.counts[at]])) : null;
  const all = (region ? region.nets : [...data.names.keys()]).filter(data.uses[shown.use]);
  const rows = words ? all.filter((net) => data.names[net].toLowerCase().includes(words)) : [...all];
  netsTable.caption.textContent = region ? `Nets through the overfull edges of region ${shown.region}` : "Nets";
  if (region) netsTable.sort(netsTable.columns.at(-1), true);
  netsTable.fill(rows);
  const missing = data.allNets - data.names.length;
  byId("found").textContent = `${number(rows.length)} of ${number(all.length)}`
    + (missing ? `; ${number(missing)} nets that are in no region and not slow are not on this page` : "");
}

