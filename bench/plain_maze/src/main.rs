//! Least walks by plain Rust, to compare times with: `plain_maze SIDE COUNT`. It takes the same
//! costs, windows and ends as `plan_rows mazes SIDE COUNT`, and prints the same sum, and on
//! its second line how many cells were settled.
use std::cmp::Reverse;
use std::collections::BinaryHeap;

const COLUMNS: u32 = 300;
const ROWS: u32 = 300;
const LAYERS: u32 = 6;
const FAR: u64 = u64::MAX;

struct Draws(u32);

impl Draws {
    fn below(&mut self, most: u32) -> u32 {
        self.0 = self.0.wrapping_mul(1_103_515_245).wrapping_add(12_345);
        self.0 / 65_536 % most
    }
}

/// What an edge costs, by the number of its lower end.
fn cost(low: u32) -> u64 {
    1 + u64::from(low) * 7 % 13
}

struct Window {
    x0: u32,
    y0: u32,
    columns: u32,
    rows: u32,
}

struct Search {
    window: Window,
    settled: u64,
}

impl Search {
    fn number(&self, x: u32, y: u32, layer: u32) -> u32 {
        (layer * self.window.rows + y) * self.window.columns + x
    }

    fn place(&self, cell: u32) -> (u32, u32, u32) {
        let row = cell / self.window.columns;
        (cell % self.window.columns, row % self.window.rows, row / self.window.rows)
    }

    fn outer(&self, x: u32, y: u32, layer: u32) -> u32 {
        (layer * ROWS + self.window.y0 + y) * COLUMNS + self.window.x0 + x
    }

    /// The neighbours of a cell, rising by number, with what the edges to them cost.
    fn neighbours(&self, cell: u32, mut visit: impl FnMut(u32, u64)) {
        let (x, y, layer) = self.place(cell);
        let outer = self.outer(x, y, layer);
        let plane = self.window.columns * self.window.rows;
        if layer > 0 {
            visit(cell - plane, cost(outer - COLUMNS * ROWS));
        }
        if y > 0 {
            visit(cell - self.window.columns, cost(outer - COLUMNS));
        }
        if x > 0 {
            visit(cell - 1, cost(outer - 1));
        }
        if x + 1 < self.window.columns {
            visit(cell + 1, cost(outer));
        }
        if y + 1 < self.window.rows {
            visit(cell + self.window.columns, cost(outer));
        }
        if layer + 1 < LAYERS {
            visit(cell + plane, cost(outer));
        }
    }

    fn rest(&self, cell: u32, goal: (u32, u32, u32)) -> u64 {
        let (x, y, _) = self.place(cell);
        u64::from(x.abs_diff(goal.0)) + u64::from(y.abs_diff(goal.1))
    }

    /// The walk from the goal back to the source, by cells of the window.
    fn walk(&mut self, source: u32, goal: u32) -> Vec<u32> {
        let cells = self.window.columns * self.window.rows * LAYERS;
        let mut labels = vec![FAR; cells as usize];
        let mut queue = BinaryHeap::new();
        let aim = self.place(goal);
        labels[source as usize] = 0;
        queue.push(Reverse((self.rest(source, aim), source)));
        while let Some(Reverse((key, cell))) = queue.pop() {
            if key > labels[goal as usize] {
                break;
            }
            let label = labels[cell as usize];
            if key > label + self.rest(cell, aim) {
                continue;
            }
            self.settled += 1;
            let mut found = [(0, 0); 6];
            let mut count = 0;
            self.neighbours(cell, |to, cost| {
                if label + cost < labels[to as usize] {
                    labels[to as usize] = label + cost;
                    found[count] = (label + cost, to);
                    count += 1;
                }
            });
            for &(cost, to) in &found[..count] {
                queue.push(Reverse((cost + self.rest(to, aim), to)));
            }
        }
        let mut walk = vec![goal];
        let mut cell = goal;
        while cell != source {
            let label = labels[cell as usize];
            let mut back = None;
            self.neighbours(cell, |to, cost| {
                let from = labels[to as usize];
                if back.is_none() && from != FAR && from + cost == label {
                    back = Some(to);
                }
            });
            cell = back.expect("a labelled cell has one before it");
            walk.push(cell);
        }
        walk
    }
}

fn main() {
    let mut words = std::env::args().skip(1).map(|word| word.parse::<u32>().unwrap());
    let side = words.next().unwrap().min(COLUMNS);
    let count = words.next().unwrap();
    let mut draws = Draws(1);
    let (mut sum, mut settled) = (0u64, 0u64);
    for _ in 0..count {
        let window = Window {
            x0: draws.below(COLUMNS + 1 - side),
            y0: draws.below(ROWS + 1 - side),
            columns: side,
            rows: side,
        };
        let (a, b) = (draws.below(side), draws.below(side));
        let (c, d) = (draws.below(side), draws.below(side));
        let mut search = Search { window, settled: 0 };
        let walk = search.walk(search.number(a, b, 0), search.number(c, d, 0));
        for cell in walk {
            let (x, y, layer) = search.place(cell);
            sum = sum.wrapping_add(u64::from(search.outer(x, y, layer)));
        }
        settled += search.settled;
    }
    println!("{sum}\n{settled}");
}
