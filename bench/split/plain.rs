// The decomposition as a plain Rust program of the same rule, with the same answers: what gm_split is
// measured against. It prints the least time of a hundred turns.
use std::time::Instant;

#[derive(Clone, Copy)]
struct Node {
    level: u32,
    first: u64,
    x: u32,
    y: u32,
    t: u32,
}

#[derive(Clone, Copy)]
struct Cell {
    x: u32,
    y: u32,
    t: u32,
}

#[derive(Clone, Copy)]
struct Window {
    low: Cell,
    high: Cell,
}

trait Tree<const D: usize> {
    fn depth(&self) -> u32;
    fn child(&self, node: &Node, q: u32) -> Node;
    fn last(&self, node: &Node) -> u64;
    fn own(&self, node: &Node) -> Option<u64>;
    fn reach(&self, node: &Node) -> (Cell, Cell);
}

struct Z<const D: usize, const B: u32>;

impl<const D: usize, const B: u32> Tree<D> for Z<D, B> {
    fn depth(&self) -> u32 {
        B
    }
    fn child(&self, node: &Node, q: u32) -> Node {
        let below = D as u32 * (B - node.level - 1);
        Node {
            level: node.level + 1,
            first: node.first + (u64::from(q) << below),
            x: 2 * node.x + q % 2,
            y: 2 * node.y + q / 2 % 2,
            t: 2 * node.t + q / 4,
        }
    }
    fn last(&self, node: &Node) -> u64 {
        node.first + ((1u64 << (D as u32 * (B - node.level))) - 1)
    }
    fn own(&self, _node: &Node) -> Option<u64> {
        None
    }
    fn reach(&self, node: &Node) -> (Cell, Cell) {
        let below = B - node.level;
        let side = (1u32 << below) - 1;
        let low = Cell {
            x: node.x << below,
            y: node.y << below,
            t: node.t << below,
        };
        let high = Cell {
            x: low.x + side,
            y: low.y + side,
            t: low.t + side,
        };
        (low, high)
    }
}

struct Xz<const D: usize, const G: u32>;

fn size(dimensions: usize, levels: u32) -> u64 {
    ((1u64 << (dimensions as u32 * (levels + 1))) - 1) / ((1 << dimensions) - 1)
}

impl<const D: usize, const G: u32> Tree<D> for Xz<D, G> {
    fn depth(&self) -> u32 {
        G
    }
    fn child(&self, node: &Node, q: u32) -> Node {
        Node {
            level: node.level + 1,
            first: node.first + 1 + u64::from(q) * size(D, G - node.level - 1),
            x: 2 * node.x + q % 2,
            y: 2 * node.y + q / 2 % 2,
            t: 2 * node.t + q / 4,
        }
    }
    fn last(&self, node: &Node) -> u64 {
        node.first + (size(D, G - node.level) - 1)
    }
    fn own(&self, node: &Node) -> Option<u64> {
        Some(node.first)
    }
    fn reach(&self, node: &Node) -> (Cell, Cell) {
        let below = G - node.level;
        let whole = (1u32 << G) - 1;
        let low = Cell {
            x: node.x << below,
            y: node.y << below,
            t: node.t << below,
        };
        let high = Cell {
            x: whole.min(((node.x + 2) << below) - 1),
            y: whole.min(((node.y + 2) << below) - 1),
            t: whole.min(((node.t + 2) << below) - 1),
        };
        (low, high)
    }
}

#[derive(Clone, Copy)]
enum Piece {
    Codes(u64, u64),
    Partial(Node, u64),
}

// The pieces of a level while they are made.
struct Front {
    pieces: Vec<Piece>,
    runs: usize,
    partial: usize,
    last: Option<u64>,
}

impl Front {
    fn begin(&mut self, low: u64, high: u64) {
        if self.last.and_then(|last| last.checked_add(1)) != Some(low) {
            self.runs += 1;
        }
        self.last = Some(high);
    }

    fn settle(&mut self, low: u64, high: u64) {
        self.begin(low, high);
        if let Some(Piece::Codes(_, end)) = self.pieces.last_mut() {
            if end.checked_add(1) == Some(low) {
                *end = high;
                return;
            }
        }
        self.pieces.push(Piece::Codes(low, high));
    }

    fn keep(&mut self, node: Node, near: u64, last: u64) {
        self.begin(node.first, last);
        self.partial += 1;
        self.pieces.push(Piece::Partial(node, near));
    }

    fn add<const D: usize, T: Tree<D>>(
        &mut self,
        tree: &T,
        node: Node,
        windows: &[Window],
        seen: u64,
    ) {
        let reach = tree.reach(&node);
        let mut left = seen;
        let mut near = 0;
        while left != 0 {
            let at = left.trailing_zeros();
            let Some(window) = windows.get(at as usize) else {
                break;
            };
            left &= left - 1;
            if overlaps::<D>(&reach, window) {
                if is_within::<D>(&reach, window) {
                    self.settle(node.first, tree.last(&node));
                    return;
                }
                near |= 1 << at;
            }
        }
        if near != 0 {
            self.keep(node, near, tree.last(&node));
        }
    }
}

fn overlaps<const D: usize>(reach: &(Cell, Cell), window: &Window) -> bool {
    reach.0.x <= window.high.x
        && window.low.x <= reach.1.x
        && reach.0.y <= window.high.y
        && window.low.y <= reach.1.y
        && (D != 3 || reach.0.t <= window.high.t && window.low.t <= reach.1.t)
}

fn is_within<const D: usize>(reach: &(Cell, Cell), window: &Window) -> bool {
    window.low.x <= reach.0.x
        && reach.1.x <= window.high.x
        && window.low.y <= reach.0.y
        && reach.1.y <= window.high.y
        && (D != 3 || window.low.t <= reach.0.t && reach.1.t <= window.high.t)
}

fn split<const D: usize, T: Tree<D>>(
    tree: &T,
    windows: &[Window],
    target: usize,
) -> (Vec<(u64, u64)>, u32) {
    let root = Node {
        level: 0,
        first: 0,
        x: 0,
        y: 0,
        t: 0,
    };
    let mut front = Front {
        pieces: Vec::new(),
        runs: 0,
        partial: 0,
        last: None,
    };
    front.add(tree, root, windows, u64::MAX);
    let mut pieces = front.pieces;
    let mut partial = front.partial;
    let mut spare = Vec::new();
    let mut level = 0;
    while level < tree.depth() {
        if partial == 0 {
            level = tree.depth();
            break;
        }
        spare.clear();
        let mut front = Front {
            pieces: spare,
            runs: 0,
            partial: 0,
            last: None,
        };
        let mut fits = true;
        for piece in &pieces {
            match *piece {
                Piece::Codes(low, high) => front.settle(low, high),
                Piece::Partial(node, near) => {
                    if let Some(code) = tree.own(&node) {
                        front.settle(code, code);
                    }
                    for q in 0..1u32 << D {
                        front.add(tree, tree.child(&node, q), windows, near);
                    }
                }
            }
            if front.runs > target || front.partial > 4 * target {
                fits = false;
                break;
            }
        }
        if !fits {
            break;
        }
        partial = front.partial;
        spare = pieces;
        pieces = front.pieces;
        level += 1;
    }
    let mut runs: Vec<(u64, u64)> = Vec::new();
    for piece in &pieces {
        let (low, high) = match piece {
            Piece::Codes(low, high) => (*low, *high),
            Piece::Partial(node, _) => (node.first, tree.last(node)),
        };
        match runs.last_mut() {
            Some(run) if run.1 + 1 == low => run.1 = high,
            _ => runs.push((low, high)),
        }
    }
    (runs, level)
}

// So many windows in a space of this side, each about a twentieth as wide.
fn windows(count: u32, side: u32) -> Vec<Window> {
    let mut all = Vec::new();
    let part = side / 256;
    for i in 0..count {
        let low = Cell {
            x: (48 + i * 37) % 150 * part + part / 3,
            y: (91 + i * 53) % 150 * part + part / 7,
            t: (30 + i * 29) % 150 * part + part / 5,
        };
        let high = Cell {
            x: low.x + 12 * part + part / 2,
            y: low.y + 20 * part + part / 2,
            t: low.t + 8 * part + part / 2,
        };
        all.push(Window { low, high });
    }
    all
}

fn measure<const D: usize, T: Tree<D>>(name: &str, tree: &T, count: u32, target: usize) {
    let windows = windows(count, 1u32 << tree.depth());
    let mut least = u128::MAX;
    let mut last = (0, 0);
    for _ in 0..100 {
        let before = Instant::now();
        let (runs, level) = split(tree, std::hint::black_box(&windows), target);
        least = least.min(before.elapsed().as_nanos());
        last = (runs.len(), level);
    }
    println!(
        "{name}, {count} windows, target {target}: {} runs, level {}, {least} ns",
        last.0, last.1
    );
}

fn main() {
    for count in [1, 8, 64] {
        for target in [16, 2000, 10000] {
            measure("z2 31", &Z::<2, 31>, count, target);
            measure("z3 21", &Z::<3, 21>, count, target);
            measure("xz2 12", &Xz::<2, 12>, count, target);
            measure("xz3 12", &Xz::<3, 12>, count, target);
        }
    }
}
