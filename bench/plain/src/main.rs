//! The same two trees, equations, falling waves and sums as the proved program `bench`, in plain Rust: what the proved one is measured
//! against. A joint keeps the waves that rise from its parts and the wave that rises from it, so that a take is one pass down and one up.
use std::time::Instant;

const LARGEST_WAVE: i64 = 262_143;

#[derive(Clone, Copy)]
enum Way {
    Series,
    Parallel,
}

#[derive(Clone, Copy)]
enum Kind {
    Capacitor,
    Coil,
    Resistor { ear: bool },
}

#[derive(Clone, Copy)]
struct Element {
    kind: Kind,
    weight: u64,
    state: i32,
}

#[derive(Clone, Copy)]
struct Ratio {
    num: u64,
    den: u64,
}

#[derive(Clone, Copy)]
struct Short {
    wave: i32,
    cut: u32,
}

struct Knot {
    way: Way,
    ratio: Ratio,
    shares: (i64, i64),
    total: i64,
    left: i32,
    right: i32,
    up: Short,
}

enum Tree {
    Leaf(Element),
    Join(Knot, Box<Tree>, Box<Tree>),
}

#[derive(Clone, Copy, Default)]
struct Taken {
    absorbed: u64,
    shortened: u32,
    heard: i32,
}

fn hold(f: i32) -> i32 {
    f.clamp(-LARGEST_WAVE as i32, LARGEST_WAVE as i32)
}

// num / den towards zero, and held
fn shorten(num: i64, den: i64) -> Short {
    let wave = (num / den).clamp(-LARGEST_WAVE, LARGEST_WAVE);
    Short {
        wave: wave as i32,
        cut: (wave * den != num) as u32,
    }
}

fn gcd(mut a: u64, mut b: u64) -> u64 {
    while b != 0 {
        (a, b) = (b, a % b);
    }
    a
}

fn lowest(a: u64, b: u64) -> Ratio {
    let by = gcd(a, b);
    Ratio {
        num: a / by,
        den: b / by,
    }
}

impl Element {
    fn rising(&self) -> i32 {
        match self.kind {
            Kind::Capacitor => self.state,
            Kind::Coil => -self.state,
            Kind::Resistor { .. } => 0,
        }
    }

    fn take(&mut self, f: i32) -> Taken {
        let f = hold(f);
        match self.kind {
            Kind::Capacitor | Kind::Coil => {
                self.state = f;
                Taken::default()
            }
            Kind::Resistor { ear } => {
                let size = f.unsigned_abs() as u64;
                Taken {
                    absorbed: self.weight * (size * size),
                    shortened: 0,
                    heard: if ear { f } else { 0 },
                }
            }
        }
    }
}

impl Knot {
    fn rising(&self) -> Short {
        let (r1, r2) = (self.left as i64, self.right as i64);
        let (p1, p2) = self.shares;
        match self.way {
            Way::Series => shorten(r1 + r2, 1),
            Way::Parallel => shorten(p1 * r1 + p2 * r2, self.total),
        }
    }

    fn falling(&self, f: i32) -> (Short, Short) {
        let (f, r1, r2) = (f as i64, self.left as i64, self.right as i64);
        let (p1, p2) = self.shares;
        let q = self.total;
        match self.way {
            Way::Series => {
                let d = f - (r1 + r2);
                (
                    shorten(q * r1 + p2 * d, q),
                    shorten(q * r2 + p1 * d, q),
                )
            }
            Way::Parallel => {
                let z = p1 * r1 + p2 * r2;
                (
                    shorten(z + q * (f - r1), q),
                    shorten(z + q * (f - r2), q),
                )
            }
        }
    }
}

impl Tree {
    fn leaf(kind: Kind, weight: u64) -> Tree {
        Tree::Leaf(Element {
            kind,
            weight,
            state: 0,
        })
    }

    fn ratio(&self) -> Ratio {
        match self {
            Tree::Leaf(e) => Ratio {
                num: e.weight,
                den: 1,
            },
            Tree::Join(k, _, _) => k.ratio,
        }
    }

    fn join(way: Way, left: Tree, right: Tree) -> Tree {
        let (a, b) = (left.ratio(), right.ratio());
        let (x, y) = (a.num * b.den, b.num * a.den);
        let shares = lowest(x, y);
        let ratio = match way {
            Way::Series => lowest(a.num * b.num, x + y),
            Way::Parallel => lowest(x + y, a.den * b.den),
        };
        let mut knot = Knot {
            way,
            ratio,
            shares: (shares.num as i64, shares.den as i64),
            total: (shares.num + shares.den) as i64,
            left: left.rising(),
            right: right.rising(),
            up: Short { wave: 0, cut: 0 },
        };
        knot.up = knot.rising();
        Tree::Join(knot, Box::new(left), Box::new(right))
    }

    fn rising(&self) -> i32 {
        match self {
            Tree::Leaf(e) => e.rising(),
            Tree::Join(k, _, _) => k.up.wave,
        }
    }

    fn take(&mut self, f: i32) -> (Taken, i32) {
        match self {
            Tree::Leaf(e) => {
                let taken = e.take(f);
                (taken, e.rising())
            }
            Tree::Join(k, a, b) => {
                let (left, right) = k.falling(hold(f));
                let cuts = k.up.cut + left.cut + right.cut;
                let (x, r1) = a.take(left.wave);
                let (y, r2) = b.take(right.wave);
                k.left = r1;
                k.right = r2;
                k.up = k.rising();
                let taken = Taken {
                    absorbed: x.absorbed + y.absorbed,
                    shortened: x.shortened + y.shortened + cuts,
                    heard: x.heard + y.heard,
                };
                (taken, k.up.wave)
            }
        }
    }
}

fn door() -> Tree {
    let behind = Tree::join(
        Way::Parallel,
        Tree::leaf(Kind::Capacitor, 320),
        Tree::leaf(Kind::Resistor { ear: true }, 166),
    );
    Tree::join(Way::Series, Tree::leaf(Kind::Coil, 31), behind)
}

fn capacitors() -> Tree {
    let mut all = Tree::leaf(Kind::Capacitor, 320);
    for _ in 1..32 {
        all = Tree::join(Way::Parallel, all, Tree::leaf(Kind::Capacitor, 320));
    }
    all
}

fn main() {
    let timed = std::env::args().any(|word| word == "time");
    let turns: u32 = if timed { 10_000_000 } else { 10_000 };
    let ratio = door().ratio();
    println!("door: ratio {}/{}", ratio.num, ratio.den);
    let mut took = Vec::new();
    for (name, mut tree) in [("door", door()), ("32 capacitors", capacitors())] {
        let (mut absorbed, mut shortened, mut heard, mut rising) = (0u64, 0u64, 0i64, 0i64);
        let mut x: u32 = 1;
        let start = Instant::now();
        for _ in 0..turns {
            x ^= x << 13;
            x ^= x >> 17;
            x ^= x << 5;
            let (taken, _) = tree.take((x & 131071) as i32 - 65536);
            absorbed = absorbed.wrapping_add(taken.absorbed);
            shortened = shortened.wrapping_add(taken.shortened as u64);
            heard = heard.wrapping_add(taken.heard as i64);
            rising = rising.wrapping_add(tree.rising() as i64);
        }
        let nanos = start.elapsed().as_nanos();
        println!("{name}: {turns} takes, absorbed {absorbed}, shortened {shortened}, heard {heard}, rising {rising}");
        took.push((name, nanos));
    }
    if timed {
        for (name, nanos) in &took {
            println!("{name}: {} ns a take", nanos / turns as u128);
        }
        println!("32 capacitors take {} times as long", took[1].1 / took[0].1);
    }
}
