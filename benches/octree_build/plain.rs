// The tree of bodies in plain Rust: sorted by keys, grown level by level, sums from the last node to the first, moments.

#[allow(dead_code)]
#[path = "../hilbert_keys/keys.rs"]
mod keys;

use keys::{Tables, key_of, tables};

extern "C" {
    // The processor time in microseconds.
    fn clock() -> i64;
}

const ROUNDS: u32 = 5;
const SOFT: [u32; 6] = [256, 65536, 65536, 65536, 65536, 65536];

fn step(s: u64) -> u64 {
    s.wrapping_mul(0x5851_F42D_4C95_7F2D).wrapping_add(0x1405_7B7E_F767_814F)
}

#[derive(Clone, Copy)]
struct Body {
    id: u64,
    kind: u8,
    mass: u32,
    pos: [u32; 3],
    mom: [i64; 3],
}

#[derive(Clone, Copy)]
struct Slot {
    level: u8,
    low: u32,
    high: u32,
    first: u32,
}

#[derive(Clone, Copy)]
struct Raw {
    corner: [u32; 3],
    count: u32,
    mass: u64,
    mx: [u128; 3],
    mxx: [u128; 6],
    lo: [u32; 3],
    hi: [u32; 3],
    eps: u32,
}

struct Node {
    corner: [u32; 3],
    level: u8,
    leaf: bool,
    mass: u64,
    centre: [u32; 3],
    quad: [i128; 6],
    eps: u32,
    first: u32,
    number: u32,
    low: u32,
    high: u32,
}

const PAIRS: [(usize, usize); 6] = [(0, 0), (1, 1), (2, 2), (0, 1), (0, 2), (1, 2)];

fn corner(level: u8, pos: [u32; 3]) -> [u32; 3] {
    let mask = if level == 0 { 0 } else { u32::MAX << (32 - level) };
    pos.map(|x| x & mask)
}

impl Raw {
    fn of(corner: [u32; 3], body: &Body) -> Raw {
        let d: [u64; 3] = [0, 1, 2].map(|k| u64::from(body.pos[k] - corner[k]));
        let m = u128::from(body.mass);
        Raw {
            corner,
            count: 1,
            mass: u64::from(body.mass),
            mx: d.map(|x| m * u128::from(x)),
            mxx: PAIRS.map(|(a, b)| m * (u128::from(d[a]) * u128::from(d[b]))),
            lo: body.pos,
            hi: body.pos,
            eps: SOFT[body.kind as usize],
        }
    }

    fn add(&mut self, other: &Raw) {
        self.count += other.count;
        self.mass += other.mass;
        for k in 0..3 {
            self.mx[k] += other.mx[k];
            self.lo[k] = self.lo[k].min(other.lo[k]);
            self.hi[k] = self.hi[k].max(other.hi[k]);
        }
        for k in 0..6 {
            self.mxx[k] += other.mxx[k];
        }
        self.eps = self.eps.max(other.eps);
    }

    fn shifted(&self, corner: [u32; 3]) -> Raw {
        let d: [u128; 3] = [0, 1, 2].map(|k| u128::from(self.corner[k] - corner[k]));
        let m = u128::from(self.mass);
        let mut raw = *self;
        raw.corner = corner;
        for k in 0..3 {
            raw.mx[k] += m * d[k];
        }
        for (k, (a, b)) in PAIRS.iter().enumerate() {
            raw.mxx[k] += d[*a] * self.mx[*b] + d[*b] * self.mx[*a] + m * (d[*a] * d[*b]);
        }
        raw
    }

    fn node(&self, slot: &Slot, end: u32) -> Node {
        let m = u128::from(self.mass);
        let mean: [u64; 3] = self.mx.map(|x| (x / m) as u64);
        Node {
            corner: self.corner,
            level: slot.level,
            leaf: self.lo == self.hi,
            mass: self.mass,
            centre: [0, 1, 2].map(|k| (u64::from(self.corner[k]) + mean[k]) as u32),
            quad: {
                let mut quad = [0i128; 6];
                for (k, (a, b)) in PAIRS.iter().enumerate() {
                    let (d, e) = (u128::from(mean[*a]), u128::from(mean[*b]));
                    quad[k] = (self.mxx[k] + m * (d * e)) as i128 - (d * self.mx[*b] + e * self.mx[*a]) as i128;
                }
                quad
            },
            eps: self.eps,
            first: slot.first,
            number: end - slot.first,
            low: slot.low,
            high: slot.high,
        }
    }
}

fn sorted(tables: &Tables, bodies: &[Body]) -> Vec<u128> {
    let mut numbers: Vec<u128> =
        bodies.iter().enumerate().map(|(i, body)| key_of(tables, body.pos) << 20 | i as u128).collect();
    numbers.sort_unstable();
    numbers
}

fn grow(keys: &[u128], bodies: &[Body]) -> Vec<Slot> {
    let mut slots = Vec::with_capacity(bodies.len() * 3 / 2);
    slots.push(Slot { level: 0, low: 0, high: bodies.len() as u32, first: 0 });
    let mut i = 0;
    while i < slots.len() {
        let Slot { level, low, high, .. } = slots[i];
        slots[i].first = slots.len() as u32;
        if keys[low as usize] != keys[high as usize - 1] {
            let shift = 3 * (31 - u32::from(level));
            let mut at = low;
            while at < high {
                let part = keys[at as usize] >> shift;
                let mut end = at + 1;
                while end < high && keys[end as usize] >> shift == part {
                    end += 1;
                }
                slots.push(Slot { level: level + 1, low: at, high: end, first: 0 });
                at = end;
            }
        }
        i += 1;
    }
    slots
}

fn build(tables: &Tables, bodies: &[Body]) -> (Vec<Body>, Vec<Node>) {
    let numbers = sorted(tables, bodies);
    let along: Vec<Body> = numbers.iter().map(|n| bodies[(n & 0xFFFFF) as usize]).collect();
    let keys: Vec<u128> = numbers.iter().map(|n| n >> 20).collect();
    drop(numbers);
    let slots = grow(&keys, &along);
    let end_of = |i: usize| slots.get(i + 1).map_or(slots.len() as u32, |next| next.first);
    let mut raws: Vec<Raw> = Vec::with_capacity(slots.len());
    for i in (0..slots.len()).rev() {
        let slot = &slots[i];
        let at = corner(slot.level, along[slot.low as usize].pos);
        let (first, end) = (slot.first as usize, end_of(i) as usize);
        let raw = if first == end {
            let mut raw = Raw::of(at, &along[slot.low as usize]);
            for body in &along[slot.low as usize + 1..slot.high as usize] {
                raw.add(&Raw::of(at, body));
            }
            raw
        } else {
            let child = |j: usize| &raws[slots.len() - 1 - j];
            let mut raw = child(first).shifted(at);
            for j in first + 1..end {
                raw.add(&child(j).shifted(at));
            }
            raw
        };
        raws.push(raw);
    }
    let nodes = (0..slots.len()).map(|i| raws[slots.len() - 1 - i].node(&slots[i], end_of(i))).collect();
    (along, nodes)
}

fn bodies_of(count: u64, clustered: bool) -> Vec<Body> {
    let mut s = 7u64;
    (1..=count)
        .map(|id| {
            let mut next = || {
                s = step(s);
                let all = (s >> 32) as u32;
                if clustered && id % 10 == 0 { all / 256 } else { all }
            };
            Body { id, kind: 1, mass: 2048 + (id % 2048) as u32, pos: [next(), next(), next()], mom: [0; 3] }
        })
        .collect()
}

fn all(tables: &Tables, count: u64, clustered: bool, name: &str) {
    let bodies = bodies_of(count, clustered);
    for _ in 0..ROUNDS {
        let from = unsafe { clock() };
        let numbers = sorted(tables, &bodies);
        let to = unsafe { clock() };
        let sum = numbers.iter().fold(0u64, |sum, n| sum.wrapping_mul(31).wrapping_add(*n as u64));
        println!("{name} sort {} {sum:x}", (to - from) / 1000);
        drop(numbers);
        let from = unsafe { clock() };
        let (along, nodes) = build(tables, &bodies);
        let to = unsafe { clock() };
        println!("{name} build {} {:x}", (to - from) / 1000, nodes.len());
        let kept = along.iter().fold(0u64, |sum, body| sum ^ body.id ^ body.mom[0] as u64);
        let told = nodes.iter().fold(kept, |sum, node| {
            let small = u64::from(node.first ^ node.number ^ node.low ^ node.high ^ node.eps ^ node.corner[0]);
            sum ^ small ^ node.mass ^ node.quad[5] as u64 ^ u64::from(node.centre[0]) ^ u64::from(node.level) ^ u64::from(node.leaf)
        });
        std::hint::black_box(told);
    }
}

fn main() {
    let tables = tables();
    if std::env::args().count() > 1 {
        let bodies = bodies_of(1_000_000, false);
        println!("{} nodes", build(&tables, &bodies).1.len());
        return;
    }
    all(&tables, 100_000, false, "uniform-100000");
    all(&tables, 1_000_000, false, "uniform-1000000");
    all(&tables, 1_000_000, true, "clustered-1000000");
}
