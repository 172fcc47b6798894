// The plain forms of the calls of pair_law, in the same loops.

extern "C" {
    // The processor time in microseconds.
    fn clock() -> i64;
}

const TURNS: u32 = 1_000_000;
const THETA: u128 = 256;
const GRAVITY: i128 = 1 << 32;

struct Moments {
    side: u64,
    leaf: bool,
    mass: u64,
    centre: [u32; 3],
    quad: [i128; 6],
    eps: u32,
}

fn step(s: u64) -> u64 {
    s.wrapping_mul(0x5851_F42D_4C95_7F2D).wrapping_add(0x1405_7B7E_F767_814F)
}

fn folded(v: [i128; 3]) -> u64 {
    v[0] as u64 ^ (v[1] as u64).rotate_left(1) ^ (v[2] as u64).rotate_left(2)
}

fn position(s: u64, t: u64) -> [u32; 3] {
    [(s >> 32) as u32, (t >> 32) as u32, s as u32]
}

fn mass(s: u64) -> u64 {
    s % 0x10_0000 + 1
}

fn leaf(pos: [u32; 3], mass: u64) -> Moments {
    Moments { side: 1, leaf: true, mass, centre: pos, quad: [0; 6], eps: 256 }
}

fn node(pos: [u32; 3], mass: u64) -> Moments {
    let round = mass as i128 * 0x1555_5555_5555;
    let skew = mass as i128 * 0x0123_4567_89AB;
    Moments { side: 1 << 24, leaf: false, mass, centre: pos, quad: [round, round, skew, skew, round, skew], eps: 256 }
}

fn way(a: &Moments, b: &Moments) -> [i64; 3] {
    std::array::from_fn(|j| i64::from(b.centre[j].wrapping_sub(a.centre[j]) as i32))
}

fn square(d: [i64; 3]) -> u64 {
    d.iter().map(|e| e.unsigned_abs() * e.unsigned_abs()).sum()
}

fn accept(a: &Moments, b: &Moments) -> bool {
    let side = |m: &Moments| if m.leaf { 0 } else { u128::from(m.side) };
    let sides = side(a) + side(b);
    sides * sides * 65536 < THETA * THETA * u128::from(square(way(a, b)))
}

fn force(a: &Moments, b: &Moments) -> [i128; 3] {
    let d = way(a, b);
    let eps = u64::from(a.eps.max(b.eps));
    let r2 = square(d) + eps * eps;
    let r = i128::from(r2.isqrt());
    let r2 = i128::from(r2);
    let (ma, mb) = (i128::from(a.mass), i128::from(b.mass));
    let mono = d.map(|e| GRAVITY * ma * mb * i128::from(e) / (r2 * r));
    if a.leaf && b.leaf {
        return mono;
    }
    let n = d.map(|e| (i128::from(e) << 20) / r);
    let s: [i128; 6] = std::array::from_fn(|j| (ma * b.quad[j] + mb * a.quad[j]) / r2);
    let [xx, yy, zz, xy, xz, yz] = s;
    let b = [
        xx * n[0] + xy * n[1] + xz * n[2],
        xy * n[0] + yy * n[1] + yz * n[2],
        xz * n[0] + yz * n[1] + zz * n[2],
    ];
    let along = (n[0] * b[0] + n[1] * b[1] + n[2] * b[2]) / (1 << 40);
    let trace = xx + yy + zz;
    std::array::from_fn(|j| {
        let field = 15 * along * n[j] - 3 * trace * n[j] - 6 * b[j];
        mono[j] + GRAVITY * field / (r2 << 21)
    })
}

fn time_nothing(turns: u32) -> u64 {
    let mut s = 1u64;
    let mut sum = 0u64;
    for _ in 0..turns {
        let t = step(s);
        let a = node(position(s, t), mass(s >> 16));
        s = step(t);
        let b = node(position(t, s), mass(t >> 16));
        sum = sum.wrapping_add(u64::from(a.centre[0] ^ b.centre[1]) ^ a.mass ^ b.mass);
    }
    sum
}

fn time_accept(turns: u32) -> u64 {
    let mut s = 1u64;
    let mut sum = 0u64;
    for _ in 0..turns {
        let t = step(s);
        let a = node(position(s, t), mass(s >> 16));
        s = step(t);
        let b = node(position(t, s), mass(t >> 16));
        sum = sum.wrapping_add(u64::from(accept(&a, &b)));
    }
    sum
}

fn time_leaves(turns: u32) -> u64 {
    let mut s = 1u64;
    let mut sum = 0u64;
    for _ in 0..turns {
        let t = step(s);
        let a = leaf(position(s, t), mass(s >> 16));
        s = step(t);
        let b = leaf(position(t, s), mass(t >> 16));
        sum = sum.wrapping_add(folded(force(&a, &b)));
    }
    sum
}

fn time_nodes(turns: u32) -> u64 {
    let mut s = 1u64;
    let mut sum = 0u64;
    for _ in 0..turns {
        let t = step(s);
        let a = node(position(s, t), mass(s >> 16));
        s = step(t);
        let b = node(position(t, s), mass(t >> 16));
        if accept(&a, &b) {
            sum = sum.wrapping_add(folded(force(&a, &b)));
        }
    }
    sum
}

fn show(name: &str, call: fn(u32) -> u64) {
    let from = unsafe { clock() };
    let sum = call(std::hint::black_box(TURNS));
    let each = (unsafe { clock() } - from) as f64 * 1000.0 / TURNS as f64;
    println!("{name:16} {each:>6.1} ns  {sum:x}");
}

fn main() {
    show("nothing", time_nothing);
    show("accept", time_accept);
    show("leaves", time_leaves);
    show("nodes", time_nodes);
}
