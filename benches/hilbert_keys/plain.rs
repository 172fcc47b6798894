// The times of keys and positions in plain Rust.

#[path = "keys.rs"]
mod keys;

use keys::{key_of, pos_of, tables};

extern "C" {
    // The processor time in microseconds.
    fn clock() -> i64;
}

const ROUNDS: u32 = 20;
const TURNS: u32 = 200_000;

fn step(s: u64) -> u64 {
    s.wrapping_mul(0x5851_F42D_4C95_7F2D).wrapping_add(0x1405_7B7E_F767_814F)
}

fn position(s: u64, t: u64) -> [u32; 3] {
    [(s >> 32) as u32, (t >> 32) as u32, s as u32]
}

fn timed(name: &str, mut one: impl FnMut(u64, u64) -> u64) {
    let from = unsafe { clock() };
    let mut s = 1u64;
    let mut sum = 0u64;
    for _ in 0..TURNS {
        let t = step(s);
        sum = sum.wrapping_add(one(s, t));
        s = step(t);
    }
    let to = unsafe { clock() };
    println!("{name} {:.1} {sum:x}", (to - from) as f64 * 1000.0 / f64::from(TURNS));
}

fn main() {
    let tables = tables();
    let folded = |[x, y, z]: [u32; 3]| u64::from(x ^ y ^ z);
    for _ in 0..ROUNDS {
        timed("nothing", |s, t| folded(position(s, t)));
        timed("key_of", |s, t| {
            let key = key_of(&tables, position(s, t));
            key as u64 ^ (key >> 64) as u64
        });
        timed("pos_of", |s, t| folded(pos_of(&tables, u128::from(s) << 32 | u128::from(t >> 32))));
    }
}
