// The plain forms of the calls of fixed_point, in the same loops.
#![allow(unused_variables)]

extern "C" {
    // The processor time in microseconds.
    fn clock() -> i64;
}

const TURNS: u32 = 5_000_000;
const HALF: i128 = 0x4000_0000_0000_0000;

fn step(s: u64) -> u64 {
    s.wrapping_mul(0x5851_F42D_4C95_7F2D).wrapping_add(0x1405_7B7E_F767_814F)
}

fn low(n: u128) -> u64 {
    n as u64
}

fn low_signed(n: i128) -> u64 {
    n as u64
}

fn floor(a: i128, b: i128) -> (i128, i128) {
    (a.div_euclid(b), a.rem_euclid(b))
}

fn both(pair: (i128, i128)) -> u64 {
    pair.0 as u64 ^ pair.1 as u64
}

fn vector(s: u64) -> (i128, i128, i128) {
    (1, i128::from(s), 2)
}

fn scale(p: i64, h: u64, change: i128) -> Option<i64> {
    let next = i128::from(p) + i128::from(h) * change;
    if next < -HALF || HALF < next { None } else { Some(next as i64) }
}

fn momentum(p: Option<i64>) -> u64 {
    p.map_or(0, |p| p as u64)
}

fn time_nothing(turns: u32) -> u64 {
    let mut s = 1u64;
    let mut sum = 0u64;
    for _ in 0..turns {
        s = step(s);
        let t = step(s);
        sum = sum.wrapping_add(s ^ t);
    }
    sum
}

fn time_isqrt_64(turns: u32) -> u64 {
    let mut s = 1u64;
    let mut sum = 0u64;
    for _ in 0..turns {
        s = step(s);
        let t = step(s);
        sum = sum.wrapping_add(low(u128::from(s).isqrt()));
    }
    sum
}

fn time_isqrt_66(turns: u32) -> u64 {
    let mut s = 1u64;
    let mut sum = 0u64;
    for _ in 0..turns {
        s = step(s);
        let t = step(s);
        sum = sum.wrapping_add(low((u128::from(s) * 3).isqrt()));
    }
    sum
}

fn time_trunc_div_small(turns: u32) -> u64 {
    let mut s = 1u64;
    let mut sum = 0u64;
    for _ in 0..turns {
        s = step(s);
        let t = step(s);
        sum = sum.wrapping_add(low_signed((i128::from(s >> 1) - HALF) / (i128::from(t >> 40) + 1)));
    }
    sum
}

fn time_trunc_div_large(turns: u32) -> u64 {
    let mut s = 1u64;
    let mut sum = 0u64;
    for _ in 0..turns {
        s = step(s);
        let t = step(s);
        sum = sum.wrapping_add(low_signed(i128::from(s >> 2) * i128::from(t >> 2) / (i128::from(t) + 1)));
    }
    sum
}

fn time_floor_small(turns: u32) -> u64 {
    let mut s = 1u64;
    let mut sum = 0u64;
    for _ in 0..turns {
        s = step(s);
        let t = step(s);
        sum = sum.wrapping_add(both(floor(i128::from(s >> 1) - HALF, i128::from(t >> 40) + 1)));
    }
    sum
}

fn time_floor_large(turns: u32) -> u64 {
    let mut s = 1u64;
    let mut sum = 0u64;
    for _ in 0..turns {
        s = step(s);
        let t = step(s);
        sum = sum.wrapping_add(both(floor(i128::from(s >> 2) * i128::from(t >> 2), i128::from(t) + 1)));
    }
    sum
}

fn time_wrap_diff(turns: u32) -> u64 {
    let mut s = 1u64;
    let mut sum = 0u64;
    for _ in 0..turns {
        s = step(s);
        let t = step(s);
        sum = sum.wrapping_add(((t >> 32) as u32).wrapping_sub((s >> 32) as u32) as i32 as i64 as u64);
    }
    sum
}

fn time_plus(turns: u32) -> u64 {
    let mut s = 1u64;
    let mut sum = 0u64;
    for _ in 0..turns {
        s = step(s);
        let t = step(s);
        sum = sum.wrapping_add({ let (v, w) = (vector(s), vector(t)); let _x = v.0 + w.0; let _z = v.2 + w.2; low_signed(v.1 + w.1) });
    }
    sum
}

fn time_scale_in_range(turns: u32) -> u64 {
    let mut s = 1u64;
    let mut sum = 0u64;
    for _ in 0..turns {
        s = step(s);
        let t = step(s);
        sum = sum.wrapping_add(momentum(scale((s >> 2) as i64, t % 0x8_0000 + 1, i128::from(t >> 23))));
    }
    sum
}

fn main() {
    let from = unsafe { clock() };
    let sum = time_nothing(std::hint::black_box(TURNS));
    let each = (unsafe { clock() } - from) as f64 * 1000.0 / TURNS as f64;
    println!("{:16} {:>6.1} ns  {:x}", "nothing", each, sum);
    let from = unsafe { clock() };
    let sum = time_isqrt_64(std::hint::black_box(TURNS));
    let each = (unsafe { clock() } - from) as f64 * 1000.0 / TURNS as f64;
    println!("{:16} {:>6.1} ns  {:x}", "isqrt_64", each, sum);
    let from = unsafe { clock() };
    let sum = time_isqrt_66(std::hint::black_box(TURNS));
    let each = (unsafe { clock() } - from) as f64 * 1000.0 / TURNS as f64;
    println!("{:16} {:>6.1} ns  {:x}", "isqrt_66", each, sum);
    let from = unsafe { clock() };
    let sum = time_trunc_div_small(std::hint::black_box(TURNS));
    let each = (unsafe { clock() } - from) as f64 * 1000.0 / TURNS as f64;
    println!("{:16} {:>6.1} ns  {:x}", "trunc_div_small", each, sum);
    let from = unsafe { clock() };
    let sum = time_trunc_div_large(std::hint::black_box(TURNS));
    let each = (unsafe { clock() } - from) as f64 * 1000.0 / TURNS as f64;
    println!("{:16} {:>6.1} ns  {:x}", "trunc_div_large", each, sum);
    let from = unsafe { clock() };
    let sum = time_floor_small(std::hint::black_box(TURNS));
    let each = (unsafe { clock() } - from) as f64 * 1000.0 / TURNS as f64;
    println!("{:16} {:>6.1} ns  {:x}", "floor_small", each, sum);
    let from = unsafe { clock() };
    let sum = time_floor_large(std::hint::black_box(TURNS));
    let each = (unsafe { clock() } - from) as f64 * 1000.0 / TURNS as f64;
    println!("{:16} {:>6.1} ns  {:x}", "floor_large", each, sum);
    let from = unsafe { clock() };
    let sum = time_wrap_diff(std::hint::black_box(TURNS));
    let each = (unsafe { clock() } - from) as f64 * 1000.0 / TURNS as f64;
    println!("{:16} {:>6.1} ns  {:x}", "wrap_diff", each, sum);
    let from = unsafe { clock() };
    let sum = time_plus(std::hint::black_box(TURNS));
    let each = (unsafe { clock() } - from) as f64 * 1000.0 / TURNS as f64;
    println!("{:16} {:>6.1} ns  {:x}", "plus", each, sum);
    let from = unsafe { clock() };
    let sum = time_scale_in_range(std::hint::black_box(TURNS));
    let each = (unsafe { clock() } - from) as f64 * 1000.0 / TURNS as f64;
    println!("{:16} {:>6.1} ns  {:x}", "scale_in_range", each, sum);
}
