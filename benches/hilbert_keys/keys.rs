// Keys of positions and positions of keys: two levels at a time, by tables that are made from the rule, over bits that are
// interleaved first by masks.

pub struct Tables {
    // 64 · the next turn + two digits of the key, by 64 · the turn + two children
    keys: [u16; 2048],
    // 64 · the next turn + two children, by 64 · the turn + two digits of the key
    children: [u16; 2048],
}

fn left(k: u32, n: u32) -> u32 {
    (n << k | n >> (3 - k)) & 7
}

pub fn tables() -> Tables {
    const CORNERS: [u32; 8] = [0, 0, 0, 3, 3, 6, 6, 5];
    const AXES: [u32; 8] = [0, 1, 1, 2, 2, 1, 1, 0];
    let child = |turn: u32, w: u32| left(turn % 3 + 1, w ^ w >> 1) ^ turn / 3;
    let next = |turn: u32, w: u32| (turn / 3 ^ left(turn % 3 + 1, CORNERS[w as usize])) * 3 + (turn % 3 + AXES[w as usize] + 1) % 3;
    let mut both = Tables { keys: [0; 2048], children: [0; 2048] };
    for turn in 0..24 {
        for digits in 0..64 {
            let upper = child(turn, digits / 8);
            let between = next(turn, digits / 8);
            let lower = child(between, digits % 8);
            let after = next(between, digits % 8);
            let pair = 8 * upper + lower;
            both.keys[(64 * turn + pair) as usize] = (64 * after + digits) as u16;
            both.children[(64 * turn + digits) as usize] = (64 * after + pair) as u16;
        }
    }
    both
}

// 16 bits, each at every third bit of 48.
fn third_bits(n: u32) -> u64 {
    let mut n = u64::from(n) & 0xFFFF;
    n = (n | n << 32) & 0x001F_0000_0000_FFFF;
    n = (n | n << 16) & 0x001F_0000_FF00_00FF;
    n = (n | n << 8) & 0x100F_00F0_0F00_F00F;
    n = (n | n << 4) & 0x10C3_0C30_C30C_30C3;
    (n | n << 2) & 0x1249_2492_4924_9249
}

// The bits of every third place, 16 of them.
fn gathered(n: u64) -> u32 {
    let mut n = n & 0x1249_2492_4924_9249;
    n = (n | n >> 2) & 0x10C3_0C30_C30C_30C3;
    n = (n | n >> 4) & 0x100F_00F0_0F00_F00F;
    n = (n | n >> 8) & 0x001F_0000_FF00_00FF;
    n = (n | n >> 16) & 0x001F_0000_0000_FFFF;
    (n | n >> 32) as u32 & 0xFFFF
}

fn half(table: &[u16; 2048], turn: &mut usize, bits: u64) -> u64 {
    let mut digits = 0;
    for part in 0..8 {
        let entry = table[(*turn | (bits >> (42 - 6 * part) & 63) as usize) % 2048] as usize;
        digits = digits << 6 | (entry & 63) as u64;
        *turn = entry & !63;
    }
    digits
}

pub fn key_of(tables: &Tables, [x, y, z]: [u32; 3]) -> u128 {
    let bits = |shift: u32| third_bits(x >> shift) | third_bits(y >> shift) << 1 | third_bits(z >> shift) << 2;
    let mut turn = 0;
    let upper = half(&tables.keys, &mut turn, bits(16));
    let lower = half(&tables.keys, &mut turn, bits(0));
    u128::from(upper) << 48 | u128::from(lower)
}

pub fn pos_of(tables: &Tables, key: u128) -> [u32; 3] {
    let mut turn = 0;
    let upper = half(&tables.children, &mut turn, (key >> 48) as u64);
    let lower = half(&tables.children, &mut turn, (key & 0xFFFF_FFFF_FFFF) as u64);
    let of = |axis: u32| gathered(upper >> axis) << 16 | gathered(lower >> axis);
    [of(0), of(1), of(2)]
}
