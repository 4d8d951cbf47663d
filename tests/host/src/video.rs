//! Video memory, written from document 01: one byte, and a block transfer a byte at a time.

use crate::library::Transfer;

fn allowed(n: usize) -> bool {
    (4096..=2_097_152).contains(&n) && n % 4 == 0
}

pub fn read(m: &[u8], at: usize) -> (u8, u8) {
    if !allowed(m.len()) {
        return (3, 0xFF);
    }
    m.get(at).map_or((4, 0xFF), |&b| (0, b))
}

pub fn write(m: &mut [u8], at: usize, v: u8) -> u8 {
    if !allowed(m.len()) {
        return 3;
    }
    match m.get_mut(at) {
        Some(b) => {
            *b = v;
            0
        }
        None => 4,
    }
}

/// Whether the code's result changes with an operand: 4 is the pattern, 2 the source.
fn depends(code: u8, operand: u8) -> bool {
    (0..8).any(|k| code >> k & 1 != code >> (k ^ operand) & 1)
}

fn raster(code: u8, p: u8, s: u8, d: u8) -> u8 {
    (0..8).map(|bit| (code >> (4 * (p >> bit & 1) + 2 * (s >> bit & 1) + (d >> bit & 1)) & 1) << bit).sum()
}

pub fn transfer(m: &mut [u8], t: Transfer) -> u8 {
    if !allowed(m.len()) {
        return 3;
    }
    let (source, pattern) = (depends(t.code, 2), depends(t.code, 4));
    let mut good = (1..=8191).contains(&t.width) && (1..=8191).contains(&t.height) && t.dstspan <= 8191;
    good &= !source || t.srcspan <= 8191;
    good &= !pattern || t.row <= 7 && t.pattern % 64 == 0;
    if !good {
        return 5;
    }
    let sign = |back: bool, n: usize| if back { -(n as i128) } else { n as i128 };
    let place = |first: usize, span: usize, r: usize, c: usize| first as i128 + sign(t.leftward, c) + sign(t.upward, r) * span as i128;
    let tile = |r: usize, d: i128| t.pattern as i128 + 8 * (t.row as i128 + sign(t.upward, r)).rem_euclid(8) + d.rem_euclid(8);
    let inside = |a: i128| (0..m.len() as i128).contains(&a);
    for r in 0..t.height {
        for c in 0..t.width {
            let d = place(t.dst, t.dstspan, r, c);
            let used = inside(d) && (!source || inside(place(t.src, t.srcspan, r, c))) && (!pattern || inside(tile(r, d)));
            if !used {
                return 4;
            }
        }
    }
    for r in 0..t.height {
        for c in 0..t.width {
            let d = place(t.dst, t.dstspan, r, c);
            let s = if source { m[place(t.src, t.srcspan, r, c) as usize] } else { 0 };
            let p = if pattern { m[tile(r, d) as usize] } else { 0 };
            m[d as usize] = raster(t.code, p, s, m[d as usize]);
        }
    }
    0
}
