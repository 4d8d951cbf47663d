//! The library compared with an independent model, from fixed seeds: resets, port accesses, colours, registers by name, runs of
//! commands, bytes of video memory and transfers, steps that are refused, scripts whole and damaged, scripts played, shorter
//! lists after each step, and bytes that are no state. Of a write the whole word is compared, with the bytes before and after; of
//! a run and a play also how many commands changed a register or a colour. A failure prints the input that differs, and the
//! status is not 0.

mod library;
mod model;
mod script;
mod video;

use library::{Transfer, NO_STATE, STATE};
use model::{Chip, Rows, MET};

/// Numbers from a seed.
struct Random(u64);

impl Random {
    fn next(&mut self) -> u32 {
        self.0 ^= self.0 << 13;
        self.0 ^= self.0 >> 7;
        self.0 ^= self.0 << 17;
        (self.0.wrapping_mul(0x2545_F491_4F6C_DD1D) >> 32) as u32
    }

    fn below(&mut self, n: u32) -> u32 {
        (u64::from(self.next()) * u64::from(n) >> 32) as u32
    }

    fn byte(&mut self) -> u8 {
        self.below(256) as u8
    }

    fn one_in(&mut self, n: u32) -> bool {
        self.below(n) == 0
    }

    fn of<T: Copy>(&mut self, list: &[T]) -> T {
        list[self.below(list.len() as u32) as usize]
    }
}

fn expect<T: PartialEq + std::fmt::Debug>(input: &str, library: T, model: T) {
    if library != model {
        println!("{input}: the library gives {library:?}, the model {model:?}");
        std::process::exit(1);
    }
}

fn expect_bytes(input: &str, library: &[u8], model: &[u8]) {
    if library == model {
        return;
    }
    expect(&format!("{input}: length"), library.len(), model.len());
    if let Some(k) = (0..library.len()).find(|&k| library[k] != model[k]) {
        expect(&format!("{input}: byte {k}"), library[k], model[k]);
    }
}

/// An access, drawn so that data ports follow their index ports often enough, and some ports are not listed.
fn port(r: &mut Random) -> u16 {
    if r.one_in(20) {
        return r.next() as u16;
    }
    listed(r)
}

fn listed(r: &mut Random) -> u16 {
    if r.one_in(4) {
        // the attribute registers: 3C0h takes turns, so it comes most often, and input status 1 now and then
        return r.of(&[0x3C0, 0x3C0, 0x3C0, 0x3C0, 0x3C1, 0x3C1, 0x3BA, 0x3DA]);
    }
    0x3B0 + r.of(&[0x04, 0x05, 0x14, 0x15, 0x16, 0x17, 0x18, 0x19, 0x19, 0x19, 0x1E, 0x1F, 0x20, 0x21, 0x22, 0x23, 0x24, 0x25, 0x26, 0x27, 0x12, 0x1C])
}

/// A listed port, and seldom one that is listed for the other direction only.
fn directed(r: &mut Random, write: bool) -> u16 {
    let other: &[u16] = if write { &[0x3BA, 0x3C1, 0x3CC, 0x3DA] } else { &[0x3C2] };
    let p = listed(r);
    if other.contains(&p) && !r.one_in(16) { 0x3C0 } else { p }
}

/// An access: the port, the byte, and whether it is a write.
type Access = (u16, u8, bool);

/// Something stored, and stored again, half the time with a bit changed: a colour, half the time with the palette's mode written
/// in between; MSR or PALMASK; an attribute register, with a picture or without; a CR register that CR11 may protect; a register
/// of any index, listed or not. One CR pair of the two is not picked.
fn twice(r: &mut Random) -> Vec<Access> {
    let (index, value) = (r.byte(), r.byte());
    let again = if r.one_in(2) { value } else { value ^ 1 << r.below(8) };
    let write = |port: u16, v: u8| (port, v, true);
    match r.below(8) {
        0 | 1 => {
            let (red, green) = (r.byte(), r.byte());
            let colour = |blue| vec![write(0x3C8, index), write(0x3C9, red), write(0x3C9, green), write(0x3C9, blue)];
            let mode = if r.one_in(2) { vec![write(0x3D6, 0x80), write(0x3D7, r.byte())] } else { vec![] };
            [colour(value), mode, colour(again)].concat()
        }
        2 => {
            let p = r.of(&[0x3C2, 0x3C6]);
            vec![write(p, value), write(p, again)]
        }
        3 | 4 => {
            let store = |v| vec![write(0x3C0, index), write(0x3C0, v)];
            [vec![(0x3BA, 0, false), (0x3DA, 0, false)], store(value), store(again)].concat()
        }
        5 => {
            let p = r.of(&[0x3B4, 0x3D4]);
            vec![write(p, 0x11), write(p + 1, r.byte()), write(p, index & 7), write(p + 1, value), write(p + 1, again)]
        }
        _ => {
            let p = r.of(&[0x3B4, 0x3D4, 0x3C4, 0x3CE, 0x3D6, 0x3D0, 0x3D2]);
            vec![write(p, index), write(p + 1, value), write(p + 1, again)]
        }
    }
}

/// So many accesses, one at a time and seldom `twice`.
fn drawn(r: &mut Random, count: usize) -> Vec<Access> {
    let mut list = Vec::new();
    while list.len() < count {
        if r.one_in(16) {
            list.extend(twice(r));
        } else {
            list.push((port(r), r.byte(), !r.one_in(3)));
        }
    }
    list.truncate(count);
    list
}

/// A state to start from: a reset's, or any bytes, with the ports open more often than not.
fn start(r: &mut Random, rows: &Rows) -> Vec<u8> {
    let mut bytes = Vec::new();
    if r.one_in(2) {
        let open = if r.one_in(16) { 0 } else { 2 };
        Chip::reset(rows, r.byte() & 0xFD | open, r.byte()).to_bytes(rows, &mut bytes);
        return bytes;
    }
    bytes = (0..STATE).map(|_| r.byte()).collect();
    if !r.one_in(16) {
        bytes[rows.straps()] |= 2;
    }
    bytes
}

fn resets(rows: &Rows, r: &mut Random) -> usize {
    let mut expected = Vec::new();
    for first in 0..=255u8 {
        for second in [0, 1, 0x5A, 0xFF] {
            let mut s: Vec<u8> = (0..STATE).map(|_| r.byte()).collect();
            let input = format!("reset {first:02X} {second:02X}");
            expect(&input, library::reset(&mut s, first, second), 0);
            Chip::reset(rows, first, second).to_bytes(rows, &mut expected);
            expect_bytes(&input, &s, &expected);
        }
    }
    1024
}

/// What the library returns of a write: the number, 0, and the bytes before and after.
fn word((number, before, after): (u8, u8, u8)) -> [u8; 4] {
    [number, 0, before, after]
}

/// Accesses one after the other, whose writes meet each of `MET`.
fn accesses(rows: &Rows, r: &mut Random, rounds: usize, each: usize) -> usize {
    let (mut expected, mut met) = (Vec::new(), [0; MET.len()]);
    for round in 0..rounds {
        let mut s = start(r, rows);
        let mut c = Chip::from_bytes(rows, &s);
        c.to_bytes(rows, &mut expected);
        expect_bytes("a state as a chip", &s, &expected);
        for (k, (p, v, write)) in drawn(r, each).into_iter().enumerate() {
            let input;
            if write {
                input = format!("round {round}, access {k}: OUT {p:03X} {v:02X}");
                met.iter_mut().zip(c.meets(rows, p, v)).for_each(|(n, yes)| *n += usize::from(yes));
                expect(&input, library::port_write(&mut s, p, v), word(c.write(rows, p, v)));
            } else {
                input = format!("round {round}, access {k}: IN {p:03X}");
                expect(&input, library::port_read(&mut s, p), c.read(p));
            }
            if k % 8 == 0 || k + 1 == each {
                c.to_bytes(rows, &mut expected);
                expect_bytes(&input, &s, &expected);
            }
        }
        for p in 0..=255u8 {
            let [x, y, z] = c.shown(p);
            expect(&format!("round {round}: colour of {p:02X}"), library::pixel(&s, p), [0, x, y, z]);
        }
    }
    for (what, n) in MET.iter().zip(met) {
        assert!(n > 1000, "only {n} writes {what} were tried");
    }
    rounds * each
}

/// Registers and colours by name, of states that accesses leave: every number of a group, every index, every entry. Asking moves
/// nothing; the ports then read the same bytes, and a write has them before and after.
fn names(rows: &Rows, r: &mut Random, rounds: usize) -> usize {
    for round in 0..rounds {
        let mut s = start(r, rows);
        let mut c = Chip::from_bytes(rows, &s);
        for _ in 0..r.below(200) {
            let (p, v) = (port(r), r.byte());
            if r.one_in(3) {
                library::port_read(&mut s, p);
                c.read(p);
            } else {
                library::port_write(&mut s, p, v);
                c.write(rows, p, v);
            }
        }
        let kept = s.clone();
        for (group, index) in (0..=65535u16).map(|k| ((k >> 8) as u8, k as u8)) {
            let (got, want) = (library::register(&s, group, index), c.register(group, index));
            if got != want {
                expect(&format!("round {round}: register {group} {index:02X}"), got, want);
            }
        }
        for e in 0..=255 {
            let [x, y, z] = c.entry(e);
            expect(&format!("round {round}: entry {e:02X}"), library::entry(&s, e), [0, x, y, z]);
        }
        expect_bytes(&format!("round {round}: after all names"), &s, &kept);

        s[rows.straps()] |= 2;
        let (colour, eight) = (c.register(6, 0).1 & 1, c.register(3, 0x80).1 & 0x80 != 0);
        let pairs = [[0x3B4, 0x3D4][colour as usize], 0x3C4, 0x3CE, 0x3D6, 0x3D0, 0x3D2];
        for (group, pair) in (0..).zip(pairs) {
            let index = r.byte() & [0xFF, 0x07, 0x0F, 0xFF, 0xFF, 0xFF][group as usize];
            let named = library::register(&s, group, index);
            library::port_write(&mut s, pair, index);
            expect(&format!("round {round}: port {:03X} at {index:02X}", pair + 1), library::port_read(&mut s, pair + 1), named);
        }
        expect(&format!("round {round}: port 3CC"), library::port_read(&mut s, 0x3CC), library::register(&s, 6, r.byte()));
        expect(&format!("round {round}: port 3C6"), library::port_read(&mut s, 0x3C6), library::register(&s, 7, r.byte()));
        let e = r.byte();
        let stored = library::entry(&s, e).map(|x| if eight { x } else { x % 64 });
        library::port_write(&mut s, 0x3C7, e);
        let read = [0; 3].map(|_| library::port_read(&mut s, 0x3C9).1);
        expect(&format!("round {round}: port 3C9 at {e:02X}"), read, [stored[1], stored[2], stored[3]]);
        for (group, pair) in (0..).zip(pairs) {
            let index = library::port_read(&mut s, pair).1;
            let before = library::register(&s, group, index).1;
            let wrote = library::port_write(&mut s, pair + 1, r.byte());
            let after = library::register(&s, group, index).1;
            expect(&format!("round {round}: a write to {:03X} at {index:02X}", pair + 1), wrote, [0, 0, before, after]);
        }
    }
    rounds * (65536 + 256)
}

fn command(r: &mut Random) -> [u8; 4] {
    let kind = r.below(100);
    let p = if r.one_in(100) { r.next() as u16 } else { directed(r, kind >= 40) };
    let [low, high] = p.to_le_bytes();
    match kind {
        0 => [r.byte(), r.byte(), r.byte(), r.byte()],
        1..=19 => [2, low, high, 0],
        20..=39 => [3, r.byte(), r.byte(), 0],
        40..=59 => [4, low, high, 0],
        _ => [1, low, high, r.byte()],
    }
}

/// An access as a command.
fn commanded((port, value, write): Access) -> [u8; 4] {
    let [low, high] = port.to_le_bytes();
    if write { [1, low, high, value] } else { [2, low, high, 0] }
}

/// How many commands were carried out, and how many of them changed a register or a colour, in runs that ended, that met their
/// limit, and that were stopped.
fn runs(rows: &Rows, r: &mut Random, rounds: usize) -> (usize, [usize; 3]) {
    let (mut expected, mut done, mut changing) = (Vec::new(), 0, [0; 3]);
    for round in 0..rounds {
        let mut s = start(r, rows);
        let mut c = Chip::from_bytes(rows, &s);
        let mut bytes = Vec::new();
        for _ in 0..r.below(60) {
            if r.one_in(8) {
                bytes.extend(twice(r).into_iter().flat_map(commanded));
            } else {
                bytes.extend(command(r));
            }
        }
        if r.one_in(10) {
            bytes.push(1);
        }
        let limit = if r.one_in(2) { usize::MAX } else { r.below(40) as usize };
        let input = format!("run {round}: {} commands, limit {limit}: {:02X?}", bytes.len() / 4, bytes);
        let got = library::run(&mut s, &bytes, limit);
        expect(&input, got, c.run(rows, &bytes, limit));
        c.to_bytes(rows, &mut expected);
        expect_bytes(&input, &s, &expected);
        done += got.1;
        changing[if got.0 != 0 { 2 } else { usize::from(got.1 < bytes.len() / 4) }] += got.3;
    }
    (done, changing)
}

/// A room is left and come back to: the bytes saved with their version answer as the room did, whatever was done in between.
fn saved(rows: &Rows, r: &mut Random, rounds: usize) -> usize {
    for round in 0..rounds {
        let mut s = start(r, rows);
        let mut other = start(r, rows);
        let kept = (library::versions().1, s.clone());
        let answer = |s: &mut [u8], (p, v, write): Access| -> Vec<u8> {
            if write { library::port_write(s, p, v).into() } else { <[u8; 2]>::from(library::port_read(s, p)).into() }
        };
        let ask = |s: &mut [u8], list: &[Access]| -> Vec<_> { list.iter().map(|&a| answer(s, a)).collect() };
        let accesses = drawn(r, 100);
        let first = ask(&mut s, &accesses);
        ask(&mut other, &accesses);
        expect(&format!("round {round}: the version"), kept.0, library::versions().1);
        let mut again = kept.1;
        expect(&format!("round {round}: asked again"), ask(&mut again, &accesses), first);
        expect_bytes(&format!("round {round}: left again"), &again, &s);
    }
    rounds
}

/// Bytes that are no state: refused, and none changes.
fn lengths(r: &mut Random) -> usize {
    let mut tried = 0;
    let mut script = vec![0; 512];
    expect("a script of one step", library::write_script(&[3, 7, 1, 2, 3, 0], &mut script), (0, 1));
    for n in (0..2600).filter(|&n| n != STATE) {
        let kept: Vec<u8> = (0..n).map(|_| r.byte()).collect();
        let mut s = kept.clone();
        let input = format!("{n} bytes");
        expect(&input, library::reset(&mut s, 2, 0), NO_STATE);
        expect(&input, [0x3C6, 0x3C8, 0x3CA].map(|p| library::port_write(&mut s, p, 1)), [[NO_STATE, 0, 0xFF, 0xFF]; 3]);
        expect(&input, library::port_read(&mut s, 0x3C8), (NO_STATE, 0xFF));
        expect(&input, library::pixel(&s, 1), [NO_STATE, 0, 0, 0]);
        expect(&input, library::entry(&s, 1), [NO_STATE, 0, 0, 0]);
        expect(&input, [0, 8, 9, 255].map(|group| library::register(&s, group, 1)), [(NO_STATE, 0xFF); 4]);
        expect(&input, [3, 4].map(|k| library::run(&mut s, &[1, 0xC6, 3, 1][..k], 1)), [(NO_STATE, 0, 0, 0); 2]);
        let mut commands = [0x5A; 64];
        expect(&input, library::play(&mut s, &script, &mut commands), (NO_STATE, 0, 0, 0));
        expect_bytes(&input, &commands, &[0x5A; 64]);
        expect_bytes(&input, &s, &kept);
        tried += 1;
    }
    tried
}

fn memory(r: &mut Random, rounds: usize) -> usize {
    for round in 0..rounds {
        let n = if r.one_in(4) { r.below(5000) as usize } else { 4096 + 4 * r.below(100) as usize };
        let mut m: Vec<u8> = (0..n).map(|_| r.byte()).collect();
        let mut kept = m.clone();
        let (at, v) = (r.below(n as u32 + 5) as usize, r.byte());
        let input = format!("round {round}: {n} bytes of memory, byte {at}");
        expect(&input, library::memory_read(&m, at), video::read(&kept, at));
        expect(&input, library::memory_write(&mut m, at, v), video::write(&mut kept, at, v));
        expect_bytes(&input, &m, &kept);
    }
    rounds
}

fn transfers(r: &mut Random, rounds: usize) -> usize {
    let mut m: Vec<u8> = (0..8192).map(|_| r.byte()).collect();
    let mut kept = m.clone();
    let mut done = 0;
    for round in 0..rounds {
        let n = if r.one_in(50) { 4000 + r.below(200) as usize } else { r.of(&[4096, 8192, 5000]) };
        // Seldom any 32-bit number, a small one plus a multiple of 2^32, or one near the largest.
        let odd = |r: &mut Random, n: u32| match r.below(120) {
            0 => r.next() as usize,
            1 | 2 => (1 + r.below(9) as usize) << 32 | r.below(n) as usize,
            3 => usize::MAX - r.below(9000) as usize,
            _ => r.below(n) as usize,
        };
        let t = Transfer {
            dst: odd(r, n as u32 + 20),
            src: odd(r, n as u32 + 20),
            dstspan: odd(r, 80),
            srcspan: odd(r, 80),
            width: if r.one_in(40) { r.below(9000) as usize } else { odd(r, 40) },
            height: if r.one_in(40) { r.below(9000) as usize } else { odd(r, 12) },
            code: if r.one_in(2) { r.of(&[0xCC, 0xF0, 0x5A, 0x66, 0xB8, 0x00, 0xFF, 0xAA, 0xEE]) } else { r.byte() },
            leftward: r.one_in(2),
            upward: r.one_in(2),
            pattern: if r.one_in(30) { odd(r, 4480) } else { odd(r, 70).wrapping_mul(64) },
            row: odd(r, 9),
        };
        let input = format!("transfer {round}, {n} bytes: {t:?}");
        let got = library::transfer(&mut m[..n], t);
        expect(&input, got, video::transfer(&mut kept[..n], t));
        expect_bytes(&input, &m, &kept);
        done += usize::from(got == 0);
    }
    done
}

/// A SET or a FIELD of a register.
fn step_on(r: &mut Random, group: u8, index: u8) -> [u8; 6] {
    let (value, mask) = (r.byte(), r.byte());
    if r.one_in(2) { [1, group, index, value, 0, 0] } else { [2, group, index, value & mask, mask, 0] }
}

/// A step that is accepted, and seldom one at the edge or any bytes.
fn step(rows: &Rows, r: &mut Random) -> [u8; 6] {
    if r.one_in(2000) {
        return if r.one_in(2) { edge(rows, r) } else { [r.byte() % 5, r.byte() % 10, r.byte(), r.byte(), r.byte(), 0] };
    }
    if r.one_in(3) {
        return [3, r.byte(), r.byte(), r.byte(), r.byte(), 0];
    }
    let group = r.below(9) as u8;
    let index = r.of(rows.live(group));
    step_on(r, group, index)
}

/// A step on a register without a writable bit, listed or not.
fn idle(rows: &Rows, r: &mut Random) -> [u8; 6] {
    let group = r.below(6) as u8;
    let mut index = r.byte();
    while rows.writable(group as usize, index) != 0 || !script::is_name(group, index) {
        index = r.byte();
    }
    let listed = rows.read_only(group);
    if !listed.is_empty() && r.one_in(2) {
        index = r.of(listed);
    }
    step_on(r, group, index)
}

/// A step at the edge of what is accepted: AR14 is the last index, and AR the last group; SR07 and GR0F are the last that fit; a
/// register without a writable bit, and the same with a value outside its mask.
fn edge(rows: &Rows, r: &mut Random) -> [u8; 6] {
    let [_, group, index, ..] = idle(rows, r);
    match r.below(8) {
        0..=3 => {
            let (group, index) = r.of(&[
                (8, 0x13), (8, 0x14), (8, 0x15), (8, 0x34), (9, 0x00), (9, 0x14),
                (1, 0x07), (1, 0x08), (1, 0x0A), (1, 0xFF), (2, 0x0F), (2, 0x10), (2, 0x18),
            ]);
            step_on(r, group, index)
        }
        4 => [2, group, index, 0x81, 0x80, 0],
        _ => step_on(r, group, index),
    }
}

/// A step at the edge, or two, put over steps of a block, and the check mended.
fn put_edge(rows: &Rows, r: &mut Random, block: &mut [u8]) {
    for _ in 0..=r.below(2) {
        let at = 6 + 6 * r.below(u32::from(block[2]).clamp(1, 84)) as usize;
        block[at..at + 6].copy_from_slice(&edge(rows, r));
    }
    script::mend(block);
}

const GOOD: [u8; 6] = [1, 3, 0x60, 0x43, 0, 0];
const XR70: [u8; 6] = [1, 3, 0x70, 0x43, 0, 0];
const AR15: [u8; 6] = [1, 8, 0x15, 0x00, 0, 0];
const SR0A: [u8; 6] = [1, 1, 0x0A, 0x0F, 0, 0];

/// Lists of steps, each with the number that is due and the step that it names.
fn cases() -> Vec<(Vec<[u8; 6]>, u8, usize)> {
    let good = |count| vec![GOOD; count];
    vec![
        (vec![XR70], 11, 0),
        (vec![[2, 3, 0x70, 0x43, 0x43, 0]], 11, 0),
        (vec![[2, 3, 0x70, 0x00, 0x00, 0]], 11, 0),
        (vec![[1, 3, 0x07, 0x43, 0, 0]], 11, 0), // an unlisted index
        (vec![[2, 0, 0xFF, 0x00, 0xFF, 0]], 11, 0),
        (vec![[1, 0, 0x19, 0x00, 0, 0]], 11, 0), // the first behind CR18
        (vec![[1, 0, 0x22, 0x00, 0, 0]], 11, 0),
        (vec![[1, 1, 0x05, 0x00, 0, 0]], 11, 0),
        (vec![[1, 1, 0x06, 0x00, 0, 0]], 11, 0), // the last unlisted index of SR that fits
        (vec![[1, 2, 0x09, 0x00, 0, 0]], 11, 0),
        (vec![[2, 2, 0x0F, 0x00, 0xFF, 0]], 11, 0), // of GR
        (vec![[1, 4, 0x00, 0xFF, 0, 0]], 11, 0),
        (vec![[1, 5, 0x21, 0xFF, 0, 0]], 11, 0),
        (vec![AR15], 7, 0),
        (vec![SR0A], 7, 0),
        (vec![[2, 1, 0x08, 0x00, 0x00, 0]], 7, 0),
        (vec![[1, 1, 0xFF, 0x00, 0, 0]], 7, 0),
        (vec![[1, 2, 0x10, 0x00, 0, 0]], 7, 0),
        (vec![[2, 2, 0x18, 0x00, 0xFF, 0]], 7, 0),
        (vec![[1, 6, 0x01, 0x00, 0, 0]], 7, 0),
        (vec![[1, 9, 0x00, 0x00, 0, 0]], 7, 0),
        (vec![[2, 3, 0x70, 0x01, 0xFE, 0]], 7, 0), // a bit outside its mask, on a register without a writable bit
        (vec![[2, 3, 0x07, 0x80, 0x00, 0]], 7, 0),
        (vec![[1, 3, 0x70, 0x43, 1, 0]], 7, 0),
        (vec![[1, 3, 0x70, 0x43, 0, 1]], 7, 0),
        (vec![[0, 3, 0x70, 0x43, 0, 0]], 7, 0),
        (vec![GOOD, XR70, AR15, GOOD], 11, 1), // the first of two reports
        (vec![GOOD, AR15, XR70, GOOD], 7, 1),
        (vec![GOOD, SR0A, XR70], 7, 1),
        (vec![GOOD, XR70, SR0A], 11, 1),
        ([good(84), vec![XR70, AR15]].concat(), 11, 84),
        ([good(83), vec![AR15, XR70]].concat(), 7, 83),
        ([good(1007), vec![XR70]].concat(), 11, 1007),
        (vec![[2, 3, 0x60, 0x00, 0x00, 0]], 0, 0), // no bit of a register that has some
        (vec![[2, 3, 0x60, 0xBC, 0xBC, 0]], 0, 0), // none but bits that are not writable
        (vec![[2, 0, 0x11, 0x80, 0x80, 0], [1, 0, 0x00, 0x5F, 0, 0], [1, 0, 0x06, 0xFF, 0, 0]], 0, 0), // under protection
        (vec![[1, 8, 0x00, 0x3F, 0, 0], [1, 8, 0x14, 0x0F, 0, 0]], 0, 0),
        (vec![[1, 1, 0x02, 0x0F, 0, 0], [1, 1, 0x07, 0xFF, 0, 0], [1, 2, 0x08, 0xFF, 0, 0]], 0, 0), // onto these SR0A and GR18 would fold
        (vec![[1, 6, 0x00, 0xE3, 0, 0], [1, 7, 0x00, 0x00, 0, 0]], 0, 0),
        (vec![[3, 0x70, 0x70, 0x70, 0x70, 0]], 0, 0),
    ]
}

/// A step on every index of every group, SET and FIELD, checked.
fn singles(rows: &Rows, r: &mut Random) -> [usize; 2] {
    let (mut tried, mut tally) = (0, Tally::default());
    for (group, index) in (0..=9).flat_map(|g| (0..=255).map(move |i| (g, i))) {
        let mask = r.byte();
        for step in [[1, group, index, r.byte(), 0, 0], [2, group, index, r.byte() & mask, mask, 0], [2, group, index, 0, 0, 0]] {
            let file = script::file(&step);
            let checked = library::check_script(&file);
            expect(&format!("step {step:02X?}"), checked, script::check(rows, &file));
            tally.add(checked.0);
            tried += 1;
        }
    }
    [tried, tally.idle]
}

/// A file translated into the shorter list, into these bytes, beside what the plain translation answers: the same number, and the
/// same value where it is refused, else as many commands or fewer. How many fewer.
fn shortened(rows: &Rows, input: &str, file: &[u8], mut out: Vec<u8>, plain: (u8, usize)) -> usize {
    let mut kept = out.clone();
    let short = library::translate_short(file, &mut out);
    expect(input, short, script::translate_short(rows, file, &mut kept));
    expect_bytes(input, &out, &kept);
    expect(&format!("{input}: beside the plain list"), (short.0, short.1 <= plain.1), (plain.0, true));
    if short.0 != 0 {
        expect(&format!("{input}: refused"), short, plain);
    }
    plain.1 - short.1
}

/// These lists written, and as files checked, translated, shortened and played, by the library and by the model: the number and
/// the step are the ones that are due, also where the output is too small, and a refusal changes no byte of the file, the
/// commands or the state.
fn judged(rows: &Rows, r: &mut Random) -> usize {
    for (k, (steps, number, place)) in cases().iter().enumerate() {
        let list = steps.concat();
        let file = script::file(&list);
        let due = |value: usize| if *number == 0 { (0, value) } else { (*number, *place) };
        let input = format!("case {k}, {} steps, number {number} due", steps.len());
        assert_eq!(script::check(rows, &file), due(steps.len()), "{input}: checked by the model");
        expect(&format!("{input}: checked"), library::check_script(&file), due(steps.len()));
        for room in [file.len() + 7, 0] {
            let mut out: Vec<u8> = (0..room).map(|_| r.byte()).collect();
            let mut kept = out.clone();
            let want = if *number == 0 && room == 0 { (9, 0) } else { due(file.len() / 512) };
            assert_eq!(script::write(rows, &list, &mut kept), want, "{input}: written by the model");
            expect(&format!("{input}: written"), library::write_script(&list, &mut out), want);
            expect_bytes(&format!("{input}: written"), &out, &kept);
        }
        for room in [32 * steps.len() + 7, 0] {
            let mut out: Vec<u8> = (0..room).map(|_| r.byte()).collect();
            let (mut kept, held) = (out.clone(), out.clone());
            let translated = library::translate_script(&file, &mut out);
            expect(&format!("{input}: translated"), translated, script::translate(rows, &file, &mut kept));
            shortened(rows, &format!("{input}: shortened"), &file, held, translated);
            expect(&format!("{input}: translated"), translated.0, if *number == 0 && room == 0 { 9 } else { *number });
            expect_bytes(&format!("{input}: translated"), &out, &kept);
            let mut s = start(r, rows);
            s[rows.straps()] |= 2;
            let got = played(rows, &format!("{input}: played"), &mut s, &file, &mut out);
            expect(&format!("{input}: played"), got.0, translated.0);
        }
    }
    cases().len()
}

/// How often a number was 0, and how often 11.
#[derive(Default)]
struct Tally {
    done: usize,
    idle: usize,
}

impl Tally {
    fn add(&mut self, number: u8) {
        self.done += usize::from(number == 0);
        self.idle += usize::from(number == 11);
    }
}

/// Lists of steps written as files; those files, whole and damaged, checked and translated, plain and short, and where steps'
/// commands begin. Beside the tallies how many short lists are shorter than the plain ones, and by how many commands in all.
fn scripts(rows: &Rows, r: &mut Random, rounds: usize) -> ([Tally; 3], [usize; 2]) {
    let (mut tallies, mut shorter): ([Tally; 3], _) = (Default::default(), [0; 2]);
    for round in 0..rounds {
        let count = if r.one_in(8) { r.below(1020) } else { r.below(180) };
        let mut list: Vec<u8> = (0..count).flat_map(|_| step(rows, r)).collect();
        if r.one_in(20) {
            list.push(0);
        }
        let blocks = list.len().div_ceil(504).max(1);
        let room = if r.one_in(10) { r.below(512 * blocks as u32 + 1) as usize } else { 512 * blocks + r.below(40) as usize };
        let mut file: Vec<u8> = (0..room).map(|_| r.byte()).collect();
        let mut kept = file.clone();
        let input = format!("script {round}: {count} steps to {room} bytes");
        let written = library::write_script(&list, &mut file);
        expect(&input, written, script::write(rows, &list, &mut kept));
        expect_bytes(&input, &file, &kept);
        tallies[0].add(written.0);
        file.truncate(512 * written.1.min(12));
        if r.one_in(2) && !file.is_empty() {
            // a byte changed, and half the time the block's check mended
            let at = r.below(file.len() as u32) as usize;
            file[at] = if r.one_in(3) { r.byte() } else { file[at] ^ (1 << r.below(8)) };
            let start = at / 512 * 512;
            let mend = r.one_in(2);
            if let Some(b) = file.get_mut(start..start + 512).filter(|_| mend) {
                script::mend(b);
            }
        } else if file.len() >= 512 && r.one_in(4) {
            put_edge(rows, r, &mut file[..512]);
        }
        if r.one_in(20) {
            file.truncate(r.below(file.len() as u32 + 1) as usize);
        }
        let input = format!("script {round}, {} bytes", file.len());
        let checked = library::check_script(&file);
        expect(&input, checked, script::check(rows, &file));
        tallies[1].add(checked.0);
        let most = 32 * count + 40;
        let room = if r.one_in(5) { r.below(most) } else { most } as usize;
        let mut commands: Vec<u8> = (0..room).map(|_| r.byte()).collect();
        let (mut kept, held) = (commands.clone(), commands.clone());
        let translated = library::translate_script(&file, &mut commands);
        expect(&format!("{input}, translated"), translated, script::translate(rows, &file, &mut kept));
        expect_bytes(&format!("{input}, translated"), &commands, &kept);
        tallies[2].add(translated.0);
        let less = shortened(rows, &format!("{input}, shortened"), &file, held, translated);
        shorter = [shorter[0] + usize::from(less > 0), shorter[1] + less];
        for step in [0, 1, r.below(count + 2) as usize, count as usize, usize::MAX] {
            let place = format!("{input}, before step {step}");
            expect(&place, library::step_commands(&file, step), script::begins(rows, &file, step));
            expect(&place, library::short_step_commands(&file, step), script::short_begins(rows, &file, step));
        }
    }
    (tallies, shorter)
}

/// A file played on a state: what is left is what the commands do; registers, AR among them, and colours are what the steps say
/// by name, after some of the steps too; and there is a picture if there was one. As many commands change something as in a run
/// of those steps and one of the others after it. A refusal changes nothing, and closed ports refuse the first command. What the
/// library returns.
fn played(rows: &Rows, input: &str, s: &mut [u8], file: &[u8], commands: &mut [u8]) -> (u8, usize, usize, usize) {
    let mut expected = Vec::new();
    let mut kept = commands.to_vec();
    let mut part = s.to_vec();
    let before = Chip::from_bytes(rows, s);
    let index = library::port_read(s, 0x3C0);
    let got = library::play(s, file, commands);

    let mut after = before.clone();
    let translated = script::translate(rows, file, &mut kept);
    let want = match translated {
        (0, k) => after.run(rows, &kept[..4 * k], k),
        (number, value) => (number, 0, value, 0),
    };
    expect(input, got, want);
    after.to_bytes(rows, &mut expected);
    expect_bytes(input, s, &expected);
    expect_bytes(&format!("{input}, commands"), commands, &kept);

    if translated.0 != 0 || !before.is_open() {
        expect(&format!("{input}, refused"), Chip::from_bytes(rows, s) == before, true);
        return got;
    }
    let steps = script::steps(rows, file).unwrap();
    let some = usize::from(file[510]) % (steps.len() + 1);
    let limit = library::step_commands(file, some).1;
    let all = &commands[..4 * translated.1];
    let first = before.clone().run(rows, all, limit).3;
    let mut said = before;
    steps[..some].iter().for_each(|step| said.apply(rows, step));
    expect(&format!("{input}, {some} steps"), library::run(&mut part, all, limit), (0, limit, 0, first));
    expect_bytes(&format!("{input}, {some} steps by name"), &Chip::from_bytes(rows, &part).named(), &said.named());
    steps[some..].iter().for_each(|step| said.apply(rows, step));
    let (count, changing) = (translated.1 - limit, got.3.wrapping_sub(first));
    expect(&format!("{input}, the other steps"), library::run(&mut part, &all[4 * limit..], count), (0, count, 0, changing));
    expect_bytes(&format!("{input}, the other steps"), &part, s);
    expect(&format!("{input}, carried out"), got, (0, translated.1, 0, want.3));
    expect_bytes(&format!("{input}, by name"), &Chip::from_bytes(rows, s).named(), &said.named());
    expect(&format!("{input}, bit 5 of 3C0h"), library::port_read(s, 0x3C0).1 & 0x20, index.1 & 0x20);
    got
}

/// Files, a few of them damaged, played on states whose indexes and turn are stale and whose colour may be half loaded. Beside
/// the tally how many commands were carried out, and how many of them changed a register or a colour.
fn plays(rows: &Rows, r: &mut Random, rounds: usize) -> (Tally, [usize; 2]) {
    let (mut tally, mut totals) = (Tally::default(), [0; 2]);
    for round in 0..rounds {
        let mut s = start(r, rows);
        for _ in 0..r.below(30) {
            library::port_write(&mut s, port(r), r.byte());
        }
        let count = 1 + r.below(60) as usize;
        let list: Vec<u8> = (0..count).flat_map(|_| step(rows, r)).collect();
        let mut file = vec![0; 512];
        let written = library::write_script(&list, &mut file);
        if written.0 != 0 || r.one_in(10) {
            file[r.below(512) as usize] ^= 1 << r.below(8);
        } else if r.one_in(10) {
            put_edge(rows, r, &mut file);
        }
        let room = if r.one_in(20) { r.below(32 * count as u32) } else { 32 * count as u32 + r.below(9) } as usize;
        let mut commands: Vec<u8> = (0..room).map(|_| r.byte()).collect();
        let input = format!("play {round}: {:02X?} in {room} bytes", &file[6..6 + 6 * count]);
        let (number, count, _, changing) = played(rows, &input, &mut s, &file, &mut commands);
        tally.add(number);
        totals = [totals[0] + count, totals[1] + changing];
    }
    (tally, totals)
}

/// So many steps among which one index goes to one port again and again: a third of them on MSR, each with a say on bit 0, which
/// picks the CR pair; a third on three registers of CR; the others on two colours, on two registers of each group, or any.
fn repeating(rows: &Rows, r: &mut Random, count: usize) -> Vec<u8> {
    let crs = [0; 3].map(|_| r.of(rows.live(0)));
    let few: Vec<[u8; 2]> = (0..9).map(|g| [0; 2].map(|_| r.of(rows.live(g)))).collect();
    let entries = [r.byte(), r.byte()];
    let mut one = || match r.below(12) {
        0..=3 => {
            let (value, mask) = (r.byte(), r.byte() | 1);
            if r.one_in(2) { [1, 6, 0, value, 0, 0] } else { [2, 6, 0, value & mask, mask, 0] }
        }
        4..=7 => {
            let index = r.of(&crs);
            step_on(r, 0, index)
        }
        8 => [3, r.of(&entries), r.byte(), r.byte(), r.byte(), 0],
        9 | 10 => {
            let group = r.below(9) as u8;
            let index = r.of(&few[group as usize]);
            step_on(r, group, index)
        }
        _ => step(rows, r),
    };
    (0..count).flat_map(|_| one()).collect()
}

/// What has to happen in `shorts`, and often.
const SHORT: [&str; 9] = [
    "steps whose commands were run",
    "index writes were left out",
    "index writes were left out at a CR port",
    "index writes were left out at a CR port while the other CR pair was picked than at the CR step before",
    "index writes were left out at a port of another group",
    "index writes were left out of a FIELD step",
    "index writes were left out at a port that the step before did not write to",
    "repeated writes to 3C8h stayed",
    "lists met closed ports",
];

/// Shorter lists (document 02, P8), on states whose indexes and turn are stale and whose colour may be half loaded. After every
/// number of steps, a run of the short commands of those steps leaves the state that the plain ones leave, to the byte, and as
/// many of them change a register or a colour; registers, AR among them, colours and the picture are what those steps say by
/// name. Closed ports refuse the first command. How often each of `SHORT` happened.
fn shorts(rows: &Rows, r: &mut Random, rounds: usize) -> [usize; SHORT.len()] {
    let (mut expected, mut met) = (Vec::new(), [0; SHORT.len()]);
    for round in 0..rounds {
        let mut s = start(r, rows);
        s[rows.straps()] |= 2;
        for _ in 0..r.below(30) {
            library::port_write(&mut s, port(r), r.byte());
        }
        let count = 1 + r.below(80) as usize;
        let mut file = script::file(&repeating(rows, r, count));
        while script::check(rows, &file).0 != 0 {
            file = script::file(&repeating(rows, r, count));
        }
        let script = format!("short list {round} of {:02X?}", &file[6..6 + 6 * count]);
        let mut commands: Vec<u8> = (0..32 * count).map(|_| r.byte()).collect();
        let mut kept = commands.clone();
        let (number, total) = library::translate_short(&file, &mut commands);
        expect(&script, (number, total), script::translate_short(rows, &file, &mut kept));
        expect_bytes(&script, &commands, &kept);
        commands.truncate(4 * total);
        if r.one_in(16) {
            s[rows.straps()] &= !2;
            let mut part = s.clone();
            expect(&format!("{script}, closed"), library::run(&mut part, &commands, usize::MAX), (2, 0, 0, 0));
            expect_bytes(&format!("{script}, closed"), &part, &s);
            met[8] += 1;
            continue;
        }

        let steps = script::steps(rows, &file).unwrap();
        let marked = script::marked(&steps);
        let before = Chip::from_bytes(rows, &s);
        let (mut after, mut said) = (before.clone(), before.clone());
        let (mut limit, mut changing) = (0, 0);
        let (mut written, mut pair, mut entry) = ([None; script::INDEX_PORTS.len()], None, None);
        for n in 0..=count {
            let input = format!("{script}, {n} steps");
            let mut part = s.clone();
            after.to_bytes(rows, &mut expected);
            expect(&format!("{input}, where they end"), library::short_step_commands(&file, n), (0, limit));
            expect(&input, library::run(&mut part, &commands, limit), (0, limit, 0, changing));
            expect_bytes(&input, &part, &expected);
            expect_bytes(&format!("{input} by name"), &Chip::from_bytes(rows, &part).named(), &said.named());
            let Some(share) = marked.get(n) else { break };

            let picked = after.register(6, 0).1 & 1;
            for m in share {
                let Some(port) = m.index_port() else {
                    if m.command[..3] == [1, 0xC8, 3] {
                        met[7] += usize::from(entry.replace(m.command[3]) == Some(m.command[3]));
                    }
                    continue;
                };
                if !m.stays {
                    met[1] += 1;
                    met[if port < 2 { 2 } else { 4 }] += 1;
                    met[3] += usize::from(port < 2 && pair != Some(picked));
                    met[5] += usize::from(steps[n][0] == 2);
                    met[6] += usize::from(written[port] != Some(n - 1));
                }
                written[port] = Some(n);
            }
            if steps[n][0] != 3 && steps[n][1] == 0 {
                pair = Some(picked);
            }
            met[0] += 1;
            limit += share.iter().filter(|m| m.stays).count();
            let plain = share.iter().flat_map(|m| m.command).collect::<Vec<u8>>();
            changing += after.run(rows, &plain, usize::MAX).3;
            said.apply(rows, steps[n]);
        }
        let plain = marked.iter().flatten().flat_map(|m| m.command).collect::<Vec<u8>>();
        let mut whole = before;
        assert_eq!(whole.run(rows, &plain, usize::MAX), (0, plain.len() / 4, 0, changing), "{script}: the plain list at once");
        assert!(whole == after, "{script}: the plain list at once");
    }
    for (what, n) in SHORT.iter().zip(met) {
        assert!(n > 1000, "only {n} {what}");
    }
    met
}

fn main() {
    let rows = Rows::read();
    let r = &mut Random(69000);
    println!("{} resets agree", resets(&rows, r));
    println!("{} port accesses agree", accesses(&rows, r, 4000, 1000));
    println!("{} registers and colours by name agree", names(&rows, r, 200));
    let (commands, [ended, limited, stopped]) = runs(&rows, r, 100_000);
    println!(
        "{commands} commands of 100000 runs agree; {} changed a register or a colour, {} in runs to a limit, {} in stopped ones",
        ended + limited + stopped, limited, stopped
    );
    assert!(ended > 0 && limited > 0 && stopped > 0, "commands of runs of each ending change something");
    expect("the versions", library::versions(), (4, 2));
    println!("{} rooms come back as they were saved", saved(&rows, r, 500));
    println!("{} lengths that are no state's are refused", lengths(r));
    println!("{} bytes of memory agree", memory(r, 10_000));
    println!("{} transfers of 100000 are done and agree, the others are refused alike", transfers(r, 100_000));
    println!("{} lists of steps are judged as is due", judged(&rows, r));
    let [steps, idle] = singles(&rows, r);
    println!("{steps} single steps agree, {idle} of them refused with 11");
    let ([written, checked, translated], [shorter, less]) = scripts(&rows, r, 20_000);
    println!(
        "20000 scripts agree: {} written, {} accepted, {} translated, the others refused alike, with 11 {}, {} and {} of them",
        written.done, checked.done, translated.done, written.idle, checked.idle, translated.idle
    );
    println!("{} short lists of them agree; {shorter} are shorter than the plain, by {less} commands in all", translated.done);
    assert!(shorter > 1000, "only {shorter} short lists are shorter");
    let (played, [commands, changing]) = plays(&rows, r, 50_000);
    println!(
        "50000 scripts played agree: {} did what they say by name, {} were refused alike and changed nothing, with 11 {} of them",
        played.done, 50_000 - played.done, played.idle
    );
    println!("{commands} commands of scripts played agree; {changing} changed a register or a colour");
    let [steps, less, cr, crossed, others, field, apart, colours, closed] = shorts(&rows, r, 20_000);
    println!(
        "20000 short lists agree: {} after each of {steps} steps, to the byte and by name, and {closed} refused by closed ports",
        20_000 - closed
    );
    println!(
        "{less} index writes left out, {cr} at CR ports, {crossed} of them behind a change of the pair picked; {others} at others; \
         {field} of FIELD steps; {apart} with other steps in between; {colours} repeats at 3C8h stay"
    );
    for (way, tally) in [("written", written), ("checked", checked), ("translated", translated), ("played", played)] {
        assert!(tally.idle > 0, "no script that was {way} was refused with 11");
    }
}
