//! Scripts, written from documents 01 and 02 (P1, P2, P5, P8): a file checked, a list of steps written as a file, a file
//! translated into commands and into a shorter list of them, and where a step's commands begin. Each answers a number and a
//! value. The commands of group 8 are those of docs/SCOPE.md, Commands.

use crate::model::Rows;

/// Whether a step may name the register: the index of SR fits in three bits, that of GR in four.
pub fn is_name(group: u8, index: u8) -> bool {
    match group {
        0 | 3..=5 => true,
        1 => index < 8,
        2 => index < 16,
        6 | 7 => index == 0,
        8 => index <= 0x14,
        _ => false,
    }
}

fn is_step(s: &[u8]) -> bool {
    match s[0] {
        1 => is_name(s[1], s[2]) && s[4] == 0 && s[5] == 0,
        2 => is_name(s[1], s[2]) && s[3] & !s[4] == 0 && s[5] == 0,
        3 => s[5] == 0,
        _ => false,
    }
}

/// Of one step 7 comes before 11, a SET or a FIELD whose register has no writable bit in its row, whatever the state; 0 is
/// accepted.
fn judged(rows: &Rows, s: &[u8]) -> u8 {
    if !is_step(s) {
        7
    } else if s[0] != 3 && rows.writable(s[1] as usize, s[2]) == 0 {
        11
    } else {
        0
    }
}

/// The first bad step's number and place.
fn first_bad<'a>(rows: &Rows, steps: impl Iterator<Item = &'a [u8]>) -> Option<(u8, usize)> {
    steps.enumerate().map(|(j, s)| (judged(rows, s), j)).find(|&(number, _)| number != 0)
}

fn sum(block: &[u8]) -> u16 {
    block.chunks(2).fold(0u16, |n, w| n.wrapping_add(u16::from_le_bytes([w[0], w[1]])))
}

fn is_block(b: &[u8], number: usize, last: bool) -> bool {
    let count = b[2] as usize;
    usize::from(u16::from_le_bytes([b[0], b[1]])) == number
        && (if last { (1..=84).contains(&count) } else { count == 84 })
        && b[3] == u8::from(last)
        && b[4] == 0
        && b[5] == 0
        && b[6 + 6 * count..510].iter().all(|&x| x == 0)
        && sum(b) == 1
}

/// The steps of a file, or the refusal.
pub fn steps<'a>(rows: &Rows, file: &'a [u8]) -> Result<Vec<&'a [u8]>, (u8, usize)> {
    let blocks = file.len() / 512;
    if file.len() % 512 != 0 || !(1..=12).contains(&blocks) {
        return Err((8, 0));
    }
    for (k, b) in file.chunks(512).enumerate() {
        if !is_block(b, k, k + 1 == blocks) {
            return Err((6, k));
        }
    }
    let list: Vec<&[u8]> = file.chunks(512).flat_map(|b| b[6..6 + 6 * b[2] as usize].chunks(6)).collect();
    match first_bad(rows, list.iter().copied()) {
        Some(bad) => Err(bad),
        None => Ok(list),
    }
}

pub fn check(rows: &Rows, file: &[u8]) -> (u8, usize) {
    steps(rows, file).map_or_else(|e| e, |list| (0, list.len()))
}

/// Puts the right check into a block.
pub fn mend(b: &mut [u8]) {
    let check = 1u16.wrapping_sub(sum(&b[..510]));
    b[510..].copy_from_slice(&check.to_le_bytes());
}

fn block(number: usize, steps: &[u8], last: bool) -> Vec<u8> {
    let mut b = vec![number as u8, 0, (steps.len() / 6) as u8, u8::from(last), 0, 0];
    b.extend(steps);
    b.resize(512, 0);
    mend(&mut b);
    b
}

/// The blocks of a list of whole steps, whatever the steps are.
pub fn file(list: &[u8]) -> Vec<u8> {
    list.chunks(504).enumerate().flat_map(|(k, s)| block(k, s, (k + 1) * 504 >= list.len())).collect()
}

pub fn write(rows: &Rows, list: &[u8], out: &mut [u8]) -> (u8, usize) {
    let count = list.len() / 6;
    if list.len() % 6 != 0 || !(1..=1008).contains(&count) {
        return (8, 0);
    }
    if let Some(bad) = first_bad(rows, list.chunks(6)) {
        return bad;
    }
    let file = file(list);
    if out.len() < file.len() {
        return (9, 0);
    }
    out[..file.len()].copy_from_slice(&file);
    (0, file.len() / 512)
}

fn out(port: u16, v: u8) -> [u8; 4] {
    [1, port as u8, (port >> 8) as u8, v]
}

/// IN to the accumulator.
fn read_in(port: u16) -> [u8; 4] {
    [2, port as u8, (port >> 8) as u8, 0]
}

/// OUT of the accumulator.
fn out_held(port: u16) -> [u8; 4] {
    [4, port as u8, (port >> 8) as u8, 0]
}

/// The commands of a step; a pair is an index port and a data port, and MSR and PALMASK have a port to read and one to write.
/// Before the attribute index is written, input status 1 is read at both its ports, one of which returns the turn, and bit 5 of
/// the index is read, to be written again.
fn expanded(s: &[u8]) -> Vec<[u8; 4]> {
    let pairs: &[u16] = match s[1] {
        0 => &[0x3B4, 0x3D4],
        1 => &[0x3C4],
        2 => &[0x3CE],
        3 => &[0x3D6],
        4 => &[0x3D0],
        _ => &[0x3D2],
    };
    let change = |read: u16, write: u16| vec![read_in(read), [3, !s[4], s[3], 0], out_held(write)];
    let aimed = vec![read_in(0x3BA), read_in(0x3DA), read_in(0x3C0), [3, 0x20, s[2], 0], out_held(0x3C0)];
    match (s[0], s[1]) {
        (3, _) => vec![out(0x3C8, s[1]), out(0x3C9, s[2]), out(0x3C9, s[3]), out(0x3C9, s[4])],
        (1, 6) => vec![out(0x3C2, s[3])],
        (1, 7) => vec![out(0x3C6, s[3])],
        (1, 8) => [aimed, vec![out(0x3C0, s[3])]].concat(),
        (1, _) => pairs.iter().flat_map(|&p| [out(p, s[2]), out(p + 1, s[3])]).collect(),
        (_, 6) => change(0x3CC, 0x3C2),
        (_, 7) => change(0x3C6, 0x3C6),
        (_, 8) => [aimed, change(0x3C1, 0x3C0)].concat(),
        (_, _) => pairs.iter().flat_map(|&p| [vec![out(p, s[2])], change(p + 1, p + 1)].concat()).collect(),
    }
}

/// Commands of the steps of a file, put into an output that has 32 bytes for each step.
fn put(rows: &Rows, file: &[u8], room: &mut [u8], commands: impl Fn(&[&[u8]]) -> Vec<[u8; 4]>) -> (u8, usize) {
    let list = match steps(rows, file) {
        Ok(list) => list,
        Err(e) => return e,
    };
    if room.len() < 32 * list.len() {
        return (9, 0);
    }
    let bytes = commands(&list).concat();
    room[..bytes.len()].copy_from_slice(&bytes);
    (0, bytes.len() / 4)
}

pub fn translate(rows: &Rows, file: &[u8], room: &mut [u8]) -> (u8, usize) {
    put(rows, file, room, |list| list.iter().flat_map(|s| expanded(s)).collect())
}

/// The groups' index ports: of CR two, then of SR, GR, XR, FR and MR. 3C8h and 3C0h are not among them.
pub const INDEX_PORTS: [u16; 7] = [0x3B4, 0x3D4, 0x3C4, 0x3CE, 0x3D6, 0x3D0, 0x3D2];

/// A command of the plain list, and whether the shorter list has it too.
pub struct Marked {
    pub command: [u8; 4],
    pub stays: bool,
}

impl Marked {
    /// The place in `INDEX_PORTS` of the port that the command writes to.
    pub fn index_port(&self) -> Option<usize> {
        let port = u16::from_le_bytes([self.command[1], self.command[2]]);
        INDEX_PORTS.iter().position(|&p| self.command[0] == 1 && p == port)
    }
}

/// The plain list, step by step, walked with a memory of what each index port was last sent (document 02, P8): a write that sends
/// the same to the same port is left out. It counts as sent all the same, since the rule is said of the plain list.
pub fn marked(list: &[&[u8]]) -> Vec<Vec<Marked>> {
    let mut sent = [None; INDEX_PORTS.len()];
    let mut mark = |command: [u8; 4]| {
        let mut m = Marked { command, stays: true };
        if let Some(port) = m.index_port() {
            m.stays = sent[port] != Some(command[3]);
            sent[port] = Some(command[3]);
        }
        m
    };
    list.iter().map(|s| expanded(s).into_iter().map(&mut mark).collect()).collect()
}

/// The shorter list. The share of each step in it is what `marked` has of that step and stays.
pub fn translate_short(rows: &Rows, file: &[u8], room: &mut [u8]) -> (u8, usize) {
    put(rows, file, room, |list| marked(list).iter().flatten().filter(|m| m.stays).map(|m| m.command).collect())
}

/// Where the commands of a step begin: how many the steps before it have, and past the last step all of them.
pub fn begins(rows: &Rows, file: &[u8], step: usize) -> (u8, usize) {
    steps(rows, file).map_or_else(|e| e, |list| (0, list.iter().take(step).map(|s| expanded(s).len()).sum()))
}

/// The same in the shorter list.
pub fn short_begins(rows: &Rows, file: &[u8], step: usize) -> (u8, usize) {
    let share = |list: Vec<&[u8]>| marked(&list).iter().take(step).flatten().filter(|m| m.stays).count();
    steps(rows, file).map_or_else(|e| e, |list| (0, share(list)))
}
