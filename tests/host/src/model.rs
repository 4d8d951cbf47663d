//! The chip, written from documents 01 and 02 (P1, P2, P5, P6, P7) and from nothing else of this repository but the independent
//! reading of the databook, tests/registers.csv, from which the rows of registers are taken.

use std::collections::HashMap;

const READING: &str = include_str!("../../registers.csv");
const GROUPS: [&str; 9] = ["CR", "SR", "GR", "XR", "FR", "MR", "MSR", "PALMASK", "AR"];

/// Writable bits and reset byte of a register, by group number and index; and of each group the indexes whose register has a writable
/// bit, and those that are listed and have none; and the row of all that have an index, in the order in which a state has them.
pub struct Rows {
    bytes: HashMap<(usize, u8), (u8, u8)>,
    live: Vec<Vec<u8>>,
    read_only: Vec<Vec<u8>>,
    row: Vec<(usize, u8)>,
}

impl Rows {
    pub fn read() -> Rows {
        let hex = |word: &str| u8::from_str_radix(word, 16).unwrap();
        let mut rows = HashMap::new();
        for line in READING.lines().filter(|l| !l.is_empty() && !l.starts_with('#') && !l.starts_with("group,")) {
            let words: Vec<&str> = line.split(',').collect();
            let g = GROUPS.iter().position(|name| *name == words[0]).unwrap();
            // the bytes that a reset takes from pins are made in `reset`
            let reset = if ["CFG1<<1", "PIN0|01", "PIN1"].contains(&words[3]) { 0 } else { hex(words[3]) };
            rows.insert((g, hex(words[1])), (hex(words[2]), reset));
        }
        assert!(rows.len() > 200, "only {} rows of registers were found", rows.len());
        // decided otherwise than it is read: docs/DATABOOK.md
        rows.insert((FR, 0x25), (0xFF, 0));
        let listed = |g: usize, live: bool| (0..=255).filter(|&i| rows.get(&(g, i)).is_some_and(|r| (r.0 != 0) == live)).collect();
        let live = (0..=AR).map(|g| listed(g, true)).collect();
        let read_only = (0..=AR).map(|g| listed(g, false)).collect();
        let row = [0, 1, 2, 3, 4, 5, AR].into_iter().flat_map(|g| (0..=255).map(move |i| (g, i))).filter(|name| rows.contains_key(name)).collect();
        Rows { bytes: rows, live, read_only, row }
    }

    pub fn writable(&self, g: usize, i: u8) -> u8 {
        self.bytes.get(&(g, i)).map_or(0, |r| r.0)
    }

    pub fn reset(&self, g: usize, i: u8) -> u8 {
        self.bytes.get(&(g, i)).map_or(0, |r| r.1)
    }

    fn is_listed(&self, g: usize, i: u8) -> bool {
        self.bytes.contains_key(&(g, i))
    }

    /// Where XR70 stands in a state, whose bit 1 opens the ports.
    pub fn straps(&self) -> usize {
        14 + 768 + self.row.iter().position(|name| *name == (XR, 0x70)).unwrap()
    }

    pub fn live(&self, g: u8) -> &[u8] {
        &self.live[g as usize]
    }

    pub fn read_only(&self, g: u8) -> &[u8] {
        &self.read_only[g as usize]
    }
}

#[derive(Clone, PartialEq, Debug)]
pub struct Chip {
    tables: [[u8; 256]; 7],
    indexes: [u8; 7],
    msr: u8,
    palmask: u8,
    palette: [[u8; 3]; 256],
    index: u8,
    position: u8,
    held: [u8; 2],
    reading: bool,
    /// Port 3C0h takes data next.
    turn: bool,
    /// Bit 5 of the attribute index; of the low five and of the others `indexes` has the byte.
    picture: bool,
    spare: u8,
}

const CR: usize = 0;
const XR: usize = 3;
const FR: usize = 4;
const MSR: usize = 6;
const PALMASK: usize = 7;
const AR: usize = 8;

/// The bits that an index register keeps, by table: chapters 9 to 12 and 14 with document 02, P5; for FR and MR no chapter shows one.
const INDEX_BITS: [u8; 7] = [0xFF, 0x07, 0x0F, 0xFF, 0xFF, 0xFF, 0x1F];

/// The place of an indexed group's table and index: AR, group 8, comes after the six.
fn table(g: usize) -> usize {
    if g == AR { 6 } else { g }
}

/// What writes have to meet somewhere in a test.
pub const MET: [&str; 10] = [
    "to the CR pair that is not picked",
    "of an attribute index",
    "of an attribute register",
    "to an index that is not listed",
    "to a protected CR register",
    "to a protected AR register",
    "of the byte that was there",
    "of a colour",
    "of the colour that was there",
    "of one that read the same and was stored otherwise",
];

/// What a port leads to.
#[derive(PartialEq)]
enum Port {
    Index(usize),
    Data(usize),
    Msr,
    Palmask,
    ReadIndex,
    WriteIndex,
    Paldata,
    Attribute,
    Status,
    NotPicked,
}

impl Chip {
    pub fn reset(rows: &Rows, first: u8, second: u8) -> Chip {
        let mut tables = [[0; 256]; 7];
        for g in [0, 1, 2, 3, 4, 5, AR] {
            for i in 0..=255u8 {
                tables[table(g)][i as usize] = rows.reset(g, i);
            }
        }
        tables[XR][0x70] = first | 1;
        tables[XR][0x71] = second;
        tables[XR][0x08] = first & 2;
        Chip {
            tables,
            indexes: [0; 7],
            msr: 0,
            palmask: 0,
            palette: [[0; 3]; 256],
            index: 0,
            position: 0,
            held: [0; 2],
            reading: false,
            turn: false,
            picture: false,
            spare: 0,
        }
    }

    /// The chip that bytes hold (document 02, P7): MSR and PALMASK, the indexes, the palette's loading state and the flags, of which
    /// bit 0 is that of the palette's loading state, bit 1 the turn, bit 2 the picture; then the palette, and the row of the listed
    /// registers. The tables have 00h where an index is not listed.
    pub fn from_bytes(rows: &Rows, b: &[u8]) -> Chip {
        let mut at = b.iter().copied();
        let mut next = || at.next().unwrap();
        let (msr, palmask) = (next(), next());
        let mut indexes = [0; 7];
        indexes.iter_mut().for_each(|x| *x = next());
        let (index, position, held, flags) = (next(), next(), [next(), next()], next());
        let (reading, turn, picture) = (flags & 1 != 0, flags & 2 != 0, flags & 4 != 0);
        let mut palette = [[0; 3]; 256];
        palette.iter_mut().flatten().for_each(|x| *x = next());
        let mut tables = [[0; 256]; 7];
        rows.row.iter().for_each(|&(g, i)| tables[table(g)][i as usize] = next());
        Chip { tables, indexes, msr, palmask, palette, index, position, held, reading, turn, picture, spare: flags >> 3 }
    }

    pub fn to_bytes(&self, rows: &Rows, out: &mut Vec<u8>) {
        out.clear();
        out.extend([self.msr, self.palmask]);
        out.extend(self.indexes);
        let flags = self.spare << 3 | u8::from(self.picture) << 2 | u8::from(self.turn) << 1 | u8::from(self.reading);
        out.extend([self.index, self.position, self.held[0], self.held[1], flags]);
        out.extend(self.palette.iter().flatten());
        out.extend(rows.row.iter().map(|&(g, i)| self.tables[table(g)][i as usize]));
    }

    fn leads(&self, port: u16, write: bool) -> Option<Port> {
        let picked = |colour: bool, p: Port| if (self.msr & 1 == 1) == colour { p } else { Port::NotPicked };
        Some(match port {
            0x3B4 => picked(false, Port::Index(CR)),
            0x3B5 => picked(false, Port::Data(CR)),
            0x3D4 => picked(true, Port::Index(CR)),
            0x3D5 => picked(true, Port::Data(CR)),
            0x3C4 => Port::Index(1),
            0x3C5 => Port::Data(1),
            0x3CE => Port::Index(2),
            0x3CF => Port::Data(2),
            0x3D6 => Port::Index(3),
            0x3D7 => Port::Data(3),
            0x3D0 => Port::Index(4),
            0x3D1 => Port::Data(4),
            0x3D2 => Port::Index(5),
            0x3D3 => Port::Data(5),
            0x3C2 if write => Port::Msr,
            0x3CC if !write => Port::Msr,
            0x3C6 => Port::Palmask,
            0x3C7 => Port::ReadIndex,
            0x3C8 => Port::WriteIndex,
            0x3C9 => Port::Paldata,
            0x3C0 => Port::Attribute,
            0x3C1 if !write => Port::Data(AR),
            0x3BA if !write => picked(false, Port::Status),
            0x3DA if !write => picked(true, Port::Status),
            _ => return None,
        })
    }

    pub fn is_open(&self) -> bool {
        self.tables[XR][0x70] & 2 != 0
    }

    fn is_eight_bit(&self) -> bool {
        self.tables[XR][0x80] & 0x80 != 0
    }

    fn by_mode(&self, v: u8) -> u8 {
        if self.is_eight_bit() { v } else { v % 64 }
    }

    /// Red, green or blue: any other position counts as red.
    fn at(&self) -> usize {
        if self.position <= 2 { self.position as usize } else { 0 }
    }

    fn move_on(&mut self) {
        if self.at() == 2 {
            self.index = self.index.wrapping_add(1);
        }
        self.position = (self.at() as u8 + 1) % 3;
    }

    fn write_rule(old: u8, v: u8, mask: u8) -> u8 {
        (0..8).map(|k| 1 << k).map(|bit| if mask & bit != 0 { v & bit } else { old & bit }).sum()
    }

    /// What names a register of a group at its data port: any byte may stand there, of which other bits than those kept count for nothing.
    fn index_of(&self, g: usize) -> u8 {
        self.indexes[table(g)] & INDEX_BITS[table(g)]
    }

    fn set_index(&mut self, g: usize, v: u8) {
        self.indexes[table(g)] = v & INDEX_BITS[table(g)];
    }

    /// The byte of a register, by name.
    fn get(&self, g: usize, i: u8) -> u8 {
        match g {
            MSR => self.msr,
            PALMASK => self.palmask,
            _ => self.tables[table(g)][i as usize],
        }
    }

    /// A register as a host asks for it: the number and the byte. Groups are 0 to 8; MSR and PALMASK have no index.
    pub fn register(&self, group: u8, index: u8) -> (u8, u8) {
        if group > 8 { (254, 0xFF) } else { (0, self.get(group as usize, index)) }
    }

    /// The colour that an entry stores.
    pub fn entry(&self, entry: u8) -> [u8; 3] {
        self.palette[entry as usize]
    }

    /// Whether a register is protected: CR00 to CR07 by CR11, and AR00 to AR0F while there is a picture (chapter 12).
    fn is_protected(&self, g: usize, i: u8) -> bool {
        g == CR && i <= 7 && self.tables[CR][0x11] & 0x80 != 0 || g == AR && i <= 0x0F && self.picture
    }

    /// A register receives a byte, by name.
    fn put(&mut self, rows: &Rows, g: usize, i: u8, v: u8) {
        let mut mask = rows.writable(g, i);
        if self.is_protected(g, i) {
            mask &= if (g, i) == (CR, 7) { 0x10 } else { 0 };
        }
        let byte = Chip::write_rule(self.get(g, i), v, mask);
        match g {
            MSR => self.msr = byte,
            PALMASK => self.palmask = byte,
            _ => self.tables[table(g)][i as usize] = byte,
        }
    }

    fn put_colour(&mut self, entry: u8, colour: [u8; 3]) {
        self.palette[entry as usize] = colour.map(|x| self.by_mode(x));
    }

    /// A step of a script, by name: no index and no port.
    pub fn apply(&mut self, rows: &Rows, s: &[u8]) {
        let (g, i) = (s[1] as usize, s[2]);
        match s[0] {
            1 => self.put(rows, g, i, s[3]),
            2 => self.put(rows, g, i, self.get(g, i) & !s[4] | s[3]),
            _ => self.put_colour(s[1], [s[2], s[3], s[4]]),
        }
    }

    /// What has a name: the registers, AR among them, the colours, and whether there is a picture.
    pub fn named(&self) -> Vec<u8> {
        let mut bytes: Vec<u8> = self.tables.iter().flatten().copied().collect();
        bytes.extend(self.palette.iter().flatten());
        bytes.extend([self.msr, self.palmask, u8::from(self.picture)]);
        bytes
    }

    /// Whether a register of any group or an entry of the palette stores another byte (document 02, P6). Bit 5 of the attribute
    /// index, the other indexes, the turn and the palette's loading state are none of them.
    fn differs(&self, other: &Chip) -> bool {
        self.tables != other.tables || (self.msr, self.palmask) != (other.msr, other.palmask) || self.palette != other.palette
    }

    /// The register that a data write goes to.
    fn aim(&self, p: &Port) -> Option<(usize, u8)> {
        match *p {
            Port::Data(g) => Some((g, self.index_of(g))),
            Port::Attribute if self.turn => Some((AR, self.index_of(AR))),
            Port::Msr => Some((MSR, 0)),
            Port::Palmask => Some((PALMASK, 0)),
            _ => None,
        }
    }

    /// Of each of `MET`, whether this write meets it.
    pub fn meets(&self, rows: &Rows, port: u16, v: u8) -> [bool; MET.len()] {
        let p = self.leads(port, true).filter(|_| self.is_open());
        let name = p.as_ref().and_then(|p| self.aim(p));
        let of = |test: &dyn Fn(usize, u8) -> bool| name.is_some_and(|(g, i)| test(g, i));
        let loads = p == Some(Port::Paldata) && self.at() == 2;
        let was = self.palette[self.index as usize];
        let is = [self.held[0], self.held[1], v].map(|x| self.by_mode(x));
        [
            p == Some(Port::NotPicked),
            p == Some(Port::Attribute) && !self.turn,
            p == Some(Port::Attribute) && self.turn,
            of(&|g, i| !rows.is_listed(g, i)),
            of(&|g, i| g == CR && self.is_protected(g, i)),
            of(&|g, i| g == AR && self.is_protected(g, i)),
            of(&|g, i| rows.is_listed(g, i) && self.get(g, i) == v),
            loads,
            loads && was == is,
            loads && was != is && was.map(|x| self.by_mode(x)) == is,
        ]
    }

    /// A port write (document 02, P6): the number, and before and after it the byte of the register that it goes to, as it reads;
    /// FFh twice where it goes to none.
    pub fn write(&mut self, rows: &Rows, port: u16, v: u8) -> (u8, u8, u8) {
        if !self.is_open() {
            return (2, 0xFF, 0xFF);
        }
        let Some(p) = self.leads(port, true) else { return (1, 0xFF, 0xFF) };
        let name = self.aim(&p);
        let before = name.map_or(0xFF, |(g, i)| self.get(g, i));
        match p {
            Port::Index(g) => self.set_index(g, v),
            Port::Data(g) => self.put(rows, g, self.index_of(g), v),
            Port::Msr => self.put(rows, MSR, 0, v),
            Port::Palmask => self.put(rows, PALMASK, 0, v),
            Port::ReadIndex => (self.index, self.position, self.reading) = (v, 0, true),
            Port::WriteIndex => (self.index, self.position, self.reading) = (v, 0, false),
            Port::Paldata => {
                match self.at() {
                    2 => self.put_colour(self.index, [self.held[0], self.held[1], v]),
                    k => self.held[k] = v,
                }
                self.move_on();
            }
            Port::Attribute => {
                if self.turn {
                    self.put(rows, AR, self.index_of(AR), v);
                } else {
                    self.set_index(AR, v);
                    self.picture = v & 0x20 != 0;
                }
                self.turn = !self.turn;
            }
            Port::Status => unreachable!("no write leads to input status 1"),
            Port::NotPicked => {}
        }
        (0, before, name.map_or(0xFF, |(g, i)| self.get(g, i)))
    }

    pub fn read(&mut self, port: u16) -> (u8, u8) {
        if !self.is_open() {
            return (2, 0xFF);
        }
        let Some(p) = self.leads(port, false) else { return (1, 0xFF) };
        let v = match p {
            Port::Index(g) => self.index_of(g),
            Port::Data(g) => self.get(g, self.index_of(g)),
            Port::Msr => self.msr,
            Port::Palmask => self.palmask,
            Port::ReadIndex => if self.reading { 3 } else { 0 },
            Port::WriteIndex => self.index,
            Port::Paldata => {
                let v = self.by_mode(self.palette[self.index as usize][self.at()]);
                self.move_on();
                v
            }
            Port::Attribute => self.index_of(AR) | if self.picture { 0x20 } else { 0 },
            Port::Status => {
                self.turn = false;
                0
            }
            Port::NotPicked => 0xFF,
        };
        (0, v)
    }

    pub fn shown(&self, pixel: u8) -> [u8; 3] {
        let entry = self.palette[(pixel & self.palmask) as usize];
        entry.map(|v| if self.is_eight_bit() { v } else { v % 64 * 4 })
    }

    /// The number, the count, the place, and how many of the commands carried out changed a register or a colour.
    pub fn run(&mut self, rows: &Rows, bytes: &[u8], limit: usize) -> (u8, usize, usize, usize) {
        if bytes.len() % 4 != 0 {
            return (10, 0, 0, 0);
        }
        let (mut acc, mut changing) = (0, 0);
        for (place, c) in bytes.chunks(4).enumerate() {
            if place == limit {
                return (0, place, 0, changing);
            }
            let before = self.clone();
            let port = u16::from_le_bytes([c[1], c[2]]);
            let number = match c[0] {
                1 => self.write(rows, port, c[3]).0,
                2 if c[3] == 0 => {
                    let (n, v) = self.read(port);
                    acc = v;
                    n
                }
                3 if c[3] == 0 => {
                    acc = acc & c[1] | c[2];
                    0
                }
                4 if c[3] == 0 => self.write(rows, port, acc).0,
                _ => 10,
            };
            if number != 0 {
                return (number, place, place, changing);
            }
            changing += usize::from(self.differs(&before));
        }
        (0, bytes.len() / 4, 0, changing)
    }
}
