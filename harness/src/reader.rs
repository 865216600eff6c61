//! Forms, whole and in parts: a second reader from the words of docs/use/RULES.md ("The form", rules 17 and 20) and of the header, and what the calls owe. A state is the
//! library's own affair: the server begins a reader, feeds it the blocks and ends it, and what comes out is compared.

use crate::generate::floats;
use crate::generate::rng::Rng;
use crate::library::{Call, Difference, Library};
use crate::tally;

/// Numbers of each list: box, sites, triangles, half-edges, hull.
const ROOM: [usize; 5] = [4, 192, 576, 576, 96];
const WORDS: usize = 16;
const NOWHERE: u64 = u64::MAX;

/// What has come out of the bytes so far.
#[derive(Clone, Debug, Default)]
struct Read {
    /// The kind that opened the form, 0 before it.
    clip: u32,
    floats: [Vec<f64>; 2],
    indexes: [Vec<u32>; 3],
    ended: bool,
    /// The number and the byte of a refusal that no further byte can undo.
    refused: Option<(u32, u64)>,
}

impl Read {
    fn sites(&self) -> usize {
        self.floats[1].len() / 2
    }
    fn triangles(&self) -> usize {
        self.indexes[0].len() / 3
    }

    /// One of 1 or 7, then all 2, all 3, all 4, then 5 and nothing after it; at most 96 sites, 192 triangles and 96 hull records. A number has come
    /// when its last byte has.
    fn of(form: &[u8]) -> Read {
        let mut r = Read::default();
        let (mut at, mut last) = (0, 0);
        while at < form.len() {
            let kind = form[at];
            let follows = match kind {
                1 | 7 => last == 0,
                2 => last != 0 && last <= 2 && r.sites() < 96,
                3 => last != 0 && last <= 3 && r.triangles() < 192,
                4 => last != 0 && r.indexes[2].len() < 96,
                5 => last != 0,
                _ => false,
            };
            if r.ended || !follows {
                r.refused = Some((if kind == 6 && !r.ended { 20 } else { 17 }, at as u64));
                return r;
            }
            last = if kind == 7 { 1 } else { kind };
            at += 1;
            let body = &form[at..];
            let float = |list: &mut Vec<f64>, from: usize| {
                if let Some(b) = body.get(from..from + 8) {
                    list.push(f64::from_le_bytes(b.try_into().unwrap()));
                }
            };
            let index = |list: &mut Vec<u32>, from: usize| {
                if let Some(b) = body.get(from..from + 4) {
                    list.push(u32::from_le_bytes(b.try_into().unwrap()));
                }
            };
            match kind {
                1 | 7 => {
                    r.clip = kind as u32;
                    (0..4).for_each(|k| float(&mut r.floats[0], 8 * k));
                    at += 32;
                }
                2 => {
                    (0..2).for_each(|k| float(&mut r.floats[1], 8 * k));
                    at += 16;
                }
                3 => {
                    (0..6).for_each(|k| index(&mut r.indexes[k / 3], 4 * k));
                    at += 24;
                }
                4 => {
                    index(&mut r.indexes[2], 0);
                    at += 4;
                }
                _ => r.ended = true,
            }
        }
        r
    }

    /// The number and the byte at the end of a form of so many bytes.
    fn end(&self, length: usize) -> (u32, u64) {
        match self.refused {
            Some(told) => told,
            None if self.ended => (0, NOWHERE),
            None => (17, length as u64),
        }
    }

    /// The kind that opened it, and how many sites, triangles and hull sites there are; 0 when refused.
    fn counts(&self, number: u32) -> [u32; 4] {
        match number {
            0 => [self.clip, self.sites() as u32, self.triangles() as u32, self.indexes[2].len() as u32],
            _ => [0; 4],
        }
    }
}

/// A form, how it is cut, and how much is lent.
#[derive(Clone, Debug)]
pub struct Case {
    form: Vec<u8>,
    blocks: Vec<u32>,
    room: [usize; 5],
    words: usize,
}

fn record(r: &mut Rng, kind: u8, form: &mut Vec<u8>) {
    form.push(kind);
    let (floats, indexes) = [(0, 0), (4, 0), (2, 0), (0, 6), (0, 1), (0, 0), (0, 0), (4, 0)][kind as usize & 7];
    (0..floats).for_each(|_| form.extend((if r.chance(1, 99) { floats::refused(r) } else { floats::admitted(r) }).to_le_bytes()));
    (0..indexes).for_each(|_| form.extend(r.pick(&[0, 5, 6, 7, 0x0506_0706, u32::MAX, 95]).to_le_bytes()));
}

impl Case {
    pub fn random(seed: u64, index: u64) -> Case {
        let r = &mut Rng::new(seed ^ 0x7265_6164, index);
        let mut form = Vec::new();
        let few = |r: &mut Rng, most: usize| match r.below(8) {
            0 => 0,
            1 => most + r.below(2),
            2 => most - 1,
            _ => r.below(12),
        };
        let first = r.pick(&[1, 1, 1, 7, 7, 7, 6]);
        let counts = [(first, 1), (2, few(r, 96)), (3, few(r, 192)), (4, few(r, 96)), (5, 1)];
        for (kind, count) in counts {
            (0..count).for_each(|_| record(r, kind, &mut form));
            if r.chance(1, 40) {
                let any = r.below(10) as u8;
                record(r, any, &mut form);
            }
        }
        match r.below(6) {
            0 => form.truncate(r.below(form.len() + 1)),
            1 => form.extend(r.pick(&[&[5u8][..], &[6], &[0], &[2, 2], &[6, 5, 5]])),
            2 => {
                let k = r.below(form.len());
                form[k] = r.pick(&[0, 1, 2, 3, 4, 5, 6, 7, 8, 255]);
            }
            3 => {
                let k = r.below(form.len());
                form.remove(k);
            }
            _ => {}
        }
        let mut blocks = Vec::new();
        let (mut left, most) = (form.len(), r.pick(&[2, 9, 40, 400, 7000]).max(form.len() / 30));
        while left > 0 {
            let n = r.below(most).min(left);
            blocks.push(n as u32);
            left -= n;
        }
        if r.chance(1, 4) {
            blocks.push(0);
        }
        let mut room = ROOM;
        let k = r.below(5);
        match r.below(12) {
            0 => room[k] -= 1 + r.below(room[k]),
            1..=3 => room[k] += r.below(9),
            _ => {}
        }
        let words = if r.chance(1, 12) { r.below(WORDS + 4) } else { WORDS };
        Case { form, blocks, room, words }
    }
}

/// What must come up in a run.
const SEEN: [&str; 21] = [
    "read_form 0", "read_form 2", "read_form 17", "read_form 20", "parts 0", "parts 2", "parts 17", "parts 20", "a box by its edges", "no site", "96 sites", "192 triangles", "96 hull records",
    "one record too many", "a byte after the end", "6 after the end", "cut within a record", "an empty block", "a state too short", "a longer state", "a NaN",
];

#[derive(Default)]
pub struct Seen([u64; SEEN.len()]);

impl Seen {
    fn at(&mut self, what: &str, holds: bool) {
        self.0[SEEN.iter().position(|s| *s == what).unwrap()] += holds as u64;
    }

    /// Prints what came up and gives what did not.
    pub fn report(&self) -> Vec<String> {
        tally::report("How often the readers answered each number, and what came up", "forms", SEEN.iter().map(|s| s.to_string()).zip(self.0))
    }
}

/// The five lists as they are lent, and as they are with what has come.
fn lists(c: &Case, call: Call, read: &Read) -> Call {
    let mut call = call;
    for (k, list) in read.floats.iter().enumerate() {
        let entry = vec![-4321.0; c.room[k]];
        let mut exit = entry.clone();
        exit[..list.len()].copy_from_slice(list);
        call = call.lent_some_floats(&entry, &exit);
    }
    for (k, list) in read.indexes.iter().enumerate() {
        let entry = vec![0xa5a5_a5a5; c.room[2 + k]];
        let mut exit = entry.clone();
        exit[..list.len()].copy_from_slice(list);
        call = call.lent_indexes(&entry, &exit);
    }
    call
}

/// One form put to the reader of whole forms and to the reader of parts.
pub fn run_one(index: u64, c: &Case, library: &mut Library, seen: &mut Seen) -> Result<(), Difference> {
    let whole = Read::of(&c.form);
    let room = (0..5).all(|k| c.room[k] >= ROOM[k]);
    let (number, at) = if room { whole.end(c.form.len()) } else { (2, NOWHERE) };
    seen.at(&format!("read_form {number}"), true);
    if number == 0 {
        seen.at("a box by its edges", whole.clip == 7);
        seen.at("no site", whole.sites() == 0);
        seen.at("a NaN", whole.floats.iter().flatten().any(|x| x.is_nan()));
        seen.at("96 sites", whole.sites() == 96);
        seen.at("192 triangles", whole.triangles() == 192);
        seen.at("96 hull records", whole.indexes[2].len() == 96);
    }
    if number == 17 && (at as usize) < c.form.len() {
        let kind = c.form[at as usize];
        seen.at("one record too many", !whole.ended && (kind == 2 && whole.sites() == 96 || kind == 3 && whole.triangles() == 192 || kind == 4 && whole.indexes[2].len() == 96));
        seen.at("a byte after the end", whole.ended);
        seen.at("6 after the end", whole.ended && kind == 6);
    }
    let none = Read::default();
    let call = lists(c, Call::new("read_form").gives(number).bytes(&c.form), if room { &whole } else { &none });
    library.put(index, whole.counts(number).into_iter().fold(call, Call::gives).gives_bits(at))?;

    // in parts: the number and the byte after each block, then those of the end
    let kept = c.words >= WORDS;
    let (mut numbers, mut places, mut length) = (Vec::new(), Vec::new(), 0);
    for &n in &c.blocks {
        length += n as usize;
        let (number, at) = match (room && kept, Read::of(&c.form[..length]).refused) {
            (false, _) => (2, NOWHERE),
            (true, Some(told)) => told,
            (true, None) => (0, NOWHERE),
        };
        numbers.push(number);
        places.push(at);
        // an end right after the block would not be one
        let more = Read::of(&[&c.form[..length], &[5]].concat());
        seen.at("cut within a record", !more.ended && more.refused.is_none());
        seen.at("an empty block", n == 0);
    }
    // blocks that were refused by 2 were not read: the form has not begun
    let fed = if room { &whole } else { &none };
    let (number, at) = if kept { fed.end(if room { c.form.len() } else { 0 }) } else { (2, NOWHERE) };
    seen.at(&format!("parts {number}"), true);
    seen.at("a state too short", !kept);
    seen.at("a longer state", c.words > WORDS);
    let call = Call::new("read_parts").gives(number).bytes(&c.form).indexes(&c.blocks).number(c.words as u32);
    let call = lists(c, call, if kept { fed } else { &none });
    let call = call.lent_indexes(&vec![0xd8d8_d8d8; numbers.len()], &numbers).lent_patterns(&vec![0xd8d8; places.len()], &places);
    library.put(index, fed.counts(number).into_iter().fold(call.gives(if kept { 0 } else { 2 }), Call::gives).gives_bits(at))
}
