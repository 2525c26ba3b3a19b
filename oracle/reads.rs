// Track chunks that are read (312). Good ones hold what the published format allows and other people's programs write: running status, Meta events of all types, system exclusive whole and in parts, both kinds of aftertouch,
// gaps at the ends of a quantity's one to four bytes, quantities in longer forms than they need, no event at all. The others are good ones that were damaged: cut short, a byte or some changed, doubled or dropped, bytes behind them,
// another mark or length; good ones with one faulty event among the others; and random bytes behind a good head. Lists have room for as many events as the chunk has, or one less or more, and hold old ones; one in twelve is lent wrongly first. Chunks like these stand in random scripts too.

use crate::chunks::GAPS;
use crate::dice::Dice;
use crate::make::Maker;
use crate::script::Step;
use crate::smf;
use std::collections::BTreeMap;
use std::io::{Result, Write};

/// The bytes before a chunk's body.
pub const HEAD: usize = 8;
/// The most events of a chunk in a script, and the most bytes.
const MOST: i64 = 24;
const MOST_BYTES: usize = 4_000;
/// What a byte is changed to: the ends of data and status, system exclusive and its rest, Meta, the end of track. Besides, one more than it is, and anything.
const OTHERS: [u8; 7] = [0, 127, 128, 240, 247, 255, 47];
/// Types of Meta events that files have: number, text, name, channel, tempo, start, metre, key, a maker's own.
const TYPES: [u8; 9] = [0x00, 0x01, 0x03, 0x20, 0x51, 0x54, 0x58, 0x59, 0x7f];

/// A short body of most of it: a note, its end by velocity 0 under running status, aftertouch, text, a bend behind a gap of 128, the end of track. A script begins with all that can happen to one place of it.
pub const SHORT: [u8; 24] = [0, 0x90, 60, 100, 96, 60, 0, 5, 0xd0, 64, 0, 0xff, 1, 1, 65, 0x81, 0, 0xe0, 0, 64, 0, 0xff, 0x2f, 0];

/// How often a good chunk uses what.
#[derive(Default, Clone, Copy)]
pub struct Uses {
    pub kept: usize,
    pub aftertouch: usize,
    /// Messages without their status.
    pub running: usize,
    pub meta: usize,
    pub exclusive: usize,
    /// Parts of a system exclusive behind its first, and escapes.
    pub parts: usize,
    /// Quantities in a longer form.
    pub longer: usize,
}

impl Uses {
    pub fn add(&mut self, other: &Uses) {
        self.kept += other.kept;
        self.aftertouch += other.aftertouch;
        self.running += other.running;
        self.meta += other.meta;
        self.exclusive += other.exclusive;
        self.parts += other.parts;
        self.longer += other.longer;
    }

    pub fn text(&self) -> String {
        format!(
            "{} events that are kept, {} aftertouch, {} of both without their status, {} Meta, {} system exclusive, {} parts of one, {} quantities in a longer form",
            self.kept, self.aftertouch, self.running, self.meta, self.exclusive, self.parts, self.longer
        )
    }
}

/// The body of a chunk as it grows.
#[derive(Default)]
pub struct Body {
    pub bytes: Vec<u8>,
    running: Option<u8>,
    pub uses: Uses,
}

impl Body {
    /// A number in as many groups of seven bits as it needs, one time in five in more, up to four.
    pub fn quantity(&mut self, dice: &mut Dice, number: i64) {
        let needs = (1..=4).find(|groups| number >> (7 * groups) == 0).expect("a number of four groups");
        let groups = if dice.one_in(5) { dice.pick(needs, 4) } else { needs };
        self.uses.longer += usize::from(groups > needs);
        for group in (0..groups).rev() {
            let more = if group > 0 { 128 } else { 0 };
            self.bytes.push((number >> (7 * group) & 127) as u8 + more);
        }
    }

    fn gap(&mut self, dice: &mut Dice) {
        let (small, any) = (dice.pick(0, 400), dice.pick(0, smf::LONGEST));
        let end = dice.of(&GAPS[..GAPS.len() - 1]);
        let gap = dice.of(&[0, 0, small, small, end, end, any]);
        self.quantity(dice, gap);
    }

    /// A message of this status, which is left out half the time where it is the running one.
    pub fn message(&mut self, dice: &mut Dice, status: u8) {
        if self.running == Some(status) && dice.one_in(2) {
            self.uses.running += 1;
        } else {
            self.bytes.push(status);
        }
        self.running = Some(status);
        let (single, aftertouch) = (matches!(status >> 4, 12 | 13), matches!(status >> 4, 10 | 13));
        for _ in 0..if single { 1 } else { 2 } {
            let any = dice.pick(0, 127) as u8;
            self.bytes.push(dice.of(&[0, 0, 127, 47, any, any, any]));
        }
        *(if aftertouch { &mut self.uses.aftertouch } else { &mut self.uses.kept }) += 1;
    }

    /// A message, half the time of the running status.
    fn any_message(&mut self, dice: &mut Dice) {
        let any = dice.pick(0x80, 0xef) as u8;
        let status = self.running.filter(|_| dice.one_in(2)).unwrap_or(any);
        self.message(dice, status);
    }

    /// A length and as many bytes, behind which no status runs. Some look like an end of track, or a message.
    fn counted(&mut self, dice: &mut Dice) {
        let any = dice.pick(0, 12);
        let length = if dice.one_in(16) { dice.of(&[127, 128, 129, 200]) } else { dice.of(&[0, 1, 2, any, any]) };
        self.quantity(dice, length);
        let inside = dice.of(&[[0, 0xff, 0x2f, 0], [0x90, 60, 100, 0], [0xf7, 0x80, 0x80, 0x80]]);
        let drawn = dice.one_in(2);
        for at in 0..length as usize {
            let any = dice.pick(0, 255) as u8;
            self.bytes.push(if drawn { any } else { inside[at % 4] });
        }
        self.running = None;
    }

    pub fn meta(&mut self, dice: &mut Dice) {
        let any = dice.pick(0, 127) as u8;
        let kind = Some(dice.of(&TYPES)).filter(|_| dice.one_in(2)).unwrap_or(any);
        self.bytes.extend([0xff, if kind == 0x2f { 0x2e } else { kind }]);
        self.counted(dice);
        self.uses.meta += 1;
    }

    /// System exclusive, whole or with parts behind it, each with its gap, or an escape, which is such a part alone.
    fn exclusive(&mut self, dice: &mut Dice) {
        let (begins, parts) = dice.of(&[(true, 0), (true, 0), (true, 1), (true, 2), (false, 1)]);
        if begins {
            self.bytes.push(0xf0);
            self.counted(dice);
            self.uses.exclusive += 1;
        }
        for _ in 0..parts {
            if begins {
                self.gap(dice);
            }
            self.bytes.push(0xf7);
            self.counted(dice);
            self.uses.parts += 1;
        }
    }

    fn event(&mut self, dice: &mut Dice) {
        self.gap(dice);
        match dice.pick(0, 9) {
            0 => self.meta(dice),
            1 => self.exclusive(dice),
            _ => self.any_message(dice),
        }
    }

    /// An event with one fault: a gap of five bytes, a status or a type that there is not, an end of track with a length or before the end, a data byte above 127, running status with none before it.
    fn fault(&mut self, dice: &mut Dice) {
        let what = dice.pick(0, 7);
        if what == 0 {
            self.bytes.extend([0x80, 0x80, 0x80, 0x80]);
        }
        self.gap(dice);
        match what {
            0 => self.any_message(dice),
            1 | 2 => {
                let (before, behind) = (dice.pick(0xf1, 0xf6) as u8, dice.pick(0xf8, 0xfe) as u8);
                self.bytes.push(dice.of(&[before, behind]));
                self.counted(dice);
            }
            3 => {
                self.bytes.extend([0xff, dice.pick(0x80, 0xff) as u8]);
                self.counted(dice);
            }
            4 => {
                let length = dice.pick(1, 3);
                self.bytes.extend([0xff, 0x2f]);
                self.quantity(dice, length);
                self.bytes.extend(&[0, 0xff, 0x2f][..length as usize]);
            }
            5 => self.bytes.extend([0xff, 0x2f, 0]),
            6 => {
                self.any_message(dice);
                let last = self.bytes.len() - 1;
                self.bytes[last] += 0x80;
            }
            _ => {
                self.meta(dice);
                self.gap(dice);
                self.bytes.extend([60, 100]);
            }
        }
        self.running = None;
    }

    pub fn end(&mut self, dice: &mut Dice) {
        self.gap(dice);
        self.bytes.extend([0xff, 0x2f]);
        self.quantity(dice, 0);
    }

    pub fn chunk(&self) -> Vec<u8> {
        framed(&self.bytes)
    }
}

/// A body behind a head that says its length.
pub fn framed(body: &[u8]) -> Vec<u8> {
    [b"MTrk", &(body.len() as u32).to_be_bytes()[..], body].concat()
}

/// A good chunk of at most so many events.
pub fn good(dice: &mut Dice, most: i64) -> Body {
    let some = dice.pick(0, most);
    let count = dice.of(&[some, some, some, some, 0, 1, most]);
    loop {
        let mut body = Body::default();
        for _ in 0..count {
            body.event(dice);
        }
        body.end(dice);
        if body.bytes.len() <= MOST_BYTES {
            return body;
        }
    }
}

/// A chunk with one faulty event that is otherwise as it should be, among good ones.
pub fn faulty(dice: &mut Dice, most: i64) -> Vec<u8> {
    let mut body = Body::default();
    for _ in 0..dice.pick(0, most / 2) {
        body.event(dice);
    }
    body.fault(dice);
    for _ in 0..dice.pick(0, most / 2) {
        body.event(dice);
    }
    body.end(dice);
    body.bytes.truncate(MOST_BYTES);
    body.chunk()
}

/// Random bytes behind a good head: any, or those that a body is made of.
pub fn random(dice: &mut Dice) -> Vec<u8> {
    let (length, drawn) = (dice.pick(0, 40), dice.one_in(4));
    let body: Vec<u8> = (0..length)
        .map(|_| {
            let any = dice.pick(0, 255) as u8;
            let like = dice.of(&[0, 0, 1, 3, 47, 60, 100, 127, 128, 0x81, 0x90, 0x90, 0xa3, 0xb1, 0xc2, 0xd4, 0xe5, 240, 247, 255, 255]);
            if drawn {
                any
            } else {
                like
            }
        })
        .collect();
    framed(&body)
}

/// What a byte is changed to.
fn other(dice: &mut Dice, byte: u8) -> u8 {
    let (named, any) = (dice.of(&OTHERS), dice.pick(0, 255) as u8);
    dice.of(&[named, named, named, byte.wrapping_add(1), any])
}

/// The chunk with one damage, or with some bytes changed.
pub fn damaged(dice: &mut Dice, good: &[u8]) -> Vec<u8> {
    let mut chunk = good.to_vec();
    let (at, behind) = (dice.pick(0, good.len() as i64 - 1) as usize, dice.pick(HEAD as i64, good.len() as i64 - 1) as usize);
    match dice.pick(0, 15) {
        0 => chunk.truncate(at),
        1 | 2 => chunk = framed(&good[HEAD..behind]),
        3 => chunk[dice.pick(0, 3) as usize] = dice.pick(0, 255) as u8,
        4 => {
            let length = (good.len() - HEAD) as u32;
            let wrong =
                dice.of(&[length + 1, length.wrapping_sub(1), length.swap_bytes(), length + 8, length + (1 << 24), length + (1 << 16), 0, u32::MAX]);
            chunk[4..HEAD].copy_from_slice(&wrong.to_be_bytes());
        }
        5 | 6 => {
            chunk.insert(behind, good[behind]);
            chunk = framed(&chunk[HEAD..]);
        }
        7 | 8 => {
            chunk.remove(behind);
            chunk = framed(&chunk[HEAD..]);
        }
        9 => {
            let body = [&good[HEAD..], &[dice.of(&OTHERS)]].concat();
            chunk = if dice.one_in(3) { [good, &[0]].concat() } else { framed(&body) };
        }
        10 => {
            for _ in 0..dice.pick(2, 4) {
                let at = dice.pick(HEAD as i64, good.len() as i64 - 1) as usize;
                chunk[at] = other(dice, chunk[at]);
            }
        }
        11 => chunk[at] = other(dice, good[at]),
        _ => chunk[behind] = other(dice, good[behind]),
    }
    chunk
}

/// The chunk with every damage that one place can have: each cut, with the length that it had and the one that it then has; each byte changed, to those above or to all others; each doubled and dropped, with the length that it then has, and
/// for the head as it stands.
pub fn each_damage(dice: &mut Dice, good: &[u8], all: bool) -> Vec<Vec<u8>> {
    let mut out = vec![];
    for at in 0..good.len() {
        out.push(good[..at].to_vec());
        let any = dice.pick(0, 255) as u8;
        let few = OTHERS.into_iter().chain([good[at].wrapping_add(1), any]);
        let values: Vec<u8> = if all { (0..=255).collect() } else { few.collect() };
        for value in values.into_iter().filter(|&value| value != good[at]) {
            let mut changed = good.to_vec();
            changed[at] = value;
            out.push(changed);
        }
        let (mut doubled, mut dropped) = (good.to_vec(), good.to_vec());
        doubled.insert(at, good[at]);
        dropped.remove(at);
        if at >= HEAD {
            out.extend([framed(&good[HEAD..at]), framed(&doubled[HEAD..]), framed(&dropped[HEAD..])]);
        } else {
            out.extend([doubled, dropped]);
        }
    }
    out
}

#[derive(Default)]
struct Figures {
    chunks: usize,
    codes: BTreeMap<i64, usize>,
    uses: Uses,
}

pub fn script(seed: u64, count: usize) -> Vec<Step> {
    made(seed, count).0
}

/// Prints what the script of this seed holds.
pub fn print(seed: u64, count: usize, out: &mut impl Write) -> Result<()> {
    let it = made(seed, count).1;
    let codes: Vec<String> = it.codes.iter().map(|(code, count)| format!("{code}: {count}")).collect();
    writeln!(out, "seed {seed}: {} chunks read; by number {}", it.chunks, codes.join(", "))?;
    writeln!(out, "good ones have {}", it.uses.text())
}

fn made(seed: u64, count: usize) -> (Vec<Step>, Figures) {
    let (mut maker, mut figures) = (Maker::new(seed, &[3]), Figures::default());
    maker.emit(902, &[96, 0, 3]);
    for chunk in each_damage(&mut maker.dice, &framed(&SHORT), false).iter().take(count) {
        maker.read(chunk, &mut figures);
    }
    while figures.chunks < count {
        maker.reads(&mut figures);
    }
    (maker.steps, figures)
}

impl Maker {
    /// A chunk and what it uses; half of them damaged.
    fn chunk_to_read(&mut self, most: i64) -> (Vec<u8>, Uses) {
        let body = good(&mut self.dice, most);
        let chunk = body.chunk();
        match self.dice.pick(0, 19) {
            0..=9 => (chunk, body.uses),
            10 => (random(&mut self.dice), Uses::default()),
            11..=12 => (faulty(&mut self.dice, most), Uses::default()),
            _ => (damaged(&mut self.dice, &chunk), Uses::default()),
        }
    }

    /// The arguments of a call: a chunk.
    pub fn read_arguments(&mut self) -> Vec<i64> {
        arguments(&self.chunk_to_read(8).0)
    }

    /// A desk with old events, and one to three chunks read one after the other.
    fn reads(&mut self, figures: &mut Figures) {
        let (chunk, uses) = self.chunk_to_read(MOST);
        let kept = smf::events(&chunk).map_or(6, |events| events.len() as i64);
        let more = kept + self.dice.pick(2, 9);
        let room = self.dice.of(&[kept, kept, kept, kept + 1, more, more, more, kept - 1, 0]).max(0);
        self.emit(902, &[96, 0, room]);
        for _ in 0..self.dice.pick(0, room.min(12)) {
            let record = self.dice.record();
            self.emit(904, &record);
        }
        if self.dice.one_in(12) {
            let lent = self.dice.of(&[[1, 0], [7, 0], [0, 1], [0, 7]]);
            self.emit(905, &lent);
            self.read(&chunk, figures);
            self.emit(905, &[0, 0]);
        }
        figures.uses.add(&uses);
        self.read(&chunk, figures);
        for _ in 0..self.dice.pick(0, 2) {
            let (chunk, uses) = self.chunk_to_read(MOST);
            figures.uses.add(&uses);
            self.read(&chunk, figures);
        }
    }

    fn read(&mut self, chunk: &[u8], figures: &mut Figures) {
        let code = self.answered(312, &arguments(chunk)).code;
        *figures.codes.entry(code).or_default() += 1;
        figures.chunks += 1;
    }
}

/// A chunk as a script hands it in.
pub fn arguments(chunk: &[u8]) -> Vec<i64> {
    std::iter::once(chunk.len() as i64).chain(chunk.iter().map(|&byte| i64::from(byte))).collect()
}
