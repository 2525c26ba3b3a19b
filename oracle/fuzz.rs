// Track chunks that the linked library reads, beside the oracle's own reader: good ones, every damage of one place of short ones, one damage or some of longer ones, one faulty event among good ones, random bytes behind a good head, and chunks so long that their times pass 2^42. The list is a stretch
// of numbers that are no events: what is lent of it, what stands behind its count and what is not lent are held against the rule, number by number. Lists are written and read back too. Where something differs, bytes are dropped from the chunk
// for as long as something still does, and what is left is printed.

use crate::desk::{byte, Record, STORE};
use crate::dice::Dice;
use crate::dollavir;
use crate::make::Maker;
use crate::other::WIDTH;
use crate::reads::{damaged, each_damage, faulty, framed, good, random, Body, Uses, HEAD};
use crate::smf::{self, LONGEST};
use std::collections::BTreeMap;

/// The most events of a short chunk, of which every damage is tried, and of a longer one; one short chunk in so many has each byte changed to all 255 others.
const SHORT: i64 = 8;
const LONGER: i64 = 60;
const ALL: i64 = 16;
/// Behind each short chunk come so many longer ones or random bytes, chunks whose times reach 2^42, and lists that are written.
const OTHERS: usize = 400;
const LATE: usize = 8;
const LISTS: usize = 50;
/// The most bytes of a chunk that are shown.
const SHOWN: usize = 1_024;
/// The numbers of a list, more than any chunk here has, some of them behind what is lent.
const NUMBERS: usize = 1_024;

/// A chunk, how many numbers of the list are lent, and the count that is handed in with them.
#[derive(Clone)]
struct Case {
    chunk: Vec<u8>,
    long: usize,
    count: usize,
}

/// What a call answers, and the numbers afterwards.
#[derive(PartialEq)]
pub struct Left {
    pub code: i64,
    pub count: usize,
    pub numbers: Vec<i64>,
}

#[derive(Default)]
struct Figures {
    chunks: usize,
    codes: BTreeMap<i64, usize>,
    /// Of lists that were read: those with fewer events than before, so that places fall vacant.
    fewer: usize,
    uses: Uses,
    short: usize,
    all: usize,
    late: usize,
    lists: usize,
    events: usize,
}

/// The numbers that a list holds before a call, none of them 0.
fn before() -> Vec<i64> {
    (1..=NUMBERS as i64).map(|at| at * at * 7_919 * if at % 3 == 0 { -1 } else { 1 }).collect()
}

impl Case {
    /// The rule: refused, everything is as it was; done, the events are in front, and places that fell vacant are 0.
    fn ruled(&self, before: &[i64]) -> Left {
        let (room, mut numbers) = (self.long / WIDTH, before.to_vec());
        let read = if self.long % WIDTH != 0 || self.count > room { Err(1) } else { smf::read_chunk(&self.chunk, room) };
        match read {
            Err(code) => Left { code, count: self.count, numbers },
            Ok(events) => {
                let own = events.len();
                numbers[..own.max(self.count) * WIDTH].fill(0);
                numbers[..own * WIDTH].copy_from_slice(&events.concat());
                Left { code: 0, count: own, numbers }
            }
        }
    }

    /// What the library makes of it.
    fn read(&self, before: &[i64]) -> Left {
        let (mut numbers, mut count) = (before.to_vec(), self.count);
        let code = unsafe { dollavir::dollavir_read_chunk(self.chunk.as_ptr(), self.chunk.len(), numbers.as_mut_ptr(), self.long, &mut count) };
        Left { code: i64::from(code), count, numbers }
    }

    /// A list for a chunk: room for as many events as it has, for one less, for more, for none; one in forty is lent wrongly.
    fn random(dice: &mut Dice, chunk: Vec<u8>) -> Case {
        let kept = smf::events(&chunk).map_or_else(|_| dice.pick(0, 3), |events| events.len() as i64);
        let more = kept + dice.pick(2, 9);
        let room = dice.of(&[kept, kept, kept, kept + 1, more, more, more, kept - 1, 0]).max(0) as usize;
        let any = dice.pick(0, room as i64) as usize;
        let count = dice.of(&[0, any, any, room]);
        let (wrong, odd) = (dice.of(&[room + 1, room + 2, 1 << 61, usize::MAX]), dice.pick(1, 7) as usize);
        match dice.pick(0, 79) {
            0 => Case { chunk, long: room * WIDTH, count: wrong },
            1 => Case { chunk, long: room * WIDTH + odd, count },
            _ => Case { chunk, long: room * WIDTH, count },
        }
    }

    fn differs(&self, before: &[i64]) -> bool {
        self.ruled(before) != self.read(before)
    }

    /// The same with as many bytes of the body left out as can be; a long one as it is.
    fn least(&self, before: &[i64]) -> Case {
        let (mut least, mut at) = (self.clone(), HEAD);
        while at < least.chunk.len() && least.chunk.len() <= SHOWN {
            let body = [&least.chunk[HEAD..at], &least.chunk[at + 1..]].concat();
            let less = Case { chunk: framed(&body), ..least.clone() };
            if less.differs(before) {
                (least, at) = (less, HEAD);
            } else {
                at += 1;
            }
        }
        least
    }

    fn print(&self, before: &[i64]) {
        let bytes: Vec<String> = self.chunk.iter().take(SHOWN).map(|byte| format!("{byte:02x}")).collect();
        println!("chunk:    {} bytes, {}", self.chunk.len(), bytes.join(" "));
        println!("list:     {} numbers, count {}", self.long, self.count);
        for (name, left) in [("original", self.ruled(before)), ("port", self.read(before))] {
            let most = left.count.min(NUMBERS / WIDTH).min(12) * WIDTH;
            println!("{:<9} {} and {}, {:?}", format!("{name}:"), left.code, left.count, &left.numbers[..most]);
        }
    }
}

/// A chunk whose last message, kept or not, is at 2^42 or a step or some beside it: 16,384 gaps of the longest come to 2^42 - 16,384. All before it is stepped over, but for one event now and then. Some have no end, are cut short, or go on.
fn late(dice: &mut Dice) -> Vec<u8> {
    let (mut body, mut rest) = (Body::default(), (1 << 42) + dice.of(&[-1, 0, 0, 1, 1, 5, 100_000]));
    let filler = dice.of(&[0xff, 0xd3, 0xa0, 0xd0]);
    while rest > LONGEST {
        body.bytes.extend([0xff, 0xff, 0xff, 0x7f]);
        rest -= LONGEST;
        match filler {
            _ if dice.one_in(8_000) => body.message(dice, 0x90),
            0xff => body.meta(dice),
            status => body.message(dice, status),
        }
    }
    body.quantity(dice, rest);
    let last = dice.of(&[0x80, 0x93, 0xb5, 0xc7, 0xef, 0xa1, 0xd2, 0xff]);
    if last == 0xff {
        body.meta(dice);
    } else {
        body.message(dice, last);
    }
    match dice.pick(0, 9) {
        0 => (),
        1 => body.bytes.extend([0, 0x90, 60]),
        2 => body.bytes.extend([0, 0xff, 0x2f, 0, 0]),
        3 => {
            body.bytes.extend([0, 0x90, 60, 100]);
            body.end(dice);
        }
        4 | 5 => {
            body.bytes.extend([0, 0xd0, 60, 0, 0xff, 1, 0]);
            body.end(dice);
        }
        _ => body.end(dice),
    }
    body.chunk()
}

/// An event as it is read back: what is not written of it is 0, and a NoteOn of velocity 0 is a NoteOff.
fn back(event: &Record) -> Record {
    let [kind, time, channel, v1, v2, v3, ..] = *event;
    match kind {
        0 if v3 != 0 => [0, time, channel, v1, 0, v3, 0, 0],
        0 | 1 => [1, time, channel, v1, 0, 0, 0, 0],
        2 => [2, time, channel, v1, v2, 0, 0, 0],
        _ => [kind, time, channel, v1, 0, 0, 0, 0],
    }
}

struct Run {
    seed: u64,
    dice: Dice,
    /// Makes lists that can be written.
    maker: Maker,
    store: [u8; STORE],
    before: Vec<i64>,
    figures: Figures,
}

/// Reads so many chunks on both sides; answers whether all was the same.
pub fn run(seed: u64, count: usize) -> bool {
    let (dice, maker, store) = (Dice::new(seed), Maker::new(seed + 1, &[3]), std::array::from_fn(byte));
    let mut run = Run { seed, dice, maker, store, before: before(), figures: Figures::default() };
    while run.figures.chunks < count {
        if !run.round() {
            return false;
        }
    }
    run.print();
    true
}

impl Run {
    /// A short chunk and all that can happen to it, others, late ones, and lists.
    fn round(&mut self) -> bool {
        let body = good(&mut self.dice, SHORT);
        let (chunk, all) = (body.chunk(), self.dice.one_in(ALL));
        self.figures.uses.add(&body.uses);
        self.figures.short += 1;
        self.figures.all += usize::from(all);
        let mut chunks = each_damage(&mut self.dice, &chunk, all);
        chunks.push(chunk);
        for _ in 0..OTHERS {
            let body = good(&mut self.dice, LONGER);
            let chunk = body.chunk();
            chunks.push(match self.dice.pick(0, 9) {
                0 => random(&mut self.dice),
                1 => faulty(&mut self.dice, SHORT),
                2..=5 => damaged(&mut self.dice, &chunk),
                _ => {
                    self.figures.uses.add(&body.uses);
                    chunk
                }
            });
        }
        chunks.extend((0..LATE).map(|_| late(&mut self.dice)));
        self.figures.late += LATE;
        chunks.into_iter().all(|chunk| self.chunk(chunk)) && (0..LISTS).all(|_| self.list())
    }

    fn chunk(&mut self, chunk: Vec<u8>) -> bool {
        let case = Case::random(&mut self.dice, chunk);
        let left = case.ruled(&self.before);
        let figures = &mut self.figures;
        figures.chunks += 1;
        *figures.codes.entry(left.code).or_default() += 1;
        figures.fewer += usize::from(left.code == 0 && left.count < case.count);
        if left == case.read(&self.before) {
            return true;
        }
        println!("seed {}: chunk {} differs; the least of it that does:", self.seed, self.figures.chunks);
        case.least(&self.before).print(&self.before);
        false
    }

    /// A list that is written is read back, with its statuses and without those that run; and so is what was read when it is written again.
    fn list(&mut self) -> bool {
        let list = self.maker.list_with(&[]);
        let read: Vec<Record> = list.iter().map(back).collect();
        self.figures.lists += 1;
        self.figures.events += list.len();
        let (first, again) = (self.written(&list), self.written(&read));
        let chunks = [first.clone(), without_running(&list), again];
        for chunk in chunks {
            let room = list.len() + self.dice.pick(0, 3) as usize;
            let count = self.dice.pick(0, room as i64) as usize;
            let case = Case { chunk, long: room * WIDTH, count };
            let mut numbers = self.before.clone();
            numbers[..list.len().max(count) * WIDTH].fill(0);
            numbers[..list.len() * WIDTH].copy_from_slice(&read.concat());
            if (Left { code: 0, count: list.len(), numbers }) != case.read(&self.before) {
                println!("seed {}: list {} is not read back: {list:?}", self.seed, self.figures.lists);
                case.print(&self.before);
                return false;
            }
        }
        true
    }

    /// The chunk that the library writes of a list.
    fn written(&self, list: &[Record]) -> Vec<u8> {
        let (numbers, store, mut out, mut bytes) = (list.concat(), &self.store, vec![0; 12 + 7 * list.len()], 0);
        let code = unsafe {
            dollavir::dollavir_write_chunk(
                numbers.as_ptr(),
                numbers.len(),
                list.len(),
                store.as_ptr(),
                store.len(),
                out.as_mut_ptr(),
                out.len(),
                &mut bytes,
            )
        };
        assert!(code == 0, "a list that can be written is refused with {code}");
        out.truncate(bytes);
        out
    }

    fn print(&self) {
        let it = &self.figures;
        let codes: Vec<String> = it.codes.iter().map(|(code, count)| format!("{code}: {count}")).collect();
        println!("seed {}: {} chunks read on both sides, no difference; by number {}", self.seed, it.chunks, codes.join(", "));
        println!("good ones have {}", it.uses.text());
        println!(
            "every damage of one place of {} short chunks, of {} each byte to all 255 others; {} chunks at 2^42; {} lists became shorter",
            it.short, it.all, it.late, it.fewer
        );
        println!("{} lists written and read back, with and without running status, and again: {} events, no difference", it.lists, it.events);
    }
}

/// The chunk of a list without each status that is the one before it.
pub fn without_running(list: &[Record]) -> Vec<u8> {
    let (mut body, mut running) = (vec![], 0);
    for (event, gap) in list.iter().zip(smf::gaps(list)) {
        body.extend(smf::quantity(gap));
        let message = smf::message(event).expect("an event that is written");
        body.extend(&message[usize::from(message[0] == running)..]);
        running = message[0];
    }
    body.extend([0, 0xff, 0x2f, 0]);
    framed(&body)
}
