// The track's calls: what a product makes of a track, on both sides alike. The original's track is changed in place; the port's goes by value, and so does its cycle table.

use crate::original::{Event, SineType, Track, WaveMode, WriteCtx, WriteTarget};
use crate::port::*;
use crate::{clock, kind, list, median, numbers, stack, Order, LONG, STEP, STORE};
use std::hint::black_box;

const MAXIMUM: usize = 1 << 26;
/// Records free behind a list.
const ROOM: usize = 16_384;
/// Calls of one kind in a row, where one alone is too short for the clock.
const ROW: usize = 100;

#[derive(Debug, PartialEq)]
struct Told {
    events: Vec<[i64; 6]>,
    values: Vec<i64>,
    used: usize,
    over: bool,
    seed: u32,
}

struct Original {
    track: Track,
    seed: u32,
    used: usize,
    over: bool,
    values: Vec<i64>,
    /// The list that the next call takes.
    given: Vec<isize>,
}

impl Original {
    fn new(events: &[Event]) -> Original {
        let mut track = Track::new(96, 3);
        // The memory behind the list has been written before, as the port's has.
        track.events = Vec::with_capacity(events.len() + ROOM);
        track.events.resize(events.len() + ROOM, Event::voice(0, 0, 0));
        track.events.clear();
        track.events.extend_from_slice(events);
        Original { track, seed: 1, used: 0, over: false, values: vec![], given: vec![] }
    }

    fn write(&mut self, call: impl FnOnce(&mut Track, &mut WriteCtx)) {
        let mut ctx =
            WriteCtx { timebase: 96, rand_seed: &mut self.seed, max_event_bytes: MAXIMUM, event_bytes: self.used, event_limit_exceeded: self.over };
        call(&mut self.track, &mut ctx);
        (self.used, self.over) = (ctx.event_bytes, ctx.event_limit_exceeded);
    }

    fn told(&self) -> Told {
        let numbers = |e: &Event| [kind(e), e.time as i64, e.channel as i64, e.v1 as i64, e.v2 as i64, e.v3 as i64];
        let events = self.track.events.iter().map(numbers).collect();
        Told { events, values: self.values.clone(), used: self.used, over: self.over, seed: self.seed }
    }
}

struct Port {
    track: crate::port::Track,
    table: Table<Cycle>,
    budget: Budget,
    list: Vec<i64>,
    count: usize,
    values: Vec<i64>,
}

impl Port {
    #[inline(never)]
    fn new(events: &[Event]) -> Box<Port> {
        let answer = unsafe { bench_new(96, 3) };
        assert_eq!(answer.code, 0);
        let mut list = Vec::with_capacity((events.len() + ROOM) * 8);
        list.extend(numbers(events, 1));
        list.resize((events.len() + ROOM) * 8, 0);
        let budget = Budget { seed: 1, maximum: MAXIMUM as u32, used: 0, over: 0 };
        Box::new(Port { track: answer.track, table: Table { count: 0, items: [NO_CYCLE; 16] }, budget, list, count: events.len(), values: vec![] })
    }

    // Each of these has a frame of its own for what goes by value, so that the frames of this program stay small.
    #[inline(never)]
    fn set(&mut self, call: impl FnOnce(crate::port::Track) -> TrackAnswer) {
        let answer = call(self.track);
        assert_eq!(answer.code, 0);
        self.track = answer.track;
    }

    #[inline(never)]
    fn keep(&mut self, call: impl FnOnce(crate::port::Track, Table<Cycle>) -> Kept) {
        let kept = call(self.track, self.table);
        assert_eq!(kept.code, 0);
        self.track = kept.track;
        self.table.items = kept.cycles;
    }

    #[inline(never)]
    fn take(&mut self, call: impl FnOnce(crate::port::Track) -> TrackValue) {
        let answer = call(self.track);
        assert_eq!(answer.code, 0);
        self.values.push(answer.value as i64);
        self.track = answer.track;
    }

    fn wrote(&mut self, outcome: Outcome) {
        assert_eq!(outcome.code, 0);
        self.count = outcome.count;
        self.budget = outcome.budget;
    }

    #[inline(never)]
    fn curve(&mut self, number: i32, curve: &[i32]) {
        let (events, length) = (self.list.as_mut_ptr(), self.list.len());
        let outcome = unsafe {
            bench_write_cc_on_time(
                self.track,
                number,
                curve.as_ptr(),
                curve.len(),
                self.budget,
                events,
                length,
                self.count,
                STORE.as_ptr(),
                STORE.len(),
            )
        };
        self.wrote(outcome);
    }

    #[inline(never)]
    fn sine(&mut self, sine: OnNoteSine) {
        let (events, length) = (self.list.as_mut_ptr(), self.list.len());
        let outcome = unsafe { bench_write_sine(self.track, sine, self.budget, events, length, self.count, STORE.as_ptr(), STORE.len()) };
        self.wrote(outcome);
    }

    #[inline(never)]
    fn on_note(&mut self, start: i64) {
        let (events, length) = (self.list.as_mut_ptr(), self.list.len());
        let noted = unsafe { bench_write_cc_on_note(self.track, start, self.budget, events, length, self.count) };
        assert_eq!(noted.code, 0);
        (self.count, self.budget, self.track) = (noted.count, noted.budget, noted.track);
    }

    #[inline(never)]
    fn waves(&mut self, start: i64) {
        let (events, length) = (self.list.as_mut_ptr(), self.list.len());
        let outcome = unsafe { bench_write_cc_on_note_wave(self.track, start, self.budget, events, length, self.count, STORE.as_ptr(), STORE.len()) };
        self.wrote(outcome);
    }

    #[inline(never)]
    fn cycles(&mut self, until: i64) {
        let (events, length) = (self.list.as_mut_ptr(), self.list.len());
        let cycled = unsafe { bench_write_cc_on_cycle(self.track, self.table, until, self.budget, events, length, self.count) };
        assert_eq!(cycled.code, 0);
        (self.count, self.budget, self.table.items) = (cycled.count, cycled.budget, cycled.cycles);
    }

    #[inline(never)]
    fn listed(&mut self, call: impl FnOnce(*mut i64, usize, usize) -> usize) {
        let left = call(self.list.as_mut_ptr(), self.list.len(), self.count);
        assert!(left <= self.list.len() / 8);
        self.count = left;
    }

    fn told(&self) -> Told {
        let events = self.list.chunks_exact(8).take(self.count).map(|r| r[..6].try_into().unwrap()).collect();
        Told { events, values: self.values.clone(), used: self.budget.used as usize, over: self.budget.over != 0, seed: self.budget.seed }
    }
}

/// Lists that go round for three parameters and two controllers, a wave, a sine and three cycles; the time stands at `from`.
fn typical(events: &[Event], from: isize) -> (Original, Box<Port>) {
    let (mut theirs, mut ours) = (Original::new(events), Port::new(events));
    let wide = |values: &[i32]| values.iter().map(|&v| v as isize).collect::<Vec<isize>>();
    theirs.track.timepos = from;
    ours.set(|track| unsafe { bench_set_timepos(track, from as i64) });
    for (which, values) in [(0, [100, 90, 80, 110]), (1, [80, 90, 100, 60]), (2, [0, 1, 0, -1])] {
        let param = match which {
            0 => &mut theirs.track.v_opt,
            1 => &mut theirs.track.q_opt,
            _ => &mut theirs.track.t_opt,
        };
        param.repeat = true;
        param.set_on_note(wide(&values));
        ours.set(|track| unsafe { bench_set_param_on_note(track, which, values.as_ptr(), values.len()) });
    }
    for (number, values) in [(7, [100, 90, 80]), (10, [0, 64, 127])] {
        let target = WriteTarget::CC(number as isize);
        theirs.track.set_repeat(target, true);
        theirs.track.set_on_note(target, wide(&values));
        ours.set(|track| unsafe { bench_set_repeat(track, number, 1) });
        ours.keep(|track, table| unsafe { bench_set_on_note(track, table, number, values.as_ptr(), values.len()) });
    }
    let wave = [0, 127, 48, 127, 64, 48];
    theirs.track.set_on_note_wave(WriteTarget::CC(11), wide(&wave), WaveMode::Expand);
    ours.keep(|track, table| unsafe { bench_set_on_note_wave(track, table, 11, 1, wave.as_ptr(), wave.len()) });
    // The table's values and those of the original agree here.
    let sine = OnNoteSine { target: 1, shape: 0, low: 0, high: 64, length: 24, times: 4 };
    let original = crate::original::OnNoteSine { target: WriteTarget::CC(1), stype: SineType::Sine, low: 0, high: 64, len: 24, times: 4 };
    theirs.track.set_on_note_sine(WriteTarget::CC(1), original);
    ours.keep(|track, table| unsafe { bench_set_on_note_sine(track, table, 1, sine) });
    for (number, length, values) in [(71, 24, [10, 20, 30]), (72, 48, [5, 6, 7]), (74, 96, [1, 2, 3])] {
        theirs.track.set_on_cycle(WriteTarget::CC(number as isize), length as isize, wide(&values));
        ours.keep(|track, table| unsafe { bench_set_on_cycle(track, table, number, length, values.as_ptr(), values.len()) });
    }
    (theirs, ours)
}

/// Equal, but for a sine's values, which may be 1 apart.
fn agree(name: &str, theirs: Told, ours: Told, apart: i64) {
    let near = theirs.events.iter().zip(&ours.events).all(|(a, b)| a[..3] == b[..3] && a[4..] == b[4..] && (a[3] - b[3]).abs() <= apart);
    assert!(theirs.events.len() == ours.events.len() && near, "{name}: the lists differ");
    let rest = |told: Told| (told.values, told.used, told.over, told.seed);
    let (theirs, ours) = (rest(theirs), rest(ours));
    assert!(theirs == ours, "{name}: {theirs:?} in the original, {ours:?} in the port");
}

/// What a case is run with.
struct Case<'a> {
    name: &'a str,
    events: &'a [Event],
    /// The calls that one run makes.
    row: usize,
    apart: i64,
}

/// One case: both sides made anew for each run, which is not timed; they take turns.
fn case(what: Case, fresh: impl Fn(&[Event]) -> (Original, Box<Port>), theirs: impl Fn(&mut Original), ours: impl Fn(&mut Port)) {
    let long = what.events.len() > LONG;
    let runs = if long { 31 } else { 501 };
    let (mut original, mut port) = (vec![], vec![]);
    for run in 0..runs {
        let (mut a, mut b) = fresh(what.events);
        let begun = clock(long);
        theirs(&mut a);
        original.push((clock(long) - begun) / what.row as f64);
        let begun = clock(long);
        ours(&mut b);
        port.push((clock(long) - begun) / what.row as f64);
        if run == 0 {
            agree(what.name, a.told(), b.told(), what.apart);
        }
    }
    let (original, port) = (median(original), median(port));
    println!("| {} | {} | {original:.2} | {port:.2} | {:.2} |", what.name, what.events.len(), port / original);
}

/// Triples that rise and fall, each so long.
fn triples(length: i32) -> Vec<i32> {
    (0..32).flat_map(|k| if k % 2 == 0 { [k, 127 - k, length] } else { [127 - k, k, length] }).collect()
}

fn turns() -> OnNoteSine {
    OnNoteSine { target: 129, shape: 0, low: -8000, high: 8000, length: 96, times: 100 }
}

fn steep() -> (Original, Box<Port>) {
    let (mut theirs, mut ours) = (Original::new(&[]), Port::new(&[]));
    theirs.track.pb_on_time_freq = 1;
    theirs.track.update_write_opt(WriteTarget::PitchBend(1), |option| option.random = 1);
    ours.set(|track| unsafe { bench_set_frequencies(track, 4, 1) });
    ours.set(|track| unsafe { bench_set_random(track, 129, 1) });
    (theirs, ours)
}

fn play_theirs(side: &mut Original, from: isize) {
    let track = &mut side.track;
    let values = [track.calc_v_on_note(100), track.calc_t_on_note(0), track.calc_qlen_on_note(90)];
    side.values.extend(values.map(|v| v as i64));
    side.write(|track, ctx| track.write_cc_on_note(from, ctx));
    side.track.timepos = from + 96;
    side.write(|track, ctx| track.write_cc_on_note_wave(from, ctx));
}

fn play_ours(side: &mut Port, from: i64) {
    side.take(|track| unsafe { bench_calc_v_on_note(track, 100) });
    side.take(|track| unsafe { bench_calc_t_on_note(track, 0) });
    side.take(|track| unsafe { bench_calc_qlen_on_note(track, 90) });
    side.on_note(from);
    side.track.timepos = from + 96;
    side.waves(from);
}

/// A curve of 32 triples at `from`, into a list that has room for so many events more.
fn curve_case(name: &str, events: &[Event], from: isize, length: i32, room: usize) {
    let curve = triples(length);
    case(
        Case { name, events, row: 1, apart: 0 },
        |events| {
            let (mut theirs, mut ours) = typical(events, from);
            theirs.given = curve.iter().map(|&v| v as isize).collect();
            ours.list.resize((events.len() + room) * 8, 0);
            (theirs, ours)
        },
        |side| {
            let given = std::mem::take(&mut side.given);
            side.write(|track, ctx| track.write_cc_on_time(7, given, ctx))
        },
        |side| side.curve(7, &curve),
    );
}

pub fn speeds() {
    for count in [0, 1_000, 100_000] {
        let events = list(count, Order::Rising);
        let from = count as isize * STEP / 2;
        curve_case("write_cc_on_time, 32 triples of 12 steps", &events, from, 12, ROOM);
        if count > 0 {
            curve_case("the same, with room for 200 events alone", &events, from, 12, 200);
        }
        curve_case("write_cc_on_time, 32 triples of 3,000 steps", &events, from, 3000, 100_000);
    }
    curve_case("the same, with room for 4,096 events alone", &[], 0, 3000, 4096);
    case(
        Case { name: "write_sine, 100 turns of 96 steps", events: &[], row: 1, apart: 1 },
        |_| steep(),
        |side| side.write(|track, ctx| track.write_sine(WriteTarget::PitchBend(1), SineType::Sine, -8000, 8000, 96, 100, ctx)),
        |side| side.sine(turns()),
    );
    for count in [0, 1_000] {
        let events = list(count, Order::Rising);
        let from = count as isize * STEP / 2;
        case(
            Case { name: "a note: three values, its lists, a wave and a sine", events: &events, row: 1, apart: 0 },
            |events| typical(events, from),
            |side| play_theirs(side, from),
            |side| play_ours(side, from as i64),
        );
        case(
            Case { name: "write_cc_on_cycle, three targets, 31 writes", events: &events, row: 1, apart: 0 },
            |events| typical(events, from),
            |side| side.write(|track, ctx| track.write_cc_on_cycle(from + 420, ctx)),
            |side| side.cycles(from as i64 + 420),
        );
    }
    case(
        Case { name: "set_delay", events: &[], row: ROW, apart: 0 },
        |events| typical(events, 0),
        |side| {
            for delay in 0..ROW as isize {
                black_box(&mut side.track).update_write_opt(WriteTarget::CC(7), |option| option.delay = delay);
            }
            side.values.push(side.track.get_write_opt(WriteTarget::CC(7)).delay as i64);
        },
        |side| {
            for delay in 0..ROW as i32 {
                side.set(|track| unsafe { bench_set_delay(track, 7, delay) });
            }
            side.values.push(side.track.options[7].delay as i64);
        },
    );
    case(
        Case { name: "set_timepos", events: &[], row: ROW, apart: 0 },
        |events| typical(events, 0),
        |side| {
            for time in 0..ROW as isize {
                black_box(&mut side.track).timepos = time;
            }
            side.values.push(side.track.timepos as i64);
        },
        |side| {
            for time in 0..ROW as i64 {
                side.set(|track| unsafe { bench_set_timepos(track, time) });
            }
            side.values.push(side.track.timepos);
        },
    );
    copies();
}

/// What handing a track on costs: a copy of its bytes, and the way through a call that asks nothing.
fn copies() {
    let (_, mut port) = typical(&[], 0);
    let (mut copied, mut handed) = (vec![], vec![]);
    let mut other = port.track;
    for _ in 0..501 {
        let begun = clock(false);
        for _ in 0..ROW {
            other = black_box(*black_box(&port.track));
        }
        copied.push((clock(false) - begun) / ROW as f64);
        let begun = clock(false);
        for _ in 0..ROW {
            port.set(|track| unsafe { bench_hand_on(black_box(track)) });
        }
        handed.push((clock(false) - begun) / ROW as f64);
    }
    assert!(port.track == other, "a track handed on is another");
    println!("a track is {} bytes: {:.2} us to copy, {:.2} us to hand in and back", size_of::<crate::port::Track>(), median(copied), median(handed));
}

/// How much stack each call takes.
pub fn depths() {
    println!("| call | stack, bytes |\n|---|---|");
    let mut most = 0;
    let events = list(100_000, Order::Random);
    let mut show = |name: &str, call: fn(&mut Port)| {
        let mut side = typical(&events, 0).1;
        let depth = stack::depth(move || call(&mut side));
        most = most.max(depth);
        println!("| {name} | {depth} |");
    };
    show("Track::new", |side| side.set(|_| unsafe { bench_new(96, 3) }));
    show("set_timepos", |side| side.set(|track| unsafe { bench_set_timepos(track, 1) }));
    show("set_delay", |side| side.set(|track| unsafe { bench_set_delay(track, 7, 1) }));
    show("set_repeat", |side| side.set(|track| unsafe { bench_set_repeat(track, 7, 1) }));
    show("set_param_on_note", |side| side.set(|track| unsafe { bench_set_param_on_note(track, 0, [1, 2].as_ptr(), 2) }));
    show("set_on_note", |side| side.keep(|track, table| unsafe { bench_set_on_note(track, table, 7, [1, 2].as_ptr(), 2) }));
    show("set_on_note_wave", |side| side.keep(|track, table| unsafe { bench_set_on_note_wave(track, table, 7, 1, [1, 2, 3].as_ptr(), 3) }));
    show("set_on_note_sine", |side| {
        let sine = OnNoteSine { target: 7, shape: 0, low: 0, high: 64, length: 24, times: 4 };
        side.keep(|track, table| unsafe { bench_set_on_note_sine(track, table, 7, sine) })
    });
    show("set_on_cycle", |side| side.keep(|track, table| unsafe { bench_set_on_cycle(track, table, 7, 24, [1, 2].as_ptr(), 2) }));
    show("calc_v_on_note", |side| side.take(|track| unsafe { bench_calc_v_on_note(track, 100) }));
    show("write_cc_on_note", |side| side.on_note(0));
    show("write_cc_on_note_wave", |side| {
        side.track.timepos = 96;
        side.waves(0)
    });
    show("write_cc_on_time", |side| side.curve(7, &triples(12)));
    show("write_sine", |side| side.sine(turns()));
    show("write_cc_on_cycle", |side| side.cycles(420));
    show("set_param_on_cycle", |side| side.set(|track| unsafe { bench_set_param_on_cycle(track, 0, [24, 2].as_ptr(), 2) }));
    show("set_v_sub_on_cycle", |side| side.set(|track| unsafe { bench_set_v_sub_on_cycle(track, 3, [24, 2].as_ptr(), 2) }));
    show("apply_v_sub", |side| {
        let answer = unsafe { bench_apply_v_sub(side.track, 100) };
        assert_eq!((answer.code, answer.value, answer.track == side.track), (0, 100, true));
    });
    show("calc_v_on_time", |side| side.take(|track| unsafe { bench_calc_v_on_time(track, 100) }));
    show("remove_reserve", |side| side.keep(|track, table| unsafe { bench_remove_reserve(track, table, 71) }));
    show("remove_cc_on_note_wave", |side| side.set(|track| unsafe { bench_remove_cc_on_note_wave(track, 11) }));
    show("current_cc_value", |side| {
        let (events, length) = (side.list.as_ptr(), side.list.len());
        let told = unsafe { bench_current_cc_value(side.track, 7, events, length, side.count, STORE.as_ptr(), STORE.len()) };
        assert_eq!(told.code, 0);
        assert!(0 <= told.value && told.value <= 127);
    });
    show("events_sort", |side| side.listed(|events, length, count| unsafe { bench_events_sort(events, length, count, STORE.as_ptr(), STORE.len()) }));
    show("normalize", |side| {
        side.list.resize(side.count * 16, 0);
        side.listed(|events, length, count| unsafe { bench_normalize(events, length, count, STORE.as_ptr(), STORE.len()) })
    });
    show("play_from", |side| {
        side.listed(|events, length, count| unsafe { bench_play_from(events, length, count, 500, STORE.as_ptr(), STORE.len()) })
    });
    show("full_cut", |side| side.listed(|events, length, count| unsafe { bench_full_cut(events, length, count, 500, STORE.as_ptr(), STORE.len()) }));
    println!("the deepest takes {most} of {} bytes", stack::SIZE);
}
