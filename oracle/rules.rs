// Document 01's refusals, asked before the original is called: "Numbers a caller may hand in" and the table of "Numbers that come back", in the table's
// order. What can only be known by making the call (4 for a resulting event time, 7) is asked afterwards, in calls.rs, what a track chunk refuses (10 to 15) in smf.rs, and what the profile refuses (17, 18) in profile.rs.

use crate::desk::*;
use crate::original::*;
use crate::script::Step;
use crate::table::{Arg, Call};

/// The most numbers that a list has.
pub const LIST_LIMIT: usize = 192;
/// The most that it had before request c). No rule asks it: scripts and tapes are made with it, so that they meet what is new.
pub const FORMER_LIMIT: usize = 96;
pub const PLACES: usize = 16;
const BYTES: i64 = 67_108_864;

/// Within plus or minus 2^bits, both ends included.
fn within(x: i64, bits: u32) -> bool {
    x.unsigned_abs() <= 1 << bits
}

pub fn is_event_time(time: i64) -> bool {
    within(time, 42)
}

fn is_target(code: i64) -> bool {
    (0..=129).contains(&code)
}

fn is_controller(number: i64) -> bool {
    (0..=127).contains(&number)
}

/// The number that refuses the call before it is made, or 0.
pub fn refusal(desk: &Desk, call: &Call, step: &Step) -> i64 {
    let (args, list) = step.parts();
    let each = || call.args.iter().copied().zip(args.iter().copied());
    if lent_wrongly(desk, call) || each().any(|(arg, x)| arg == Arg::Places && x != PLACES as i64) {
        return 1;
    }
    if each().any(|(arg, x)| arg == Arg::Target && !is_target(x) || arg == Arg::Controller && !is_controller(x)) {
        return 2;
    }
    if list.len() > LIST_LIMIT && !call.args.contains(&Arg::Chunk) {
        return 3;
    }
    if !arguments_ok(call, args, list) || !lent_ok(desk, call, args) {
        return 4;
    }
    if each().any(|(arg, x)| arg == Arg::Layer && x > 15) {
        return 5;
    }
    if no_place(desk, step.op, args, list) {
        return 6;
    }
    0
}

fn lent_wrongly(desk: &Desk, call: &Call) -> bool {
    (call.takes('E') || call.takes('A')) && desk.lent != (0, 0)
}

fn arguments_ok(call: &Call, args: &[i64], list: &[i64]) -> bool {
    let stretches = call.args.windows(2).zip(args.windows(2)).all(|(arg, x)| arg[0] != Arg::Offset || is_stretch(x[0], x[1]));
    let numbers = call.args.iter().zip(args).all(|(arg, &x)| number_ok(*arg, x));
    let record = !matches!(call.op, 109 | 301) || record_ok(args.try_into().unwrap());
    let listed = call.args.last().is_none_or(|arg| list_ok(*arg, list));
    let expand = call.op != 704 || args[1] != 1 || lengths(list).all(|length| length >= 0);
    stretches && numbers && record && listed && expand
}

fn number_ok(arg: Arg, x: i64) -> bool {
    match arg {
        Arg::Time => within(x, 40),
        Arg::Start => within(x, 41),
        Arg::Stamp => is_event_time(x),
        Arg::Channel => (0..=15).contains(&x),
        Arg::Timebase => (1..=32767).contains(&x),
        Arg::Short => within(x, 20),
        Arg::Long => within(x, 22),
        Arg::Random => x <= 1 << 20,
        Arg::Peak => x.abs() <= 16383,
        Arg::Bytes => (0..=BYTES).contains(&x),
        _ => true,
    }
}

fn lengths(list: &[i64]) -> impl Iterator<Item = i64> + '_ {
    list.chunks_exact(3).map(|triple| triple[2])
}

fn list_ok(arg: Arg, list: &[i64]) -> bool {
    let values = list.iter().all(|&x| within(x, 22));
    match arg {
        Arg::Curve => values && lengths(list).all(|length| within(length, 20)),
        Arg::Cycle => values && list.first().is_none_or(|&length| within(length, 20)),
        _ => values,
    }
}

/// A stored event: its ranges, and data where and only where its kind has it.
pub fn record_ok(record: &Record) -> bool {
    let [kind, time, channel, v1, v2, v3, offset, length] = *record;
    let words = [v1, v2, v3].iter().all(|&v| i32::try_from(v).is_ok());
    let numbers = (0..=8).contains(&kind) && is_event_time(time) && (0..=15).contains(&channel) && words;
    let controller = kind != 2 || is_controller(v1);
    let data = if has_data(kind) { is_stretch(offset, length) } else { (offset, length) == (0, 0) };
    numbers && controller && data
}

fn lent_ok(desk: &Desk, call: &Call, args: &[i64]) -> bool {
    (!call.takes('P') || param_ok(desk.params()[args[0] as usize]))
        && (!call.takes('T') || track_ok(desk))
        && (!call.takes('B') || budget_ok(&desk.budget))
        && (!call.takes('C') || cycles_ok(desk))
        && (!call.takes('E') || desk.list.iter().all(record_ok))
}

pub fn budget_ok(budget: &Budget) -> bool {
    (0..=BYTES).contains(&budget.maximum) && (0..=BYTES).contains(&budget.used) && (0..=1).contains(&budget.flag)
}

fn range_ok(range: Option<(isize, isize)>) -> bool {
    range.is_none_or(|(low, high)| within(low as i64, 22) && within(high as i64, 22))
}

fn param_ok(param: &NoteParam) -> bool {
    let listed = |arg: Arg, values: &[isize]| values.len() <= LIST_LIMIT && list_ok(arg, &numbers(values).collect::<Vec<_>>());
    let reserved = if let Some(cycle) = &param.on_cycle {
        within(cycle.start_time as i64, 41) && within(cycle.len as i64, 20) && listed(Arg::Values, &cycle.values)
    } else if let Some(values) = &param.on_time {
        within(param.on_time_start as i64, 41) && listed(Arg::Curve, values)
    } else if let Some(values) = &param.on_note {
        (0..=values.len() as i64).contains(&(param.on_note_index as i64)) && listed(Arg::Values, values)
    } else {
        true
    };
    let maximum = param.max == isize::MAX || within(param.max as i64, 22);
    reserved && param.random <= 1 << 20 && range_ok(param.range) && within(param.delay as i64, 20) && maximum
}

/// The whole track: its numbers, options, parameters, layers and three tables. What a layer holds in private is only ever set by calls that were accepted.
pub fn track_ok(desk: &Desk) -> bool {
    let track = &desk.track;
    let spans = (1..=32767).contains(&desk.timebase) && within(track.timepos as i64, 40) && (0..=15).contains(&track.channel);
    let frequencies = [track.cc_on_time_freq, track.pb_on_time_freq].iter().all(|&f| within(f as i64, 20));
    let values = [track.velocity, track.timing, track.octave, track.qlen].iter().chain(&track.v_sub).all(|&v| within(v as i64, 22));
    let layers = track.v_sub_rand.iter().all(|&random| random <= 1 << 20);
    let options = desk
        .keys
        .iter()
        .map(|&key| desk.option(key))
        .all(|option| within(option.delay as i64, 20) && option.random <= 1 << 20 && range_ok(option.range));
    spans && frequencies && values && layers && options && desk.params().into_iter().all(param_ok) && tables_ok(desk)
}

fn tables_ok(desk: &Desk) -> bool {
    let track = &desk.track;
    let listed = |arg: Arg, values: &[isize]| list_ok(arg, &numbers(values).collect::<Vec<_>>());
    let notes = track.cc_on_note.iter().all(|it| (0..=it.data.len() as i64).contains(&(it.index as i64)) && listed(Arg::Values, &it.data));
    let waves = track.cc_on_note_wave.iter().all(|it| {
        let backwards = it.mode == WaveMode::Expand && it.data.chunks_exact(3).any(|triple| triple[2] < 0);
        listed(Arg::Curve, &it.data) && !backwards
    });
    let sines = track.cc_on_note_sine.iter().all(|it| {
        let peaks = [it.low, it.high].iter().all(|&x| (x as i64).abs() <= 16383);
        peaks && [it.len, it.times].iter().all(|&x| within(x as i64, 20))
    });
    notes && waves && sines && one_each(&reserved(desk, false))
}

pub fn cycles_ok(desk: &Desk) -> bool {
    let sound = desk.track.cc_on_cycle.iter().all(|it| {
        let place = (it.index as i64) >= 0 && (it.index as i64) < it.data.len() as i64;
        place && (1..=1 << 20).contains(&(it.len as i64)) && within(it.next_time as i64, 41) && it.data.iter().all(|&v| within(v as i64, 22))
    });
    sound && one_each(&reserved(desk, true))
}

/// The codes of all reservations, those of the cycle table only where it is lent.
fn reserved(desk: &Desk, cycles: bool) -> Vec<i64> {
    let track = &desk.track;
    let mut codes: Vec<i64> = track.cc_on_note.iter().map(|it| code_of(it.target)).collect();
    codes.extend(track.cc_on_note_wave.iter().map(|it| code_of(it.target)));
    codes.extend(track.cc_on_note_sine.iter().map(|it| code_of(it.target)));
    if cycles {
        codes.extend(track.cc_on_cycle.iter().map(|it| code_of(it.target)));
    }
    codes
}

/// Sound targets, each at most once, both bends being one.
fn one_each(codes: &[i64]) -> bool {
    let mut keys: Vec<i64> = codes.iter().map(|&code| key_of(code)).collect();
    keys.sort_unstable();
    codes.iter().all(|&code| is_target(code)) && keys.windows(2).all(|pair| pair[0] != pair[1])
}

/// Sixteen others stand in the table that the call would enter. A cycle set that only removes enters none.
fn no_place(desk: &Desk, op: i64, args: &[i64], list: &[i64]) -> bool {
    let track = &desk.track;
    let others = |codes: Vec<i64>, code: i64| codes.into_iter().filter(|&it| key_of(it) != key_of(code)).count() >= PLACES;
    match op {
        703 | 714 => others(track.cc_on_note.iter().map(|it| code_of(it.target)).collect(), args[0]),
        704 | 712 => others(track.cc_on_note_wave.iter().map(|it| code_of(it.target)).collect(), args[0]),
        715 => others(track.cc_on_note_wave.iter().map(|it| code_of(it.target)).collect(), BENDS),
        705 => others(track.cc_on_note_sine.iter().map(|it| code_of(it.target)).collect(), args[0]),
        706 => args[1] > 0 && !list.is_empty() && others(track.cc_on_cycle.iter().map(|it| code_of(it.target)).collect(), args[0]),
        _ => false,
    }
}
