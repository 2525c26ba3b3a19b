// One call of a script, made on the original. A refused call leaves the desk as it was: most refusals are known before (rules.rs), and a call whose result is
// refused, for an event's time (4) or for want of room (7), is taken back.

use crate::cut::full_cut;
use crate::desk::*;
use crate::original::*;
use crate::rules;
use crate::script::Step;
use crate::sine::{write_sine, Quarter};
use crate::{poke, private, profile, smf, table};

/// What a call answers; `result` is the list of `split_note_off`, `bytes` the output of `write_chunk` after it.
#[derive(Default)]
pub struct Reply {
    pub code: i64,
    pub answers: Vec<i64>,
    pub result: Vec<Record>,
    pub bytes: Vec<u8>,
}

fn refused(code: i64) -> Reply {
    Reply { code, ..Reply::default() }
}

fn answer(answers: &[i64]) -> Reply {
    Reply { answers: answers.to_vec(), ..Reply::default() }
}

fn done() -> Reply {
    Reply::default()
}

pub fn make(desk: &mut Desk, quarter: &Quarter, step: &Step) -> Reply {
    let Some(call) = table::find(step.op) else { return refused(-1) };
    let code = rules::refusal(desk, call, step);
    if code != 0 {
        return Reply { bytes: output(step), ..refused(code) };
    }
    let (a, list) = step.parts();
    match step.op / 100 {
        1 => constructor(step.op, a),
        2 => leaf(desk, step.op, a),
        3 => listed(desk, step.op, a, list),
        4 => parameter(desk, step.op, a, list),
        5 => of_track(desk, step.op, a, list),
        6 => written(desk, quarter, step.op, a, list),
        7 => reserved(desk, quarter, step.op, a, list),
        8 => numbered(desk, step.op, a),
        _ => poke::make(desk, step.op, a),
    }
}

/// The output that a call is lent, as it finds it; empty for all but `write_chunk`.
fn output(step: &Step) -> Vec<u8> {
    if step.op == 311 {
        smf::output(step.args[0])
    } else {
        vec![]
    }
}

/// A list of a script as bytes.
pub fn bytes(list: &[i64]) -> Vec<u8> {
    list.iter().map(|&byte| u8::try_from(byte).expect("a byte")).collect()
}

fn constructor(op: i64, a: &[i64]) -> Reply {
    let x = isizes(a);
    let event = match op {
        101 => Event::note(x[0], x[1], x[2], x[3], x[4]),
        102 => Event::voice(x[0], x[1], x[2]),
        103 => Event::meta(x[0], x[1], x[2], x[3], stretch(a[4], a[5])),
        104 => Event::direct_smf(x[0], stretch(a[1], a[2])),
        105 => Event::sysex_raw(x[0], stretch(a[1], a[2])),
        106 => Event::cc(x[0], x[1], x[2], x[3]),
        107 => Event::pitch_bend(x[0], x[1], x[2]),
        108 => Event::pitch_bend_range(x[0], x[1], x[2]),
        _ => return answer(&[event_of(a.try_into().unwrap()).estimated_midi_bytes() as i64]),
    };
    let mut record = record_of(&event);
    if event.data.is_some() {
        // An empty stretch has no first byte to be found by.
        record[6] = a[a.len() - 2];
    }
    answer(&record)
}

fn leaf(desk: &mut Desk, op: i64, a: &[i64]) -> Reply {
    match op {
        201 => answer(&[value_range(a[0] as isize, a[1] as isize, a[2] as isize) as i64]),
        202 => {
            let (value, seed) = private::random(a[0] as u32, a[1] as isize, a[2] as isize);
            answer(&[value as i64, i64::from(seed)])
        }
        203 => answer(&[i64::from(reserve(desk, a[0], a[1]))]),
        205 => {
            desk.budget = Budget { seed: a[0], maximum: a[1], used: 0, flag: 0 };
            done()
        }
        _ => answer(&[private::step_budget(desk.budget.maximum as usize, desk.budget.used as usize) as i64]),
    }
}

/// Eight bytes are asked through a written value; for other sizes the original's estimate is held against document 01's rule.
fn reserve(desk: &mut Desk, kind: i64, length: i64) -> bool {
    let size = event_of(&[kind, 0, 0, 0, 0, 0, 0, length]).estimated_midi_bytes() as i64;
    if size == 8 {
        let mut other = Track::new(96, 0);
        return desk.write(|_, ctx| private::push(&mut other, WriteTarget::CC(7), 0, 0, ctx));
    }
    let fits = desk.budget.used + size <= desk.budget.maximum;
    if fits {
        desk.budget.used += size;
    } else {
        desk.budget.flag = 1;
    }
    fits
}

/// The two questions that need the result: the times of the events that a call adds or keeps, and how many the list would hold.
fn verdict(events: &[Event], count: usize, room: usize) -> i64 {
    if !events.iter().all(|event| rules::is_event_time(event.time as i64)) {
        4
    } else if count > room {
        7
    } else {
        0
    }
}

/// Makes a call on the list alone.
fn on_list(desk: &mut Desk, call: impl FnOnce(&mut Track)) -> Reply {
    desk.track.events = events_of(&desk.list);
    call(&mut desk.track);
    let events = std::mem::take(&mut desk.track.events);
    let code = verdict(&events, events.len(), desk.room);
    if code == 0 {
        desk.list = records_of(&events);
    }
    refused(code)
}

fn listed(desk: &mut Desk, op: i64, a: &[i64], list: &[i64]) -> Reply {
    let x = isizes(a);
    match op {
        301 if desk.list.len() >= desk.room => refused(7),
        301 => {
            desk.list.push(a.try_into().unwrap());
            done()
        }
        302 => {
            let mut record = desk.list[a[0] as usize];
            if record[7] == 0 {
                record[6] = 0;
            }
            answer(&record)
        }
        303 => on_list(desk, |track| {
            let (target, timepos) = (target_of(a[0]), track.timepos);
            track.timepos = x[1] - track.get_write_opt(target).delay;
            private::clear_window(track, target, x[2] - x[1]);
            track.timepos = timepos;
        }),
        304 => on_list(desk, |track| track.remove_pitch_bend_in_range(x[0], x[1])),
        305 => {
            desk.track.events = events_of(&desk.list);
            let value = desk.track.current_cc_value(x[0]);
            desk.track.events.clear();
            answer(&[value as i64])
        }
        306 => {
            desk.track.events = events_of(&desk.list);
            let events = desk.track.split_note_off();
            desk.track.events.clear();
            match verdict(&events, events.len(), desk.room) {
                0 => Reply { result: records_of(&events), ..done() },
                code => refused(code),
            }
        }
        307 => on_list(desk, |track| track.normalize()),
        308 => on_list(desk, |track| track.events_sort()),
        309 => on_list(desk, |track| track.play_from(x[0])),
        310 => on_list(desk, |track| track.events = full_cut(&track.events, x[0])),
        311 => {
            let mut bytes = smf::output(a[0]);
            let made = smf::write_chunk(&desk.list, &mut bytes);
            Reply { bytes, ..made.map_or_else(refused, |length| answer(&[length as i64])) }
        }
        312 => replaced(desk, smf::read_chunk(&bytes(list), desk.room)),
        313 => answer(&[i64::from(profile::passes(&desk.list))]),
        _ => replaced(desk, profile::fit(&desk.list)),
    }
}

/// The list is another one, and the call answers its count; or it is refused.
fn replaced(desk: &mut Desk, made: Result<Vec<Record>, i64>) -> Reply {
    match made {
        Ok(events) => {
            desk.list = events;
            answer(&[desk.list.len() as i64])
        }
        Err(code) => refused(code),
    }
}

fn parameter(desk: &mut Desk, op: i64, a: &[i64], list: &[i64]) -> Reply {
    let (x, list) = (isizes(a), isizes(list));
    if op == 418 {
        let value = OnCycleTime { start_time: x[0], len: x[1], values: list }.calc(x[2]);
        return value.map_or(answer(&[0, 0]), |value| answer(&[1, value as i64]));
    }
    let param = desk.param(a[0]);
    let value = match op {
        403 => isize::from(param.has_reserve()),
        407 => param.calc_on_time(x[1], x[2]),
        408 => param.calc_on_note(x[1]),
        409 => param.apply_limit(x[1]),
        410 => param.max_or(x[1]),
        _ => {
            set_parameter(param, op, &x, list);
            return done();
        }
    };
    answer(&[value as i64])
}

fn set_parameter(param: &mut NoteParam, op: i64, x: &[isize], list: Vec<isize>) {
    match op {
        401 => *param = NoteParam::new(),
        402 => param.clear_reserve(),
        404 => param.set_on_time(x[1], list),
        405 => param.set_on_cycle(x[1], list),
        406 => param.set_on_note(list),
        411 => param.random = x[1],
        412 => param.range = Some((x[1], x[2])),
        413 => param.range = None,
        414 => param.delay = x[1],
        415 => param.max = x[1],
        416 => param.max = isize::MAX,
        _ => param.repeat = x[1] != 0,
    }
}

/// The setters of family 4 that 517 to 527 are, in this order, as the track's own.
pub const OWN_SETTERS: [i64; 11] = [404, 405, 406, 402, 411, 412, 413, 414, 415, 416, 417];

/// A parameter's setter as the track's own: what starts at a time starts at the track's.
fn own_setter(desk: &mut Desk, op: i64, a: &[i64], list: &[i64]) -> Reply {
    let mut x = isizes(a);
    if matches!(op, 404 | 405) {
        x.push(desk.track.timepos);
    }
    set_parameter(desk.param(a[0]), op, &x, isizes(list));
    done()
}

fn of_track(desk: &mut Desk, op: i64, a: &[i64], list: &[i64]) -> Reply {
    if op > 516 {
        return own_setter(desk, OWN_SETTERS[(op - 517) as usize], a, list);
    }
    let (track, first, list) = (&mut desk.track, a[0] as isize, isizes(list));
    let value = match op {
        501 => track.calc_v_on_time(first),
        502 => track.calc_v_on_note(first),
        503 => track.calc_t_on_time(first),
        504 => track.calc_t_on_note(first),
        505 => track.calc_qlen_on_time(first),
        506 => track.calc_qlen_on_note(first),
        507 => track.calc_o_on_time(first),
        508 => track.calc_o_on_note(first),
        509 => track.calc_l_on_time(first),
        510 => track.calc_l_on_note(first),
        516 => track.apply_v_sub(first),
        _ => {
            let layer = a[0] as usize;
            match op {
                511 => track.set_v_sub(layer, a[1] as isize),
                512 => track.set_v_sub_random(layer, a[1] as isize),
                513 => track.set_v_sub_on_time(layer, list),
                514 => track.set_v_sub_on_cycle(layer, list),
                _ => track.set_v_sub_on_note(layer, list),
            }
            return done();
        }
    };
    answer(&[value as i64])
}

/// Makes a writing call, and takes it back where its result is refused. A call that only appends never sees the list, which may hold anything.
fn on_desk<R>(desk: &mut Desk, reads: bool, call: impl FnOnce(&mut Track, &mut WriteCtx) -> R) -> (i64, R) {
    let (budget, timepos) = (desk.budget, desk.track.timepos);
    let (notes, cycles) = (desk.track.cc_on_note.clone(), desk.track.cc_on_cycle.clone());
    desk.track.events = if reads { events_of(&desk.list) } else { vec![] };
    let answer = desk.write(call);
    let events = std::mem::take(&mut desk.track.events);
    let kept = if reads { 0 } else { desk.list.len() };
    let code = verdict(&events, kept + events.len(), desk.room);
    if code != 0 {
        desk.budget = budget;
        desk.track.timepos = timepos;
        desk.track.cc_on_note = notes;
        desk.track.cc_on_cycle = cycles;
        return (code, answer);
    }
    desk.list.truncate(kept);
    desk.list.extend(records_of(&events));
    for cycle in &mut desk.track.cc_on_cycle {
        cycle.index %= cycle.data.len();
    }
    (code, answer)
}

fn written(desk: &mut Desk, quarter: &Quarter, op: i64, a: &[i64], list: &[i64]) -> Reply {
    let (x, list) = (isizes(a), isizes(list));
    match op {
        601 => {
            let option = desk.option(key_of(a[0]));
            let (low, high) = option.range.unwrap_or((0, 0));
            let flags = [option.range.is_some(), option.repeat].map(i64::from);
            answer(&[option.delay as i64, option.random as i64, flags[0], low as i64, high as i64, flags[1]])
        }
        602..=605 => {
            desk.change_option(a[0], |option| match op {
                602 => option.delay = x[1],
                603 => option.random = x[1],
                604 => option.range = Some((x[1], x[2])),
                _ => option.range = None,
            });
            done()
        }
        606 => match on_desk(desk, false, |track, ctx| private::push(track, target_of(a[0]), x[1], x[2], ctx)) {
            (0, fits) => answer(&[i64::from(fits)]),
            (code, _) => refused(code),
        },
        607 => refused(on_desk(desk, true, |track, ctx| track.write_on_time(target_of(a[0]), list, ctx)).0),
        608 => refused(on_desk(desk, true, |track, ctx| write_sine(quarter, track, ctx, &sine_of(a))).0),
        609 => refused(on_desk(desk, true, |track, ctx| track.write_cc_on_time(x[0], list, ctx)).0),
        610 => refused(on_desk(desk, true, |track, ctx| track.write_pb_on_time(x[0], list, ctx)).0),
        _ => answer(&[type_number(SineType::from_i(x[0]))]),
    }
}

/// target type low high length times
fn sine_of(a: &[i64]) -> OnNoteSine {
    let x = isizes(a);
    OnNoteSine { target: target_of(a[0]), stype: SineType::from_i(x[1]), low: x[2], high: x[3], len: x[4], times: x[5] }
}

pub fn type_number(shape: SineType) -> i64 {
    match shape {
        SineType::Sine => 0,
        SineType::UpSine => 1,
        SineType::DownSine => 2,
    }
}

pub const MODES: [WaveMode; 3] = [WaveMode::Normal, WaveMode::Expand, WaveMode::Repeat];

fn reserved(desk: &mut Desk, quarter: &Quarter, op: i64, a: &[i64], list: &[i64]) -> Reply {
    let (x, list) = (isizes(a), isizes(list));
    let code = match op {
        707 => on_desk(desk, false, |track, ctx| track.write_cc_on_note(x[0], ctx)).0,
        708 => on_desk(desk, true, |track, ctx| on_note_wave(quarter, track, ctx, x[0])).0,
        709 => on_desk(desk, false, |track, ctx| track.write_cc_on_cycle(x[0], ctx)).0,
        _ => {
            if op == 702 {
                desk.keys.insert(key_of(a[0]));
            }
            reserve_target(&mut desk.track, op, a, &x, list);
            0
        }
    };
    refused(code)
}

fn reserve_target(track: &mut Track, op: i64, a: &[i64], x: &[isize], list: Vec<isize>) {
    let target = || target_of(a[0]);
    match op {
        701 => track.remove_reserve(target()),
        702 => track.set_repeat(target(), a[1] != 0),
        703 => track.set_on_note(target(), list),
        704 => track.set_on_note_wave(target(), list, MODES[a[1] as usize]),
        705 => track.set_on_note_sine(target(), sine_of(a)),
        706 => track.set_on_cycle(target(), x[1], list),
        710 => track.remove_cc_on(x[0]),
        711 => track.remove_cc_on_note_wave(x[0]),
        712 => track.set_cc_on_note_wave(x[0], list),
        713 => track.remove_cc_on_note(x[0]),
        714 => track.set_cc_on_note(x[0], list),
        715 => track.set_pb_on_note_wave(x[0], list),
        _ => track.remove_pb_on_note_wave(),
    }
}

/// The original's `write_cc_on_note_wave` for the waves, and the rule's values for the sines that follow.
fn on_note_wave(quarter: &Quarter, track: &mut Track, ctx: &mut WriteCtx, start: isize) {
    let sines = std::mem::take(&mut track.cc_on_note_sine);
    track.write_cc_on_note_wave(start, ctx);
    let end = std::mem::replace(&mut track.timepos, start);
    for sine in &sines {
        if ctx.event_limit_exceeded {
            break;
        }
        write_sine(quarter, track, ctx, sine);
    }
    track.timepos = end;
    track.cc_on_note_sine = sines;
}

fn numbered(desk: &mut Desk, op: i64, a: &[i64]) -> Reply {
    let x = isizes(a);
    match op {
        801 => {
            desk.track = Track::new(x[0], x[1]);
            desk.timebase = a[0];
            desk.keys.clear();
        }
        802 => desk.track.timepos = x[0],
        803 => desk.track.channel = x[0],
        804 => desk.track.cc_on_time_freq = x[0],
        _ => desk.track.pb_on_time_freq = x[0],
    }
    done()
}
