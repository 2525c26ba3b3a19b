// One call of a script, made on the linked port through its C interface. Nothing is tested here: the library decides every refusal. The calls of family 9, and those
// that it does not export, are not here.

use crate::calls::{self, Reply, OWN_SETTERS};
use crate::desk::Record;
use crate::dollavir::*;
use crate::make::is_inner;
use crate::other::*;
use crate::rules::LIST_LIMIT;
use crate::script::Step;
use crate::smf;
use crate::table::{self, Arg};

/// How many bytes behind an output are looked at after the call.
const BEHIND: i64 = 16;

/// A refused call has zeros for answers: out-parameters hold 77 before a call, so that one which is not written shows.
fn reply(code: u32, answers: &[i64]) -> Reply {
    assert!(code == 0 || answers.iter().all(|&answer| answer == 0), "a refused call's answer is not 0");
    let answers = if code == 0 { answers.to_vec() } else { vec![] };
    Reply { code: i64::from(code), answers, ..Reply::default() }
}

/// Whether the library has the call: not the inner ones.
pub fn exports(step: &Step) -> bool {
    !is_inner(step.op)
}

pub fn make(desk: &mut Other, step: &Step) -> Reply {
    let (a, numbers) = step.parts();
    let list: Vec<i32> = numbers.iter().map(|&x| x as i32).collect();
    unsafe {
        match step.op / 100 {
            1 => constructor(desk, step.op, a),
            2 => leaf(desk, step.op, a),
            3 if step.op == 312 => read(desk, &calls::bytes(numbers)),
            3 => listed(desk, step.op, a),
            4 => parameter(desk, step.op, a, &list),
            5 => of_track(&mut desk.track, step.op, a, &list),
            6 => written(desk, step.op, a, &list),
            7 => reserved(desk, step.op, a, &list),
            _ => numbered(desk, step.op, a),
        }
    }
}

unsafe fn leaf(desk: &mut Other, op: i64, a: &[i64]) -> Reply {
    if op == 201 {
        return reply(0, &[dollavir_value_range(a[0], a[1], a[2])]);
    }
    let made = dollavir_budget_new(a[0] as u32, a[1] as u32);
    if made.code == 0 {
        desk.budget = made.budget;
    } else {
        assert!(made.budget == Budget { seed: 0, maximum: 0, used: 0, over: 0 }, "a refused budget is not of zeros");
    }
    reply(made.code, &[])
}

unsafe fn constructor(desk: &Other, op: i64, a: &[i64]) -> Reply {
    let (store, bytes) = (desk.store.as_ptr(), desk.store.len());
    let made = match op {
        101 => dollavir_event_note(a[0], a[1], a[2], a[3], a[4]),
        102 => dollavir_event_voice(a[0], a[1], a[2]),
        103 => dollavir_event_meta(a[0], a[1], a[2], a[3], a[4], a[5], store, bytes),
        104 => dollavir_event_direct_smf(a[0], a[1], a[2], store, bytes),
        105 => dollavir_event_sysex_raw(a[0], a[1], a[2], store, bytes),
        106 => dollavir_event_cc(a[0], a[1], a[2], a[3]),
        107 => dollavir_event_pitch_bend(a[0], a[1], a[2]),
        108 => dollavir_event_pitch_bend_range(a[0], a[1], a[2]),
        _ => {
            let event = Event { kind: a[0], time: a[1], channel: a[2], v1: a[3], v2: a[4], v3: a[5], offset: a[6], len: a[7] };
            let mut size = 77;
            let code = dollavir_event_bytes(&event, store, bytes, &mut size);
            return reply(code, &[size as i64]);
        }
    };
    let Event { kind, time, channel, v1, v2, v3, offset, len } = made.event;
    let record: Record = [kind, time, channel, v1, v2, v3, offset, len];
    reply(made.code, &record)
}

/// What a call that is lent the list is handed.
struct Lent<'a> {
    track: &'a mut Track,
    cycles: &'a mut [Cycle; LENDABLE],
    budget: &'a mut Budget,
    events: *mut i64,
    long: usize,
    count: &'a mut usize,
    store: *const u8,
    bytes: usize,
}

/// A call that is lent the list. A refused one leaves the count that it was handed.
fn lent(desk: &mut Other, call: impl FnOnce(Lent) -> u32) -> Reply {
    let (long, handed) = desk.lending();
    let mut count = handed;
    let Other { track, cycles, budget, events, store, .. } = desk;
    let code = call(Lent { track, cycles, budget, events: events.as_mut_ptr(), long, count: &mut count, store: store.as_ptr(), bytes: store.len() });
    if code == 0 {
        desk.count = count;
    } else {
        assert!(count == handed, "a refused call's count is not as it was");
    }
    reply(code, &[])
}

unsafe fn listed(desk: &mut Other, op: i64, a: &[i64]) -> Reply {
    match op {
        304 => lent(desk, |it| dollavir_remove_pitch_bend_in_range(it.events, it.long, it.count, a[0], a[1], it.store, it.bytes)),
        305 => {
            let mut value = 77;
            let made =
                lent(desk, |it| dollavir_current_cc_value(it.track, a[0] as i32, it.events, it.long, *it.count, it.store, it.bytes, &mut value));
            reply(made.code as u32, &[value])
        }
        306 => {
            let (mut out, mut left, handed) = (std::mem::take(&mut desk.out), 77, desk.lending().1);
            let made =
                lent(desk, |it| dollavir_split_note_off(it.events, it.long, *it.count, out.as_mut_ptr(), out.len(), it.store, it.bytes, &mut left));
            assert!(made.code == 0 || left == handed, "a refused split's count is not the list's");
            let result = if made.code == 0 { records(&out, left) } else { vec![] };
            desk.out = out;
            Reply { result, ..made }
        }
        307 => lent(desk, |it| dollavir_normalize(it.events, it.long, it.count, it.store, it.bytes)),
        308 => lent(desk, |it| dollavir_events_sort(it.events, it.long, *it.count, it.store, it.bytes)),
        309 => lent(desk, |it| dollavir_play_from(it.events, it.long, it.count, a[0], it.store, it.bytes)),
        310 => lent(desk, |it| dollavir_full_cut(it.events, it.long, it.count, a[0], it.store, it.bytes)),
        311 => chunk(desk, a[0]),
        313 => {
            let mut yes = 77;
            let made = lent(desk, |it| dollavir_check_profile(it.events, it.long, *it.count, it.store, it.bytes, &mut yes));
            reply(made.code as u32, &[i64::from(yes)])
        }
        _ => {
            let made = lent(desk, |it| dollavir_fit_profile(it.events, it.long, it.count, it.store, it.bytes));
            replaced(desk, made)
        }
    }
}

/// What a call answers that leaves another list: its count.
fn replaced(desk: &Other, made: Reply) -> Reply {
    let count = if made.code == 0 { desk.count } else { 0 };
    reply(made.code as u32, &[count as i64])
}

/// The output stands in front of some bytes that are not lent.
unsafe fn chunk(desk: &mut Other, room: i64) -> Reply {
    let (before, length, mut written) = (smf::output(room + BEHIND), room as usize, 77);
    let mut out = before.clone();
    let made = lent(desk, |it| dollavir_write_chunk(it.events, it.long, *it.count, it.store, it.bytes, out.as_mut_ptr(), length, &mut written));
    assert!(out[length..] == before[length..], "bytes behind the output are not as they were");
    out.truncate(length);
    Reply { bytes: out, ..reply(made.code as u32, &[written as i64]) }
}

unsafe fn read(desk: &mut Other, chunk: &[u8]) -> Reply {
    let made = lent(desk, |it| dollavir_read_chunk(chunk.as_ptr(), chunk.len(), it.events, it.long, it.count));
    replaced(desk, made)
}

unsafe fn parameter(desk: &mut Other, op: i64, a: &[i64], list: &[i32]) -> Reply {
    let (values, length) = (list.as_ptr(), list.len());
    if op == 418 {
        return cycle_time(a, list);
    }
    let param = desk.param(a[0]);
    let word = |at: usize| a[at] as i32;
    let mut value = 77;
    let code = match op {
        401 => {
            *param = dollavir_param_new();
            0
        }
        402 => dollavir_param_clear_reserve(param),
        403 => dollavir_param_has_reserve(param, &mut value),
        404 => dollavir_param_set_on_time(param, a[1], values, length),
        405 => dollavir_param_set_on_cycle(param, a[1], values, length),
        406 => dollavir_param_set_on_note(param, values, length),
        407 => dollavir_param_calc_on_time(param, a[1], word(2), &mut value),
        408 => dollavir_param_calc_on_note(param, word(1), &mut value),
        409 => dollavir_param_apply_limit(param, word(1), &mut value),
        410 => dollavir_param_max_or(param, word(1), &mut value),
        411 => dollavir_param_set_random(param, word(1)),
        412 => dollavir_param_set_range(param, word(1), word(2)),
        413 => dollavir_param_clear_range(param),
        414 => dollavir_param_set_delay(param, word(1)),
        415 => dollavir_param_set_max(param, word(1)),
        416 => dollavir_param_clear_max(param),
        _ => dollavir_param_set_repeat(param, a[1] as u32),
    };
    let answers = [i64::from(value)];
    reply(code, if matches!(op, 403 | 407..=410) { &answers } else { &[] })
}

unsafe fn cycle_time(a: &[i64], list: &[i32]) -> Reply {
    let made = dollavir_cycle_time_new(a[0], a[1] as i32, list.as_ptr(), list.len());
    if made.code != 0 {
        let zeros = OnCycleTime { start: 0, length: 0, values: Numbers { count: 0, items: [0; LIST_LIMIT] } };
        assert!(made.cycle == zeros, "a refused cycle is not of zeros");
        return reply(made.code, &[]);
    }
    let (mut found, mut value) = (77, 77);
    let code = dollavir_cycle_time_calc(&made.cycle, a[2], &mut found, &mut value);
    reply(code, &[i64::from(found), i64::from(value)])
}

/// A setter of family 4 as a call on the whole track, whose time it takes; none where there is no such call.
pub fn of_whole_track(track: &mut Track, step: &Step) -> Option<i64> {
    let (a, list) = step.parts();
    let list: Vec<i32> = list.iter().map(|&x| x as i32).collect();
    unsafe { own_setter(track, step.op, a, &list) }.map(i64::from)
}

unsafe fn own_setter(track: &mut Track, op: i64, a: &[i64], list: &[i32]) -> Option<u32> {
    let (values, length, which) = (list.as_ptr(), list.len(), a.first().map_or(0, |&which| which as u32));
    let word = |at: usize| a[at] as i32;
    Some(match op {
        402 => dollavir_clear_param_reserve(track, which),
        404 => dollavir_set_param_on_time(track, which, values, length),
        405 => dollavir_set_param_on_cycle(track, which, values, length),
        406 => dollavir_set_param_on_note(track, which, values, length),
        411 => dollavir_set_param_random(track, which, word(1)),
        412 => dollavir_set_param_range(track, which, word(1), word(2)),
        413 => dollavir_clear_param_range(track, which),
        414 => dollavir_set_param_delay(track, which, word(1)),
        415 => dollavir_set_param_max(track, which, word(1)),
        416 => dollavir_clear_param_max(track, which),
        417 => dollavir_set_param_repeat(track, which, a[1] as u32),
        _ => return None,
    })
}

unsafe fn of_track(track: &mut Track, op: i64, a: &[i64], list: &[i32]) -> Reply {
    let (values, length, first, layer) = (list.as_ptr(), list.len(), a[0] as i32, a[0] as usize);
    let (mut value, mut wide) = (77, 77);
    let code = match op {
        501 => dollavir_calc_v_on_time(track, first, &mut value),
        502 => dollavir_calc_v_on_note(track, first, &mut value),
        503 => dollavir_calc_t_on_time(track, first, &mut value),
        504 => dollavir_calc_t_on_note(track, first, &mut value),
        505 => dollavir_calc_qlen_on_time(track, first, &mut value),
        506 => dollavir_calc_qlen_on_note(track, first, &mut value),
        507 => dollavir_calc_o_on_time(track, first, &mut value),
        508 => dollavir_calc_o_on_note(track, first, &mut value),
        509 => dollavir_calc_l_on_time(track, first, &mut value),
        510 => dollavir_calc_l_on_note(track, first, &mut value),
        511 => dollavir_set_v_sub(track, layer, a[1] as i32),
        512 => dollavir_set_v_sub_random(track, layer, a[1] as i32),
        513 => dollavir_set_v_sub_on_time(track, layer, values, length),
        514 => dollavir_set_v_sub_on_cycle(track, layer, values, length),
        515 => dollavir_set_v_sub_on_note(track, layer, values, length),
        516 => dollavir_apply_v_sub(track, first, &mut wide),
        _ => own_setter(track, OWN_SETTERS[(op - 517) as usize], a, list).expect("a setter"),
    };
    match op {
        501..=510 => reply(code, &[i64::from(value)]),
        516 => reply(code, &[wide]),
        _ => reply(code, &[]),
    }
}

/// A call of family 5 on layers as a call on the layers alone, handed what it takes of the track; none where there is no such call.
pub fn of_layers(layers: &mut Layers, track: &Track, step: &Step) -> Option<Reply> {
    let (a, list) = step.parts();
    let list: Vec<i32> = list.iter().map(|&x| x as i32).collect();
    let (values, length, layer) = (list.as_ptr(), list.len(), a.first().map_or(0, |&layer| layer as usize));
    let (time, delay, repeat) = (track.timepos, track.v.delay, track.v.repeat);
    let mut wide = 77;
    let code = unsafe {
        match step.op {
            511 => dollavir_layers_set_v_sub(layers, layer, a[1] as i32),
            512 => dollavir_layers_set_v_sub_random(layers, layer, a[1] as i32),
            513 => dollavir_layers_set_v_sub_on_time(layers, layer, time, delay, values, length),
            514 => dollavir_layers_set_v_sub_on_cycle(layers, layer, time, delay, values, length),
            515 => dollavir_layers_set_v_sub_on_note(layers, layer, repeat, values, length),
            516 => dollavir_layers_apply_v_sub(layers, time, a[0] as i32, &mut wide),
            _ => return None,
        }
    };
    Some(reply(code, if step.op == 516 { std::slice::from_ref(&wide) } else { &[] }))
}

unsafe fn written(desk: &mut Other, op: i64, a: &[i64], list: &[i32]) -> Reply {
    let (values, length, target) = (list.as_ptr(), list.len(), a[0] as i32);
    let word = |at: usize| a[at] as i32;
    match op {
        601 => {
            let mut option = WriteOption { delay: 77, random: 77, ranged: 77, low: 77, high: 77, repeat: 77 };
            let code = dollavir_get_write_opt(&desk.track, target, &mut option);
            let WriteOption { delay, random, ranged, low, high, repeat } = option;
            let [delay, random, low, high] = [delay, random, low, high].map(i64::from);
            reply(code, &[delay, random, i64::from(ranged), low, high, i64::from(repeat)])
        }
        602 => reply(dollavir_set_delay(&mut desk.track, target, word(1)), &[]),
        603 => reply(dollavir_set_random(&mut desk.track, target, word(1)), &[]),
        604 => reply(dollavir_set_range(&mut desk.track, target, word(1), word(2)), &[]),
        605 => reply(dollavir_clear_range(&mut desk.track, target), &[]),
        611 => reply(0, &[i64::from(dollavir_sine_type(target))]),
        607 => lent(desk, |it| dollavir_write_on_time(it.track, target, values, length, it.budget, it.events, it.long, it.count, it.store, it.bytes)),
        608 => lent(desk, |it| {
            let (shape, low, high, len, times) = (a[1] as u32, word(2), word(3), word(4), word(5));
            dollavir_write_sine(it.track, target, shape, low, high, len, times, it.budget, it.events, it.long, it.count, it.store, it.bytes)
        }),
        609 => {
            lent(desk, |it| dollavir_write_cc_on_time(it.track, target, values, length, it.budget, it.events, it.long, it.count, it.store, it.bytes))
        }
        _ => {
            lent(desk, |it| dollavir_write_pb_on_time(it.track, target, values, length, it.budget, it.events, it.long, it.count, it.store, it.bytes))
        }
    }
}

unsafe fn reserved(desk: &mut Other, op: i64, a: &[i64], list: &[i32]) -> Reply {
    match op {
        707 => return lent(desk, |it| dollavir_write_cc_on_note(it.track, a[0], it.budget, it.events, it.long, it.count)),
        708 => return lent(desk, |it| dollavir_write_cc_on_note_wave(it.track, a[0], it.budget, it.events, it.long, it.count, it.store, it.bytes)),
        709 => {
            let places = a[1] as usize;
            return lent(desk, |it| {
                dollavir_write_cc_on_cycle(it.track, it.cycles.as_mut_ptr(), places, a[0], it.budget, it.events, it.long, it.count)
            });
        }
        _ => (),
    }
    let call = table::find(op).expect("a call of the table");
    let places = call.args.iter().position(|arg| *arg == Arg::Places).map_or(0, |at| a[at] as usize);
    let (track, cycles) = (&mut desk.track, desk.cycles.as_mut_ptr());
    let (values, length, target) = (list.as_ptr(), list.len(), a.first().map_or(0, |&target| target as i32));
    let word = |at: usize| a[at] as i32;
    let code = match op {
        701 => dollavir_remove_reserve(track, cycles, places, target),
        702 => dollavir_set_repeat(track, target, a[1] as u32),
        703 => dollavir_set_on_note(track, cycles, places, target, values, length),
        704 => dollavir_set_on_note_wave(track, cycles, places, target, a[1] as u32, values, length),
        705 => {
            let sine = OnNoteSine { target, shape: a[1] as u32, low: word(2), high: word(3), length: word(4), times: word(5) };
            let made = dollavir_on_note_sine_new(target, sine.shape, sine.low, sine.high, sine.length, sine.times);
            let zeros = OnNoteSine { target: 0, shape: 0, low: 0, high: 0, length: 0, times: 0 };
            assert!(made.sine == if made.code == 0 { sine } else { zeros }, "a new sine is not what was handed in, or refused not of zeros");
            assert!((made.code == 2) == !(0..=129).contains(&target), "a new sine's target is refused wrongly");
            dollavir_set_on_note_sine(track, cycles, places, target, sine)
        }
        706 => dollavir_set_on_cycle(track, cycles, places, target, word(1), values, length),
        710 => dollavir_remove_cc_on(track, cycles, places, target),
        711 => dollavir_remove_cc_on_note_wave(track, target),
        712 => dollavir_set_cc_on_note_wave(track, cycles, places, target, values, length),
        713 => dollavir_remove_cc_on_note(track, target),
        714 => dollavir_set_cc_on_note(track, cycles, places, target, values, length),
        715 => dollavir_set_pb_on_note_wave(track, cycles, places, target, values, length),
        _ => dollavir_remove_pb_on_note_wave(track, cycles, places),
    };
    reply(code, &[])
}

unsafe fn numbered(desk: &mut Other, op: i64, a: &[i64]) -> Reply {
    let (track, word) = (&mut desk.track, a[0] as i32);
    let code = match op {
        801 => {
            let made = dollavir_track_new(word, a[1] as i32);
            if made.code == 0 {
                *track = made.track;
            }
            made.code
        }
        802 => dollavir_set_timepos(track, a[0]),
        803 => dollavir_set_channel(track, word),
        804 => dollavir_set_cc_on_time_freq(track, word),
        _ => dollavir_set_pb_on_time_freq(track, word),
    };
    reply(code, &[])
}
