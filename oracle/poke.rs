// Family 9: the desk itself, and numbers put where no call would put them, so that a script can hand in what document 01 refuses.

use crate::calls::Reply;
use crate::desk::*;
use crate::original::*;
use std::mem::replace;

pub fn make(desk: &mut Desk, op: i64, a: &[i64]) -> Reply {
    match op {
        901 => desk.full = a[0] != 0,
        902 => *desk = Desk { full: desk.full, ..Desk::new(a[0], a[1], a[2]) },
        903 => desk.budget = Budget { seed: a[0], maximum: a[1], used: a[2], flag: a[3] },
        904 if desk.list.len() < desk.room => desk.list.push(a.try_into().unwrap()),
        905 => desk.lent = (a[0], a[1]),
        906 => desk.list[a[0] as usize][a[1] as usize] = a[2],
        907 => {
            number(desk, a[0], a[1]);
        }
        908..=914 => {
            entry(desk, op, a[0], a[1] as usize, a[2]);
        }
        _ => (),
    }
    Reply::default()
}

/// Puts number `k` of section T; answers what stood there.
pub fn number(desk: &mut Desk, k: i64, value: i64) -> i64 {
    let track = &mut desk.track;
    let place = match k {
        0 => return replace(&mut desk.timebase, value),
        1 => &mut track.timepos,
        2 => &mut track.channel,
        3 => &mut track.cc_on_time_freq,
        4 => &mut track.pb_on_time_freq,
        5 => &mut track.velocity,
        6 => &mut track.timing,
        7 => &mut track.octave,
        8 => &mut track.qlen,
        _ => return i64::from(replace(&mut track.qlen_is_step, value != 0)),
    };
    replace(place, value as isize) as i64
}

/// Puts number `k` of an entry of a table (calls 908 to 914); answers what stood there.
pub fn entry(desk: &mut Desk, op: i64, at: i64, k: usize, value: i64) -> i64 {
    let (track, place) = (&mut desk.track, at as usize);
    let number = match (op, k) {
        (908, _) => param(desk.param(at), k),
        (909, 0) => &mut track.v_sub[place],
        (909, _) => &mut track.v_sub_rand[place],
        (910, _) => return option(desk, at, k, value),
        (911, 0) => return target(&mut track.cc_on_note[place].target, value),
        (911, 1) => &mut track.cc_on_note[place].index,
        (911, _) => &mut track.cc_on_note[place].data[k - 2],
        (912, 0) => return target(&mut track.cc_on_note_wave[place].target, value),
        (912, _) => &mut track.cc_on_note_wave[place].data[k - 1],
        (913, 0) => return target(&mut track.cc_on_note_sine[place].target, value),
        (913, 1) => &mut track.cc_on_note_sine[place].low,
        (913, 2) => &mut track.cc_on_note_sine[place].high,
        (913, 3) => &mut track.cc_on_note_sine[place].len,
        (913, _) => &mut track.cc_on_note_sine[place].times,
        (_, 0) => return target(&mut track.cc_on_cycle[place].target, value),
        (_, 1) => &mut track.cc_on_cycle[place].len,
        (_, 2) => &mut track.cc_on_cycle[place].next_time,
        (_, 3) => return replace(&mut track.cc_on_cycle[place].index, value as usize) as i64,
        _ => &mut track.cc_on_cycle[place].data[k - 4],
    };
    replace(number, value as isize) as i64
}

fn target(target: &mut WriteTarget, code: i64) -> i64 {
    code_of(replace(target, target_of(code)))
}

fn option(desk: &mut Desk, key: i64, k: usize, value: i64) -> i64 {
    let mut before = 0;
    desk.change_option(if key == BENDS { 129 } else { key }, |option| {
        let number = match (k, &mut option.range) {
            (0, _) => &mut option.delay,
            (1, _) => &mut option.random,
            (2, Some(range)) => &mut range.0,
            (3, Some(range)) => &mut range.1,
            (4, _) => {
                before = i64::from(replace(&mut option.repeat, value != 0));
                return;
            }
            _ => panic!("the range of an option that has none"),
        };
        before = replace(number, value as isize) as i64;
    });
    before
}

fn param(param: &mut NoteParam, k: usize) -> &mut isize {
    match (k, &mut param.on_cycle, &mut param.range) {
        (0, Some(cycle), _) => &mut cycle.start_time,
        (0, None, _) => &mut param.on_time_start,
        (1, Some(cycle), _) => &mut cycle.len,
        (2, ..) => &mut param.on_note_index,
        (3, ..) => &mut param.random,
        (4, _, Some(range)) => &mut range.0,
        (5, _, Some(range)) => &mut range.1,
        (6, ..) => &mut param.delay,
        (7, ..) => &mut param.max,
        (_, cycle, _) if k >= 8 => {
            let values = cycle.as_mut().map(|cycle| &mut cycle.values);
            let values = values.or(param.on_time.as_mut()).or(param.on_note.as_mut());
            &mut values.expect("a parameter with a list")[k - 8]
        }
        _ => panic!("number {k} of a parameter that has none"),
    }
}
