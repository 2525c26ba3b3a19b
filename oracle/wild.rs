// Numbers that a C caller can put into its records and that the Rust's types cannot hold: a count past its array, a kind or flag that is none, what a layer keeps in private.
// Document 01 says of all of them what the original cannot be asked: 4, and nothing changes.

use crate::dice::Dice;
use crate::dollavir::*;
use crate::other::Other;
use crate::rules::LIST_LIMIT;
use crate::table::Call;

const FLAGS: [u32; 3] = [2, 255, u32::MAX];
const COUNTS: [usize; 4] = [LIST_LIMIT + 1, LIST_LIMIT + 2, 1 << 32, usize::MAX];
const TABLE: [usize; 4] = [17, 18, 1 << 32, usize::MAX];

/// Puts one such number into what the call is lent; answers its name, or nothing where there was no place for it.
pub fn put(dice: &mut Dice, desk: &mut Other, call: &Call, args: &[i64]) -> Option<&'static str> {
    let (flag, table) = (dice.of(&FLAGS), dice.of(&TABLE));
    if call.takes('P') {
        let param = desk.param(args[0]);
        return put_param(dice, param);
    }
    if call.takes('C') && desk.track.cycles > 0 && dice.one_in(4) {
        let place = dice.pick(0, desk.track.cycles as i64 - 1) as usize;
        desk.cycles[place].values.count = dice.of(&[0, LIST_LIMIT + 1, usize::MAX]);
        return Some("a cycle's count");
    }
    if !call.takes('T') {
        return None;
    }
    let track = &mut desk.track;
    let key = dice.pick(0, 128) as usize;
    match dice.pick(0, 9) {
        0 => track.layers.count = dice.of(&[0, 17, usize::MAX]),
        1 => track.notes.count = table,
        2 => track.waves.count = table,
        3 => track.sines.count = table,
        4 => track.step = flag,
        5 if dice.one_in(2) => track.options[key].ranged = flag,
        5 => track.options[key].repeat = flag,
        6 => {
            let which = dice.pick(0, 4);
            return put_param(dice, desk.param(which));
        }
        7 => {
            let place = dice.pick(0, track.layers.count as i64 - 1) as usize;
            return put_reserve(dice, &mut track.layers.items[place].reserve);
        }
        8 if call.takes('C') => track.cycles = table,
        _ => return put_entry(dice, track),
    }
    Some("a number of the track")
}

fn put_param(dice: &mut Dice, param: &mut NoteParam) -> Option<&'static str> {
    let flag = dice.of(&FLAGS);
    match dice.pick(0, 3) {
        0 => param.ranged = flag,
        1 => param.maxed = flag,
        2 => param.repeat = flag,
        _ => return put_reserve(dice, &mut param.reserve),
    }
    Some("a parameter's flag")
}

fn put_reserve(dice: &mut Dice, it: &mut Reserve) -> Option<&'static str> {
    match dice.pick(0, 4) {
        0 => it.kind = dice.of(&[4, 5, u32::MAX]),
        _ if it.kind == 0 => return None,
        1 => it.values.count = dice.of(&COUNTS),
        2 if it.kind != 3 => it.start = dice.of(&[(1 << 41) + 1, -(1 << 41) - 1, i64::MIN, i64::MAX]),
        3 if it.kind == 2 => it.length = dice.of(&[(1 << 20) + 1, i32::MIN, i32::MAX]),
        3 if it.kind == 3 => it.index = dice.of(&[it.values.count + 1, usize::MAX]),
        4 if it.kind == 3 => it.cycling = dice.of(&FLAGS),
        _ => it.values.count = dice.of(&COUNTS),
    }
    Some("a reservation's number")
}

fn put_entry(dice: &mut Dice, track: &mut Track) -> Option<&'static str> {
    let (flag, count) = (dice.of(&FLAGS), dice.of(&COUNTS));
    let place = |dice: &mut Dice, count: usize| dice.pick(0, count as i64 - 1) as usize;
    match dice.pick(0, 4) {
        0 if track.notes.count > 0 => track.notes.items[place(dice, track.notes.count)].cycling = flag,
        1 if track.notes.count > 0 => track.notes.items[place(dice, track.notes.count)].values.count = count,
        2 if track.waves.count > 0 => track.waves.items[place(dice, track.waves.count)].mode = flag.max(3),
        3 if track.waves.count > 0 => track.waves.items[place(dice, track.waves.count)].values.count = count,
        4 if track.sines.count > 0 => track.sines.items[place(dice, track.sines.count)].shape = flag.max(3),
        _ => return None,
    }
    Some("an entry of a table")
}
