// The calls of a script: number, name, what each is lent, and what each argument is. docs/COMPARING.md is the same table in words. Rules, text form and generator all
// read it, so an argument's range is written once.

/// What an argument is, and with it the range that document 01 gives it.
#[derive(Clone, Copy, PartialEq, Debug)]
pub enum Arg {
    /// A time, cut or `until`.
    Time,
    /// A stored start.
    Start,
    /// The time of an event.
    Stamp,
    Channel,
    Timebase,
    /// A code of a controller or bend; refused with 2.
    Target,
    /// A controller number; refused with 2.
    Controller,
    /// A delay, frequency, length or times: within 2^20.
    Short,
    /// A velocity, default, range end, maximum or value: within 2^22.
    Long,
    /// At most 2^20.
    Random,
    /// An end of a sine.
    Peak,
    /// A budget's maximum: 0 to 67,108,864.
    Bytes,
    /// A velocity layer; refused with 5.
    Layer,
    /// How many cycle records are lent; refused with 1.
    Places,
    /// How many bytes of output are lent: scripts hold only 0 to 81,920.
    Room,
    /// A stretch of the byte store starts here; its length follows.
    Offset,
    Length,
    /// Any number of 32 signed bits.
    Word,
    /// Any number of 64 bits; where a whole record is handed in, the record is tested.
    Raw,
    /// A small choice: scripts hold only numbers from 0 to this one.
    Choice(i64),
    /// A list of plain values.
    Values,
    /// A list of triples, the third of each a length.
    Curve,
    /// A list whose first number is a cycle's length.
    Cycle,
    /// The bytes of a track chunk, as a list: scripts hold at most 4,095, each 0 to 255.
    Chunk,
}

impl Arg {
    pub fn is_list(self) -> bool {
        matches!(self, Arg::Values | Arg::Curve | Arg::Cycle | Arg::Chunk)
    }
}

pub struct Call {
    pub op: i64,
    pub name: &'static str,
    /// E the list (read), A the list (appended to or replaced, what stands there not read), T the track, B the budget, C the cycle table, P the parameter named first.
    pub takes: &'static str,
    pub args: &'static [Arg],
}

impl Call {
    pub fn takes(&self, what: char) -> bool {
        self.takes.contains(what)
    }
}

use Arg::*;

const PARAM: Arg = Choice(4);
const ON: Arg = Choice(1);
const SINE_TYPE: Arg = Choice(2);
const WAVE_MODE: Arg = Choice(2);
const RECORD: &[Arg] = &[Raw, Raw, Raw, Raw, Raw, Raw, Raw, Raw];
const POKE: &[Arg] = &[Word, Word, Raw];

const fn call(op: i64, name: &'static str, takes: &'static str, args: &'static [Arg]) -> Call {
    Call { op, name, takes, args }
}

pub const CALLS: &[Call] = &[
    call(101, "note", "", &[Stamp, Channel, Word, Word, Word]),
    call(102, "voice", "", &[Stamp, Channel, Word]),
    call(103, "meta", "", &[Stamp, Word, Word, Word, Offset, Length]),
    call(104, "direct_smf", "", &[Stamp, Offset, Length]),
    call(105, "sysex_raw", "", &[Stamp, Offset, Length]),
    call(106, "cc", "", &[Stamp, Channel, Controller, Word]),
    call(107, "pitch_bend", "", &[Stamp, Channel, Word]),
    call(108, "pitch_bend_range", "", &[Stamp, Channel, Word]),
    call(109, "estimated_midi_bytes", "", RECORD),
    call(201, "value_range", "", &[Word, Word, Word]),
    call(202, "calc_rand_value", "", &[Raw, Long, Random]),
    call(203, "reserve_event", "", &[Choice(8), Length]),
    call(204, "safe_iteration_limit", "", &[]),
    call(205, "budget_new", "", &[Raw, Bytes]),
    call(301, "append", "A", RECORD),
    call(302, "read", "E", &[Word]),
    call(303, "remove_events_in_range", "E", &[Target, Time, Time]),
    call(304, "remove_pitch_bend_in_range", "E", &[Time, Time]),
    call(305, "current_cc_value", "ET", &[Controller]),
    call(306, "split_note_off", "E", &[]),
    call(307, "normalize", "E", &[]),
    call(308, "events_sort", "E", &[]),
    call(309, "play_from", "E", &[Time]),
    call(310, "full_cut", "E", &[Time]),
    call(311, "write_chunk", "E", &[Room]),
    call(312, "read_chunk", "A", &[Chunk]),
    call(313, "check_profile", "E", &[]),
    call(314, "fit_profile", "E", &[]),
    call(401, "param_new", "", &[PARAM]),
    call(402, "param_clear_reserve", "P", &[PARAM]),
    call(403, "param_has_reserve", "P", &[PARAM]),
    call(404, "param_set_on_time", "P", &[PARAM, Time, Curve]),
    call(405, "param_set_on_cycle", "P", &[PARAM, Time, Cycle]),
    call(406, "param_set_on_note", "P", &[PARAM, Values]),
    call(407, "param_calc_on_time", "P", &[PARAM, Time, Long]),
    call(408, "param_calc_on_note", "P", &[PARAM, Long]),
    call(409, "param_apply_limit", "P", &[PARAM, Long]),
    call(410, "param_max_or", "P", &[PARAM, Long]),
    call(411, "param_random", "P", &[PARAM, Random]),
    call(412, "param_range", "P", &[PARAM, Long, Long]),
    call(413, "param_no_range", "P", &[PARAM]),
    call(414, "param_delay", "P", &[PARAM, Short]),
    call(415, "param_maximum", "P", &[PARAM, Long]),
    call(416, "param_no_maximum", "P", &[PARAM]),
    call(417, "param_repeat", "P", &[PARAM, ON]),
    call(418, "cycle_calc", "", &[Start, Short, Time, Values]),
    call(501, "calc_v_on_time", "T", &[Long]),
    call(502, "calc_v_on_note", "T", &[Long]),
    call(503, "calc_t_on_time", "T", &[Long]),
    call(504, "calc_t_on_note", "T", &[Long]),
    call(505, "calc_qlen_on_time", "T", &[Long]),
    call(506, "calc_qlen_on_note", "T", &[Long]),
    call(507, "calc_o_on_time", "T", &[Long]),
    call(508, "calc_o_on_note", "T", &[Long]),
    call(509, "calc_l_on_time", "T", &[Long]),
    call(510, "calc_l_on_note", "T", &[Long]),
    call(511, "set_v_sub", "T", &[Layer, Long]),
    call(512, "set_v_sub_random", "T", &[Layer, Random]),
    call(513, "set_v_sub_on_time", "T", &[Layer, Curve]),
    call(514, "set_v_sub_on_cycle", "T", &[Layer, Cycle]),
    call(515, "set_v_sub_on_note", "T", &[Layer, Values]),
    call(516, "apply_v_sub", "T", &[Long]),
    call(517, "set_param_on_time", "T", &[PARAM, Curve]),
    call(518, "set_param_on_cycle", "T", &[PARAM, Cycle]),
    call(519, "set_param_on_note", "T", &[PARAM, Values]),
    call(520, "clear_param_reserve", "T", &[PARAM]),
    call(521, "set_param_random", "T", &[PARAM, Random]),
    call(522, "set_param_range", "T", &[PARAM, Long, Long]),
    call(523, "clear_param_range", "T", &[PARAM]),
    call(524, "set_param_delay", "T", &[PARAM, Short]),
    call(525, "set_param_max", "T", &[PARAM, Long]),
    call(526, "clear_param_max", "T", &[PARAM]),
    call(527, "set_param_repeat", "T", &[PARAM, ON]),
    call(601, "get_write_opt", "T", &[Target]),
    call(602, "option_delay", "T", &[Target, Short]),
    call(603, "option_random", "T", &[Target, Random]),
    call(604, "option_range", "T", &[Target, Long, Long]),
    call(605, "option_no_range", "T", &[Target]),
    call(606, "push_value_event", "ATB", &[Target, Time, Long]),
    call(607, "write_on_time", "ETB", &[Target, Curve]),
    call(608, "write_sine", "ETB", &[Target, SINE_TYPE, Peak, Peak, Short, Short]),
    call(609, "write_cc_on_time", "ETB", &[Controller, Curve]),
    call(610, "write_pb_on_time", "ETB", &[Word, Curve]),
    call(611, "sine_type_from_i", "", &[Word]),
    call(701, "remove_reserve", "TC", &[Target, Places]),
    call(702, "set_repeat", "T", &[Target, ON]),
    call(703, "set_on_note", "TC", &[Target, Places, Values]),
    call(704, "set_on_note_wave", "TC", &[Target, WAVE_MODE, Places, Curve]),
    call(705, "set_on_note_sine", "TC", &[Target, SINE_TYPE, Peak, Peak, Short, Short, Places]),
    call(706, "set_on_cycle", "TC", &[Target, Short, Places, Values]),
    call(707, "write_cc_on_note", "ATB", &[Time]),
    call(708, "write_cc_on_note_wave", "ETB", &[Time]),
    call(709, "write_cc_on_cycle", "ATBC", &[Time, Places]),
    call(710, "remove_cc_on", "TC", &[Controller, Places]),
    call(711, "remove_cc_on_note_wave", "T", &[Controller]),
    call(712, "set_cc_on_note_wave", "TC", &[Controller, Places, Curve]),
    call(713, "remove_cc_on_note", "T", &[Controller]),
    call(714, "set_cc_on_note", "TC", &[Controller, Places, Values]),
    call(715, "set_pb_on_note_wave", "TC", &[Word, Places, Curve]),
    call(716, "remove_pb_on_note_wave", "TC", &[Places]),
    call(801, "track_new", "", &[Timebase, Word]),
    call(802, "timepos", "T", &[Time]),
    call(803, "channel", "T", &[Channel]),
    call(804, "controller_frequency", "T", &[Short]),
    call(805, "bend_frequency", "T", &[Short]),
    call(901, "mode", "", &[ON]),
    call(902, "desk", "", &[Word, Word, Word]),
    call(903, "budget", "", &[Raw, Raw, Raw, Raw]),
    call(904, "event", "", RECORD),
    call(905, "lend", "", &[Word, Word]),
    call(906, "poke_record", "", POKE),
    call(907, "poke_track", "", &[Word, Raw]),
    call(908, "poke_param", "", POKE),
    call(909, "poke_layer", "", POKE),
    call(910, "poke_option", "", POKE),
    call(911, "poke_on_note", "", POKE),
    call(912, "poke_wave", "", POKE),
    call(913, "poke_sine", "", POKE),
    call(914, "poke_cycle", "", POKE),
    call(915, "show", "", &[]),
];

pub fn find(op: i64) -> Option<&'static Call> {
    CALLS.binary_search_by(|call| call.op.cmp(&op)).ok().map(|at| &CALLS[at])
}
