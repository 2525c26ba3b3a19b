// Sines with document 01's values. Window, frequency, dropping and steps are those of the original's `write_sine`, whose own f32 values stand at most 1 away (`oracle sines`).

use crate::original::*;
use crate::private;
pub use crate::quarter::Quarter;

/// The original's `write_sine` with the values of the rule.
pub fn write_sine(quarter: &Quarter, track: &mut Track, ctx: &mut WriteCtx, sine: &OnNoteSine) {
    let OnNoteSine { target, stype, low, high, len, times } = *sine;
    if len <= 0 {
        return;
    }
    let total = len * times.max(1);
    let frequency = match target {
        WriteTarget::CC(_) => track.cc_on_time_freq.max(1),
        WriteTarget::PitchBend(_) if track.pb_on_time_freq > 0 => track.pb_on_time_freq,
        WriteTarget::PitchBend(_) => (ctx.timebase / 32).max(1),
    };
    let steps = total.min(private::step_budget(ctx.max_event_bytes, ctx.event_bytes) as isize);
    let drops = track.get_write_opt(target).random <= 0;
    private::clear_window(track, target, total);
    let mut last = None;
    for step in (0..steps).step_by(frequency as usize) {
        let value = quarter.value(stype, low, high, step % len, len);
        if drops && last == Some(value) {
            continue;
        }
        last = Some(value);
        if !private::push(track, target, track.timepos + step, value, ctx) {
            return;
        }
    }
    if steps < total {
        ctx.event_limit_exceeded = true;
    }
}
