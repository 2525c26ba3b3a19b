// The full cut, which the original does not have, from its sentences: document 01's, as `play_from`, but bends at or after the cut are kept, and the folded events
// stand first: controllers rising, program, then a bend, the event itself at time 0; and document 02's, request a), of what counts: the latest time before the cut,
// and among equal times the later in the list.

use crate::original::*;

pub fn full_cut(events: &[Event], cut: isize) -> Vec<Event> {
    // `max_by_key` answers the last of those that are equally late.
    cut_by(events, cut, &|before, wanted| before.iter().copied().filter(|event| wanted(event)).max_by_key(|event| event.time))
}

/// The rule before request a), the last in list order, beside which scripts are judged: a script in which both say the same would show nothing.
pub fn former_cut(events: &[Event], cut: isize) -> Vec<Event> {
    cut_by(events, cut, &|before, wanted| before.iter().copied().rfind(|event| wanted(event)))
}

/// Of the events before a cut, the one that counts among those that are wanted.
type Choice<'a> = &'a dyn for<'b> Fn(&[&'b Event], &dyn Fn(&Event) -> bool) -> Option<&'b Event>;

fn cut_by(events: &[Event], cut: isize, choice: Choice) -> Vec<Event> {
    let before: Vec<&Event> = events.iter().filter(|event| event.time < cut).collect();
    let counts = |wanted: &dyn Fn(&Event) -> bool| choice(&before, wanted);
    let is = |kind: EventType| move |event: &Event| event.etype == kind;

    let channel = counts(&|event| matches!(event.etype, EventType::ControllChange | EventType::Voice)).map_or(0, |event| event.channel);
    let controllers = (0..128).filter_map(|number| {
        let event = counts(&|event| event.etype == EventType::ControllChange && event.v1 == number)?;
        (event.v2 >= 0).then(|| Event::cc(0, channel, number, event.v2))
    });
    let program = counts(&is(EventType::Voice)).filter(|event| event.v1 >= 0).map(|event| Event::voice(0, channel, event.v1));
    let bend = counts(&is(EventType::PitchBend)).map(|event| Event { time: 0, ..event.clone() });

    let kept = events.iter().filter_map(|event| {
        let moved = Event { time: event.time - cut, ..event.clone() };
        match event.etype {
            EventType::Meta | EventType::SysEx => Some(Event { time: moved.time.max(0), ..moved }),
            EventType::NoteOn | EventType::Voice | EventType::ControllChange | EventType::PitchBend => (moved.time >= 0).then_some(moved),
            EventType::NoteOff | EventType::PitchBendRange | EventType::DirectSMF => None,
        }
    });
    controllers.chain(program).chain(bend).chain(kept).collect()
}
