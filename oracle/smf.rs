// A track chunk of a Standard MIDI File (document 02, requests b) and e)), of which the original's sources at hand have no writer and no reader: from the published format, Standard MIDI Files 1.0. What is written of a kind is a table, a quantity is parted
// into its groups of seven bits, and the body is made whole before anything is asked of the output. What is read is taken off the front of the bytes that are left, once, into a list of its own, and room and times are asked of that list.
// Refusals 1, and 4 of a list that is written, are asked before (rules.rs).

use crate::desk::Record;
use crate::rules::is_event_time;

/// The longest gap: a quantity has at most four bytes.
pub const LONGEST: i64 = (1 << 28) - 1;

/// What a kind has in a file: the status without its channel, the fields that follow and how many bytes of seven bits each has, the low one first, and what stands last as it is.
struct Form {
    kind: i64,
    status: u8,
    fields: &'static [(usize, u32)],
    last: &'static [u8],
}

const V1: usize = 3;
const V2: usize = 4;
const V3: usize = 5;

const FORMS: [Form; 5] = [
    Form { kind: 0, status: 0x90, fields: &[(V1, 1), (V3, 1)], last: &[] },
    Form { kind: 1, status: 0x80, fields: &[(V1, 1)], last: &[0] },
    Form { kind: 2, status: 0xb0, fields: &[(V1, 1), (V2, 1)], last: &[] },
    Form { kind: 3, status: 0xe0, fields: &[(V1, 2)], last: &[] },
    Form { kind: 5, status: 0xc0, fields: &[(V1, 1)], last: &[] },
];

const END_OF_TRACK: [u8; 4] = [0, 0xff, 0x2f, 0];

fn form(kind: i64) -> Option<&'static Form> {
    FORMS.iter().find(|form| form.kind == kind)
}

/// The fields of a kind that a file has, each with how many bytes of seven bits it has there; none of a kind that is not written.
pub fn fields(kind: i64) -> &'static [(usize, u32)] {
    form(kind).map_or(&[], |form| form.fields)
}

/// The gaps of a list, the first from time 0.
pub fn gaps(list: &[Record]) -> Vec<i64> {
    let before = std::iter::once(0).chain(list.iter().map(|event| event[1]));
    list.iter().zip(before).map(|(event, before)| event[1] - before).collect()
}

/// A number in groups of seven bits, the high one first and none more than it needs; all but the last have the top bit set.
pub fn quantity(number: i64) -> Vec<u8> {
    let (mut groups, mut rest) = (vec![], number);
    loop {
        groups.push((rest % 128) as u8);
        rest /= 128;
        if rest == 0 {
            break;
        }
    }
    for group in &mut groups[1..] {
        *group |= 0x80;
    }
    groups.reverse();
    groups
}

/// An event without its gap; none where its kind is not written or a field is outside its width.
pub fn message(event: &Record) -> Option<Vec<u8>> {
    let form = form(event[0])?;
    let mut bytes = vec![form.status + event[2] as u8];
    for &(field, groups) in form.fields {
        let value = event[field];
        if !(0..1 << (7 * groups)).contains(&value) {
            return None;
        }
        bytes.extend((0..groups).map(|group| (value >> (7 * group)) as u8 % 128));
    }
    bytes.extend(form.last);
    Some(bytes)
}

/// The chunk of a list of sound records, or the number that refuses it.
pub fn chunk(list: &[Record]) -> Result<Vec<u8>, i64> {
    let gaps = gaps(list);
    if gaps.iter().any(|gap| !(0..=LONGEST).contains(gap)) {
        return Err(10);
    }
    let messages: Vec<Vec<u8>> = list.iter().map(message).collect::<Option<_>>().ok_or(11)?;
    let mut body: Vec<u8> = gaps.into_iter().zip(messages).flat_map(|(gap, message)| [quantity(gap), message].concat()).collect();
    body.extend(END_OF_TRACK);
    let length = u32::try_from(body.len()).map_err(|_| 12)?;
    Ok([b"MTrk", &length.to_be_bytes()[..], &body].concat())
}

/// The call: the chunk at the beginning of the output, and its length. Refused, or past the chunk, the output stays as it is.
pub fn write_chunk(list: &[Record], output: &mut [u8]) -> Result<usize, i64> {
    let chunk = chunk(list)?;
    output.get_mut(..chunk.len()).ok_or(12)?.copy_from_slice(&chunk);
    Ok(chunk.len())
}

/// An output of so many bytes as a call finds it: no byte is that of its neighbour, so that one which is written, or is not, shows.
pub fn output(length: i64) -> Vec<u8> {
    (0..length).map(|at| ((at * 5 + 1) % 256) as u8).collect()
}

/// Numbers that refuse a chunk: no track chunk, an event that is cut short or faulty, and no end of track at the end.
const NO_CHUNK: i64 = 13;
const FAULTY: i64 = 14;
const UNENDED: i64 = 15;

/// What is left of a body. Whatever is asked for has to be there.
struct Rest<'a>(&'a [u8]);

impl Rest<'_> {
    fn byte(&mut self) -> Result<u8, i64> {
        let (&byte, rest) = self.0.split_first().ok_or(FAULTY)?;
        self.0 = rest;
        Ok(byte)
    }

    /// A byte without its top bit: of a message, or a Meta event's type.
    fn data(&mut self) -> Result<u8, i64> {
        self.byte().and_then(|byte| if byte < 0x80 { Ok(byte) } else { Err(FAULTY) })
    }

    /// Groups of seven bits, up to the first whose top bit is clear, at most four. One that has leading groups of 0 is one too.
    fn quantity(&mut self) -> Result<i64, i64> {
        let mut number = 0;
        for _ in 0..4 {
            let group = self.byte()?;
            number = number << 7 | i64::from(group & 0x7f);
            if group < 0x80 {
                return Ok(number);
            }
        }
        Err(FAULTY)
    }

    /// As many bytes as the quantity in front of them says, whatever they are.
    fn step_over(&mut self) -> Result<(), i64> {
        let length = self.quantity()? as usize;
        self.0 = self.0.get(length..).ok_or(FAULTY)?;
        Ok(())
    }

    /// The status of the event in front: its own, or the running one where a data byte stands in its place.
    fn status(&mut self, running: Option<u8>) -> Result<u8, i64> {
        match self.0.first() {
            Some(0..=0x7f) => running.ok_or(FAULTY),
            _ => self.byte(),
        }
    }
}

/// The body of a track chunk that is as long as it says.
fn body(chunk: &[u8]) -> Option<&[u8]> {
    let (length, body) = chunk.strip_prefix(b"MTrk")?.split_first_chunk()?;
    (u32::from_be_bytes(*length) as usize == body.len()).then_some(body)
}

/// A channel's message as an event; none of aftertouch (An, Dn). A note that begins without velocity ends.
fn event(time: i64, status: u8, a: u8, b: u8) -> Option<Record> {
    let (a, b) = (i64::from(a), i64::from(b));
    let [kind, v1, v2, v3] = match status & 0xf0 {
        0x80 => [1, a, 0, 0],
        0x90 if b == 0 => [1, a, 0, 0],
        0x90 => [0, a, 0, b],
        0xb0 => [2, a, b, 0],
        0xc0 => [5, a, 0, 0],
        0xe0 => [3, a + b * 128, 0, 0],
        _ => return None,
    };
    Some([kind, time, i64::from(status & 0x0f), v1, v2, v3, 0, 0])
}

/// The events of a chunk that are kept, or the number of its first fault.
pub fn events(chunk: &[u8]) -> Result<Vec<Record>, i64> {
    let mut rest = Rest(body(chunk).ok_or(NO_CHUNK)?);
    let (mut events, mut time, mut running) = (vec![], 0, None);
    while !rest.0.is_empty() {
        time += rest.quantity()?;
        let status = rest.status(running)?;
        running = None;
        match status {
            0xff if rest.data()? == 0x2f => {
                let length = rest.quantity()?;
                return match rest.0 {
                    _ if length != 0 => Err(FAULTY),
                    [] => Ok(events),
                    _ => Err(UNENDED),
                };
            }
            0xff | 0xf0 | 0xf7 => rest.step_over()?,
            0xf1.. => return Err(FAULTY),
            _ => {
                let first = rest.data()?;
                let second = if matches!(status & 0xf0, 0xc0 | 0xd0) { 0 } else { rest.data()? };
                events.extend(event(time, status, first, second));
                running = Some(status);
            }
        }
    }
    Err(UNENDED)
}

/// The call: what the list holds after it, where it has room for so many events.
pub fn read_chunk(chunk: &[u8], room: usize) -> Result<Vec<Record>, i64> {
    let events = events(chunk)?;
    if events.len() > room {
        return Err(7);
    }
    if events.iter().all(|event| is_event_time(event[1])) {
        Ok(events)
    } else {
        Err(4)
    }
}
