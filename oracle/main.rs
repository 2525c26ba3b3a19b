// The original, asked by scripts of calls: the other half of every comparison. docs/COMPARING.md says what a script is and how each command is run.
//
//     oracle run < script           a line, or lines, after each call
//     oracle make SEED COUNT FAMILIES > script
//     oracle limits SEED FAMILIES > script        every call of the families at its limits
//     oracle edges SEED > script    cycle calls at the edge of what one may write; `oracle edges SEED names` prints each case's first call and its name
//     oracle merged SEED COUNT > script           full cuts of lists that are not sorted; `oracle merged SEED COUNT figures` prints what they are like
//     oracle chunks SEED COUNT > script           track chunks at the edges of what one holds; `oracle chunks SEED COUNT figures` prints what they are like
//     oracle reads SEED COUNT > script            track chunks that are read, good and damaged; `oracle reads SEED COUNT figures` prints what they are like
//     oracle profile SEED COUNT > script          lists of each kind checked and fitted for the rehearsal player; `oracle profile SEED COUNT figures` prints what they are like
//     oracle text < script          one call a line; `oracle binary < text` goes back
//     oracle cases                  document 01's cases that need only the original
//     oracle sines SEED COUNT       document 01's sine values beside the original's
//     oracle tape < tape            what document 01's tape program prints of a tape
//     oracle tapes SEED COUNT > stream            tapes to compare with; `oracle tapes lists` only those with lists at their limits
//     oracle plays < stream         what it prints of each of a stream's tapes, and of an end inside one; `oracle each PROGRAM.. < stream` runs another program on each,
//                                   `oracle pick N < stream` writes one of them, counted from 0,
//                                   `oracle thin N < stream` every N-th of them that is short

#[path = "../target/oracle/original.rs"]
mod original;

mod calls;
mod cases;
mod chunks;
mod cut;
mod desk;
mod dice;
mod edges;
mod limits;
mod make;
mod merged;
mod poke;
mod private;
mod profile;
mod quarter;
mod reads;
mod rules;
mod script;
mod show;
mod sine;
mod smf;
mod spoil;
mod stand_ins;
mod table;
mod tape;
mod tapes;

use std::io::{stdin, stdout, BufWriter, Read, Result, Write};

fn main() -> Result<()> {
    let words: Vec<String> = std::env::args().skip(1).collect();
    let words: Vec<&str> = words.iter().map(String::as_str).collect();
    let mut out = BufWriter::new(stdout().lock());
    match words[..] {
        ["run"] => run(&mut out)?,
        ["make", seed, count, families] => {
            let steps = make::script(number(seed), number(count) as usize, &make::families(families));
            script::write(&steps, &mut out)?;
        }
        ["limits", seed, families] => script::write(&limits::script(number(seed), &make::families(families)), &mut out)?,
        ["edges", seed] => script::write(&edges::script(number(seed)), &mut out)?,
        ["edges", seed, "names"] => {
            for (first, name) in edges::names(number(seed)) {
                writeln!(out, "{first} {name}")?;
            }
        }
        ["merged", seed, count] => script::write(&merged::script(number(seed), number(count) as usize), &mut out)?,
        ["merged", seed, count, "figures"] => merged::print(number(seed), number(count) as usize, &mut out)?,
        ["chunks", seed, count] => script::write(&chunks::script(number(seed), number(count) as usize), &mut out)?,
        ["chunks", seed, count, "figures"] => chunks::print(number(seed), number(count) as usize, &mut out)?,
        ["reads", seed, count] => script::write(&reads::script(number(seed), number(count) as usize), &mut out)?,
        ["reads", seed, count, "figures"] => reads::print(number(seed), number(count) as usize, &mut out)?,
        ["profile", seed, count] => script::write(&profile::script(number(seed), number(count) as usize), &mut out)?,
        ["profile", seed, count, "figures"] => profile::print(number(seed), number(count) as usize, &mut out)?,
        ["text"] => {
            for step in script::read(&mut stdin())? {
                writeln!(out, "{}", step.text())?;
            }
        }
        ["binary"] => {
            let mut text = String::new();
            stdin().read_to_string(&mut text)?;
            script::write(&script::from_text(&text), &mut out)?;
        }
        ["cases"] => {
            let all = cases::print(&mut out)?;
            out.flush()?;
            std::process::exit(i32::from(!all));
        }
        ["sines", seed, count] => {
            let near = cases::sines(number(seed), number(count), &mut out)?;
            out.flush()?;
            std::process::exit(i32::from(!near));
        }
        ["tape"] => {
            let mut bytes = vec![];
            stdin().read_to_end(&mut bytes)?;
            write!(out, "{}", tape::play(&bytes, &sine::Quarter::new()))?;
        }
        ["tapes", "lists"] => tapes::write(&tapes::lists(), &mut out)?,
        ["tapes", seed, count] => tapes::write(&tapes::tapes(number(seed), number(count) as usize), &mut out)?,
        ["plays"] => {
            let quarter = sine::Quarter::new();
            let (tapes, end) = tapes::read(&mut stdin())?;
            for bytes in tapes {
                write!(out, "{}", tape::play(&bytes, &quarter))?;
            }
            write!(out, "{end}")?;
        }
        ["thin", step] => {
            let (tapes, _) = tapes::read(&mut stdin())?;
            let short: Vec<Vec<u8>> = tapes.into_iter().step_by(number(step) as usize).filter(|tape| tape.len() <= 512).collect();
            tapes::write(&short, &mut out)?;
        }
        ["pick", at] => out.write_all(&tapes::read(&mut stdin())?.0[number(at) as usize])?,
        ["each", ref program @ ..] if !program.is_empty() => {
            for printed in tapes::each(program, &tapes::read(&mut stdin())?.0) {
                out.write_all(&printed)?;
            }
        }
        _ => {
            eprintln!("oracle run | make SEED COUNT FAMILIES | limits SEED FAMILIES | edges SEED [names] | merged SEED COUNT [figures] | chunks SEED COUNT [figures] | reads SEED COUNT [figures] | profile SEED COUNT [figures] | text | binary | cases | sines SEED COUNT | tape | tapes SEED COUNT | tapes lists | plays | each PROGRAM.. | pick N | thin N");
            std::process::exit(2);
        }
    }
    out.flush()
}

fn number(word: &str) -> u64 {
    word.parse().unwrap_or_else(|_| panic!("no number: {word}"))
}

/// Makes every call of the script on standard input. A call on which the original panics is named before the program ends.
fn run(out: &mut impl Write) -> Result<()> {
    let quarter = sine::Quarter::new();
    let mut desk = desk::Desk::first();
    for (at, step) in script::read(&mut stdin())?.iter().enumerate() {
        let made = std::panic::catch_unwind(std::panic::AssertUnwindSafe(|| calls::make(&mut desk, &quarter, step)));
        let Ok(reply) = made else {
            out.flush()?;
            eprintln!("oracle: panic at call {at}: {}", step.text());
            std::process::exit(101);
        };
        writeln!(out, "{}", show::line(&desk, step, &reply))?;
    }
    Ok(())
}
