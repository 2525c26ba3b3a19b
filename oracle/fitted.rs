// Lists that the linked library checks and fits for the rehearsal player, beside the oracle's own rule (profile.rs): so many of each kind. What is lent of a list, what stands behind its count, old events among it, and what is not lent are held against the rule,
// number by number. Of the library alone it is asked besides: what it fitted passes its check, fitting that again changes nothing, nor does fitting what passes, and a refused call leaves every number. Where something differs, events are dropped from the list for as long as something still does, and what is left is printed.

use crate::desk::{byte, Record, STORE};
use crate::dice::Dice;
use crate::dollavir;
use crate::fuzz::Left;
use crate::other::WIDTH;
use crate::profile::{self, Figures, Kind, KINDS};
use crate::rules::record_ok;

/// The most events of a list that are shown.
const SHOWN: usize = 12;
/// The numbers behind a list that are not lent.
const BEHIND: usize = 16;

/// The numbers of a list, how many of them are lent, and the count that is handed in.
#[derive(Clone)]
struct Case {
    numbers: Vec<i64>,
    long: usize,
    count: usize,
}

impl Case {
    /// A list of this kind with some room behind it, where events of its own stand again, or numbers that are no events.
    fn random(dice: &mut Dice, kind: &Kind) -> Case {
        let list = (kind.make)(dice);
        let (own, room) = (list.len(), list.len() + dice.of(&[0, 0, 1, 2, 5]));
        let mut numbers = list.concat();
        let again = dice.one_in(2) && own > 0;
        while numbers.len() < room * WIDTH + BEHIND {
            match list.get(own.wrapping_sub(1 + dice.pick(0, 2) as usize)) {
                Some(event) if again => numbers.extend(event),
                _ => numbers.extend((0..WIDTH as i64).map(|at| (at + 1) * 7_919 * dice.of(&[-1, 1]))),
            }
        }
        let (wrong, odd) = (dice.of(&[room + 1, room + 2, 1 << 61, usize::MAX]), dice.pick(1, 7) as usize);
        match dice.pick(0, 1) {
            _ if !kind.lent_wrongly => Case { numbers, long: room * WIDTH, count: own },
            0 => Case { numbers, long: room * WIDTH, count: wrong },
            _ => Case { numbers, long: room * WIDTH + odd, count: own },
        }
    }

    /// The events that the count says, or the number that refuses them: 1, then 4.
    fn events(&self) -> Result<Vec<Record>, i64> {
        if self.long % WIDTH != 0 || self.count > self.long / WIDTH {
            return Err(1);
        }
        let events: Vec<Record> = self.numbers.chunks_exact(WIDTH).take(self.count).map(|event| event.try_into().unwrap()).collect();
        if events.iter().all(record_ok) {
            Ok(events)
        } else {
            Err(4)
        }
    }

    fn ruled_check(&self) -> (i64, u32) {
        self.events().map_or_else(|code| (code, 0), |events| (0, u32::from(profile::passes(&events))))
    }

    /// The rule: refused, everything is as it was; done, what was fitted is in front, and places that fell vacant are 0.
    fn ruled_fit(&self) -> Left {
        let mut numbers = self.numbers.clone();
        match self.events().and_then(|events| profile::fit(&events)) {
            Err(code) => Left { code, count: self.count, numbers },
            Ok(events) => {
                let own = events.len() * WIDTH;
                numbers[..own].copy_from_slice(&events.concat());
                numbers[own..self.count * WIDTH].fill(0);
                Left { code: 0, count: events.len(), numbers }
            }
        }
    }

    /// What the library says of it.
    fn check(&self, store: &[u8; STORE]) -> (i64, u32) {
        let mut yes = 77;
        let code = unsafe { dollavir::dollavir_check_profile(self.numbers.as_ptr(), self.long, self.count, store.as_ptr(), STORE, &mut yes) };
        (i64::from(code), yes)
    }

    /// What the library makes of it.
    fn fit(&self, store: &[u8; STORE]) -> Left {
        let (mut numbers, mut count) = (self.numbers.clone(), self.count);
        let code = unsafe { dollavir::dollavir_fit_profile(numbers.as_mut_ptr(), self.long, &mut count, store.as_ptr(), STORE) };
        Left { code: i64::from(code), count, numbers }
    }

    /// What is not as it should be, if anything is.
    fn differs(&self, store: &[u8; STORE]) -> Option<&'static str> {
        let (check, left) = (self.check(store), self.fit(store));
        let same = left.count == self.count && left.numbers == self.numbers;
        if check != self.ruled_check() {
            return Some("the check");
        }
        if left != self.ruled_fit() {
            return Some("the fitting");
        }
        if left.code != 0 {
            return (!same).then_some("the list, which was refused and had to be as it was,");
        }
        if check == (0, 1) && !same {
            return Some("the list, which passes and had to be as it was,");
        }
        let again = Case { count: left.count, numbers: left.numbers.clone(), ..*self };
        if again.check(store) != (0, 1) {
            return Some("the check of what was fitted");
        }
        (again.fit(store) != left).then_some("the second fitting")
    }

    /// The same with as many events left out as can be.
    fn least(&self, store: &[u8; STORE]) -> Case {
        let (mut least, mut at) = (self.clone(), 0);
        while at < least.count.min(least.long / WIDTH) {
            let mut less = least.clone();
            less.numbers.drain(at * WIDTH..(at + 1) * WIDTH);
            (less.long, less.count) = (less.long - WIDTH, less.count - 1);
            if less.differs(store).is_some() {
                (least, at) = (less, 0);
            } else {
                at += 1;
            }
        }
        least
    }

    /// The list, what both sides answer and leave, and the first number that they leave other than each other.
    fn print(&self, store: &[u8; STORE]) {
        println!("list:     {} numbers, count {}: {:?}", self.long, self.count, shown(&self.numbers, self.count));
        for (name, check, left) in [("original", self.ruled_check(), self.ruled_fit()), ("port", self.check(store), self.fit(store))] {
            let (name, events) = (format!("{name}:"), shown(&left.numbers, left.count));
            println!("{name:<9} check {} and {}; fit {} and {}, {events:?}", check.0, check.1, left.code, left.count);
        }
        let (ruled, left) = (self.ruled_fit().numbers, self.fit(store).numbers);
        if let Some(at) = (0..ruled.len()).find(|&at| ruled[at] != left[at]) {
            println!("number {at} of the list: {} and {}", ruled[at], left[at]);
        }
    }
}

/// The first events of a list.
fn shown(numbers: &[i64], count: usize) -> Vec<&[i64]> {
    numbers.chunks(WIDTH).take(count.min(SHOWN)).collect()
}

/// Checks and fits so many lists of each kind on both sides; answers whether all was the same.
pub fn run(seed: u64, count: usize) -> bool {
    let (mut dice, store, mut figures) = (Dice::new(seed), std::array::from_fn(byte), Figures::default());
    for at in 0..count {
        for kind in KINDS {
            let case = Case::random(&mut dice, kind);
            if let Some(what) = case.differs(&store) {
                println!("seed {seed}: list {at} of the kind {}: {what} differs; the least of it that does:", kind.name);
                case.least(&store).print(&store);
                return false;
            }
            let (code, yes) = case.ruled_check();
            figures.count(kind.name, (code, yes == 1), case.ruled_fit().code);
        }
    }
    println!("seed {seed}: {count} lists of each kind checked and fitted on both sides, no difference");
    println!("what was fitted passes, fitting it again changes nothing, nor does fitting what passes; a refused list is as it was");
    for line in figures.lines() {
        println!("{line}");
    }
    true
}
