// What a note costs through hosts/rust by what becomes of it: prices ROUNDS [NAME]. A core of a house as `Config::default` opens it has four jobs that
// yield, so a turn makes three notes. Each round has 200,000 turns of each NAME, by turns:
//   keep    the notes are kept, in memory that was written to before
//   none    they are forgotten (`Journal::Forget`)
//   last    the text of the newest 1000 stays (`Journal::Last`)
//   binary  they are passed on in bytes
//   text    they are passed on as text
// Each line: the middle of nanoseconds a note, the turn that makes it counted; the middle of the rounds' ratios to `keep`; and the bytes of a note that was
// passed on. With one NAME it is measured alone, for valgrind.
use fairexec::linked::{Config, Core, Form, House, Journal, Opened, Outside, Step};
use fairexec::Error;
use std::cell::Cell;
use std::time::Instant;

const TURNS: u64 = 200_000;
const NAMES: [(&str, Journal, Form, bool); 5] = [
    ("keep", Journal::Keep, Form::Text, false),
    ("none", Journal::Forget, Form::Text, false),
    ("last", Journal::Last(1000), Form::Text, false),
    ("binary", Journal::Keep, Form::Bytes, true),
    ("text", Journal::Keep, Form::Text, true),
];

thread_local! {
    static BYTES: Cell<u64> = const { Cell::new(0) };
}

struct One {
    name: &'static str,
    core: Core<u64>,
    _outside: Outside<u64>,
    _house: House<u64>,
    nanoseconds: Vec<f64>,
    bytes: u64,
    notes: u64,
}

impl One {
    fn open((name, journal, form, is_passed): (&'static str, Journal, Form, bool)) -> Result<One, Error> {
        let (house, mut cores, mut outside): Opened<u64> = House::open(&Config { journal, form, ..Config::default() })?;
        let mut core = cores.remove(0);
        if is_passed {
            core.keep_notes_by(|part| BYTES.set(BYTES.get() + part.len() as u64));
        }
        for job in 0..4 {
            let _ticket = outside.submit(0, 0, job).map_err(|(error, _)| error)?;
            core.deliver()?;
        }
        Ok(One { name, core, _outside: outside, _house: house, nanoseconds: Vec::new(), bytes: 0, notes: 0 })
    }

    fn round(&mut self) -> Result<(), Error> {
        let kept = self.core.note_counts()?.kept;
        let began = Instant::now();
        for _ in 0..TURNS {
            self.core.run_turn(|job, _| {
                *job += 1;
                Step::Yield
            })?;
        }
        self.nanoseconds.push(began.elapsed().as_nanos() as f64 / (3 * TURNS) as f64);
        self.bytes += BYTES.replace(0);
        self.notes += 3 * TURNS + kept - self.core.note_counts()?.kept;
        if self.name == "keep" {
            self.core.forget()?;
        }
        Ok(())
    }
}

fn middle(mut all: Vec<f64>) -> f64 {
    all.sort_by(f64::total_cmp);
    all[all.len() / 2]
}

fn main() -> Result<(), Error> {
    let mut words = std::env::args().skip(1);
    let rounds: usize = words.next().and_then(|it| it.parse().ok()).unwrap_or(9);
    let name = words.next();
    let mut all = NAMES.into_iter().filter(|it| name.as_deref().is_none_or(|name| name == it.0)).map(One::open).collect::<Result<Vec<_>, _>>()?;
    // The first round writes to the memory of each.
    for round in 0..=rounds {
        for one in &mut all {
            one.round()?;
            if round == 0 && name.is_none() {
                (one.bytes, one.notes) = (0, 0);
                one.nanoseconds.clear();
            }
        }
    }
    println!("{:8} {:>12} {:>8} {:>12}", "notes", "ns a note", "ratio", "bytes a note");
    for one in &all {
        let ratios = one.nanoseconds.iter().zip(&all[0].nanoseconds).map(|(own, keep)| own / keep).collect();
        let bytes = if one.bytes > 0 { format!("{:.1}", one.bytes as f64 / one.notes as f64) } else { String::new() };
        println!("{:8} {:12.1} {:8.3} {bytes:>12}", one.name, middle(one.nanoseconds.clone()), middle(ratios));
    }
    Ok(())
}
