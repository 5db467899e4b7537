//! The script language: a line in, an answer line out.

use std::fmt::{Display, Write};

use zetesis_ferraris::regions::Cursor;

use crate::answer::Answer;
use crate::ledger::{self, Closed, Done, Header, Ledger, Limits, Masks, Row};
use crate::literals::{MOST_ATOMS, atoms_of, mask};

/// The number of ledgers of a script.
const LEDGERS: usize = 4;
/// The rows that each ledger of a script has room for.
const ROOM: u64 = 512;
/// The atoms that a script has room for.
const ROOM_ATOMS: u64 = 200_000;

/// The ledgers of a script.
#[derive(Default)]
pub struct Script {
    ledgers: [Option<Ledger>; LEDGERS],
}

/// The words of a line that are not read yet. A word that is missing or not of its kind is none.
struct Line<'a> {
    words: std::iter::Filter<std::str::Split<'a, char>, fn(&&str) -> bool>,
}

impl<'a> Line<'a> {
    fn new(text: &'a str) -> Self {
        Self {
            words: text.split(' ').filter(|word| !word.is_empty()),
        }
    }

    fn word(&mut self) -> Option<&'a str> {
        self.words.next()
    }

    fn number(&mut self) -> Option<u64> {
        number(self.word()?)
    }

    /// The last word of a line, a number that may be left out: then it is 0.
    fn last(&mut self) -> Option<u64> {
        let word = self.word();
        self.end()?;
        word.map_or(Some(0), number)
    }

    fn list(&mut self) -> Option<Vec<u64>> {
        match self.word()? {
            "-" => Some(Vec::new()),
            list => list.split(',').map(number).collect(),
        }
    }

    fn ledger(&mut self) -> Option<usize> {
        let number = self.number()?;
        (number < LEDGERS as u64).then_some(number as usize)
    }

    fn end(&mut self) -> Option<()> {
        self.word().is_none().then_some(())
    }
}

/// A decimal number below 2^64, of digits alone.
fn number(word: &str) -> Option<u64> {
    let digits = !word.is_empty() && word.bytes().all(|byte| byte.is_ascii_digit());
    if digits { word.parse().ok() } else { None }
}

impl Script {
    /// A script with no ledger made.
    pub fn new() -> Self {
        Self::default()
    }

    /// The ledger with this number, where it is made.
    pub fn ledger(&self, number: usize) -> Option<&Ledger> {
        self.ledgers[number].as_ref()
    }

    /// The ledger with this number, to change.
    pub fn ledger_mut(&mut self, number: usize) -> Option<&mut Ledger> {
        self.ledgers[number].as_mut()
    }

    /// Runs one line, the `number`th of its script, and adds its answer to `out`.
    pub fn line(&mut self, number: usize, text: &str, out: &mut String) {
        if text.is_empty() || text.starts_with('#') {
            return;
        }
        let start = out.len();
        if self.call(text, out).is_none() {
            out.truncate(start);
            put(out, format_args!("error {number}"));
        }
        out.push('\n');
    }

    /// Runs a call; none is a line that is no call.
    fn call(&mut self, text: &str, out: &mut String) -> Option<()> {
        let mut line = Line::new(text);
        match line.word()? {
            "make" => self.make(&mut line, out),
            "offer" => self.offer(&mut line, out),
            "hit" => self.hit(&mut line, out),
            "begin" => self.begin(&mut line, out),
            "candidates" => self.candidates(&mut line, out),
            "deduce" => self.deduce(&mut line, out),
            "next" => self.next(&mut line, out),
            "seed" => self.transfer(&mut line, "seed", ledger::seed, out),
            "deliver" => self.transfer(&mut line, "deliver", ledger::deliver, out),
            "close" => self.close(&mut line, out),
            "decide" => decide(&mut line, out),
            "dump" => self.dump(&mut line, out),
            "reset" => self.reset(&mut line, out),
            _ => None,
        }
    }

    fn made(&mut self, number: usize) -> Option<&mut Ledger> {
        self.ledgers[number].as_mut()
    }

    fn make(&mut self, line: &mut Line<'_>, out: &mut String) -> Option<()> {
        let place = line.ledger()?;
        let limits = limits(line)?;
        let number = line.number()?;
        line.end()?;
        if limits.in_range() && (limits.tier_rows > ROOM || limits.atoms > ROOM_ATOMS) {
            return None;
        }
        put(out, format_args!("make {place} "));
        match ledger::make(limits, number) {
            Ok(ledger) => {
                head(out, &ledger.header());
                self.ledgers[place] = Some(ledger);
            }
            Err(number) => {
                put(out, format_args!("{} charge=0", Answer::Refused(number)));
                self.ledgers[place] = None;
            }
        }
        Some(())
    }

    fn offer(&mut self, line: &mut Line<'_>, out: &mut String) -> Option<()> {
        let place = line.ledger()?;
        let limit = line.number()?;
        let conditions = line.list()?;
        let outputs = line.list()?;
        let source = line.last()?;
        let ledger = self.made(place)?;
        let done = ledger.offer(&conditions, &outputs, source, limit);
        put(out, format_args!("offer {place} "));
        end(out, done, ledger);
        Some(())
    }

    fn hit(&mut self, line: &mut Line<'_>, out: &mut String) -> Option<()> {
        let place = line.ledger()?;
        let position = line.number()?;
        line.end()?;
        let ledger = self.made(place)?;
        let done = ledger.hit(position);
        put(out, format_args!("hit {place} "));
        end(out, done, ledger);
        Some(())
    }

    fn begin(&mut self, line: &mut Line<'_>, out: &mut String) -> Option<()> {
        let place = line.ledger()?;
        line.end()?;
        let ledger = self.made(place)?;
        let done = ledger.begin();
        put(out, format_args!("begin {place} "));
        end(out, done, ledger);
        Some(())
    }

    fn candidates(&mut self, line: &mut Line<'_>, out: &mut String) -> Option<()> {
        let place = line.ledger()?;
        let limit = line.number()?;
        let atoms = line.list()?;
        line.end()?;
        let ledger = self.made(place)?;
        let found = ledger.candidates(&atoms, limit);
        put(out, format_args!("candidates {place} "));
        if found.answer == Answer::Found {
            put(out, format_args!("{} ", found.rows.len()));
            list(out, &found.rows);
        } else {
            put(out, found.answer);
        }
        put(out, format_args!(" charge={}", found.charge));
        tail(out, found.answer, ledger);
        Some(())
    }

    fn deduce(&mut self, line: &mut Line<'_>, out: &mut String) -> Option<()> {
        let place = line.ledger()?;
        let limit = line.number()?;
        let position = line.number()?;
        let (held, cut) = (line.list()?, line.list()?);
        line.end()?;
        let ledger = self.made(place)?;
        let region = masks(ledger.atoms(), &held, &cut);
        let done = ledger.deduce(position, &region, limit);
        put(out, format_args!("deduce {place} "));
        end(out, done, ledger);
        Some(())
    }

    fn next(&mut self, line: &mut Line<'_>, out: &mut String) -> Option<()> {
        let place = line.ledger()?;
        let limit = line.number()?;
        let position = line.number()?;
        let [next, word, present, absent] = line.list()?.try_into().ok()?;
        let (held, cut) = (line.list()?, line.list()?);
        line.end()?;
        let ledger = self.made(place)?;
        let region = masks(ledger.atoms(), &held, &cut);
        let cursor = Cursor {
            next: next as usize,
            word: word as usize,
            present,
            absent,
        };
        let published = ledger.next_output(position, cursor, &region, limit);
        let (answer, moved) = (published.answer, published.cursor);
        put(
            out,
            format_args!("next {place} {answer} charge={}", published.charge),
        );
        if !matches!(answer, Answer::Refused(_)) {
            let Cursor {
                next,
                word,
                present,
                absent,
            } = moved;
            put(
                out,
                format_args!(" cursor={next},{word},{present},{absent}"),
            );
        }
        tail(out, answer, ledger);
        Some(())
    }

    fn transfer(
        &mut self,
        line: &mut Line<'_>,
        name: &str,
        run: fn(&mut Ledger, &mut Ledger, u64) -> Done,
        out: &mut String,
    ) -> Option<()> {
        let (tier_place, store_place) = (line.ledger()?, line.ledger()?);
        let limit = line.number()?;
        line.end()?;
        // Tier and store are two ledgers.
        let [tier, store] = self
            .ledgers
            .get_disjoint_mut([tier_place, store_place])
            .ok()?;
        let (tier, store) = (tier.as_mut()?, store.as_mut()?);
        let Done { answer, charge } = run(tier, store, limit);
        if let Answer::Refused(_) = answer {
            put(out, format_args!("{name} {tier_place} {answer} charge=0"));
            return Some(());
        }
        put(
            out,
            format_args!(
                "{name} {tier_place} {store_place} {answer} charge={charge} {tier_place} "
            ),
        );
        head(out, &tier.header());
        put(out, format_args!(" {store_place} "));
        head(out, &store.header());
        Some(())
    }

    fn close(&mut self, line: &mut Line<'_>, out: &mut String) -> Option<()> {
        let place = line.ledger()?;
        let limit = line.number()?;
        let (held, cut) = (line.list()?, line.list()?);
        line.end()?;
        let ledger = self.made(place)?;
        let closed = ledger.close(masks(ledger.atoms(), &held, &cut), limit);
        put(
            out,
            format_args!("close {place} {} charge={}", closed.answer, closed.charge),
        );
        region(out, &closed);
        named(out, &closed);
        tail(out, closed.answer, ledger);
        Some(())
    }

    fn dump(&mut self, line: &mut Line<'_>, out: &mut String) -> Option<()> {
        let place = line.ledger()?;
        line.end()?;
        let ledger = self.made(place)?;
        put(out, format_args!("dump {place}"));
        for position in 0..ledger.rows() {
            row(out, position, &ledger.row(position));
        }
        out.push_str("\n postings ");
        list(out, &ledger.postings());
        Some(())
    }

    fn reset(&mut self, line: &mut Line<'_>, out: &mut String) -> Option<()> {
        line.end()?;
        self.ledgers = Default::default();
        out.push_str("reset");
        Some(())
    }
}

fn decide(line: &mut Line<'_>, out: &mut String) -> Option<()> {
    let (atoms, atom) = (line.number()?, line.number()?);
    let value = match line.number()? {
        0 => false,
        1 => true,
        _ => return None,
    };
    let (held, cut) = (line.list()?, line.list()?);
    line.end()?;
    if atoms > ROOM_ATOMS && atoms <= MOST_ATOMS {
        return None;
    }
    let closed = ledger::decide(atoms, atom, value, masks(atoms, &held, &cut));
    put(out, format_args!("decide {}", closed.answer));
    match closed.answer {
        Answer::Refused(_) => out.push_str(" charge=0"),
        _ => region(out, &closed),
    }
    Some(())
}

/// The ten limits, in document 01's order.
fn limits(line: &mut Line<'_>) -> Option<Limits> {
    Some(Limits {
        atoms: line.number()?,
        tier_rows: line.number()?,
        founded_conditions: line.number()?,
        founded_outputs: line.number()?,
        founded_floor: line.number()?,
        founded_attempts: line.number()?,
        founded_work: line.number()?,
        share_work: line.number()?,
        share_conditions: line.number()?,
        share_hits: line.number()?,
    })
}

fn masks(atoms: u64, held: &[u64], cut: &[u64]) -> Masks {
    Masks {
        held: mask(atoms, held),
        cut: mask(atoms, cut),
    }
}

fn put(out: &mut String, text: impl Display) {
    write!(out, "{text}").expect("a string takes every text");
}

/// A list with commas; `-` where it is empty.
fn list<T: Display>(out: &mut String, items: &[T]) {
    if items.is_empty() {
        out.push('-');
    }
    for (place, item) in items.iter().enumerate() {
        put(
            out,
            format_args!("{}{item}", if place == 0 { "" } else { "," }),
        );
    }
}

/// The answer, the charge and the header.
fn end(out: &mut String, done: Done, ledger: &Ledger) {
    put(out, format_args!("{} charge={}", done.answer, done.charge));
    tail(out, done.answer, ledger);
}

/// The header, but not after a refusal.
fn tail(out: &mut String, answer: Answer, ledger: &Ledger) {
    if !matches!(answer, Answer::Refused(_)) {
        out.push(' ');
        head(out, &ledger.header());
    }
}

/// The region, but not after a refusal.
fn region(out: &mut String, closed: &Closed) {
    if matches!(closed.answer, Answer::Refused(_)) {
        return;
    }
    out.push_str(" held=");
    list(out, &atoms_of(&closed.region.held));
    out.push_str(" cut=");
    list(out, &atoms_of(&closed.region.cut));
}

/// The output that a closing names, but not after a refusal.
fn named(out: &mut String, closed: &Closed) {
    if matches!(closed.answer, Answer::Refused(_)) {
        return;
    }
    match closed.contradicted {
        None => out.push_str(" contradicted=none"),
        Some(code) => put(out, format_args!(" contradicted={code}")),
    }
}

/// The header. Truth values are 0 and 1.
fn head(out: &mut String, header: &Header) {
    let Header {
        number: _,
        rows,
        born,
        epoch,
        attempts,
        remaining,
        sharing,
        evicted,
        deliveries,
        seeded,
        stale,
        full,
        mark,
        founded,
    } = header;
    put(
        out,
        format_args!("rows={rows} born={born} epoch={epoch} attempts={attempts}"),
    );
    put(
        out,
        format_args!(" remaining={remaining} sharing={sharing} evicted={evicted}"),
    );
    put(
        out,
        format_args!(" deliveries={deliveries} seeded={seeded}"),
    );
    put(
        out,
        format_args!(" stale={} full={} mark=", u8::from(*stale), u8::from(*full)),
    );
    match mark {
        None => out.push_str("none"),
        Some((store, born)) => put(out, format_args!("{store}:{born}")),
    }
    put(out, format_args!(" founded={founded}"));
}

/// A row of a dump.
fn row(out: &mut String, position: usize, row: &Row) {
    let form = if row.is_packed() { "packed" } else { "scalar" };
    put(out, format_args!("\n row {position} {form} c="));
    list(out, &row.conditions);
    out.push_str(" o=");
    list(out, &row.outputs);
    put(
        out,
        format_args!(" tg={} cg={}", row.groups.len(), row.condition_groups),
    );
    put(
        out,
        format_args!(
            " hits={} unshared={} born={}",
            row.hits, row.unshared, row.born
        ),
    );
    put(
        out,
        format_args!(
            " delivered={} source={} groups=",
            u8::from(row.delivered),
            row.source
        ),
    );
    let groups: Vec<String> = row
        .groups
        .iter()
        .map(|(index, present, absent)| format!("{index}:{present:x}:{absent:x}"))
        .collect();
    list(out, &groups);
}
