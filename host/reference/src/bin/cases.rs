//! Answers request lines on standard input, one answer line each, in the form of the
//! repository's case runner, crates/cases.

use halimpung_reference::times::Source;
use halimpung_reference::*;
use std::io::{self, BufRead, Write};

fn main() -> io::Result<()> {
    let mut out = io::BufWriter::new(io::stdout().lock());
    for line in io::stdin().lock().lines() {
        let line = line?;
        let words: Vec<&str> = line.split(' ').collect();
        writeln!(out, "{}", answer(&words).unwrap_or_else(|| "request not understood".into()))?;
    }
    out.flush()
}

fn answer(words: &[&str]) -> Option<String> {
    Some(match *words {
        ["read", plan, ca, ioa, file] => {
            match read(ca.parse().ok()?, ioa.parse().ok()?, &bytes(plan)?, &bytes(file)?) {
                Ok(record) => accepted(&record),
                Err(refusal) => refused(refusal),
            }
        }
        ["norm", plan, ca, ioa, file, room] => {
            let mut out = vec![0xaa; room.parse().ok()?];
            match normalise(ca.parse().ok()?, ioa.parse().ok()?, &bytes(plan)?, &bytes(file)?, &mut out) {
                Ok(length) => format!("OK {length} {}", hex(&out[..length])),
                Err(refusal) => refused(refusal),
            }
        }
        [kind @ ("cread" | "cnorm"), plan, ca, ioa, file, room] => {
            let mut out = vec![0xaa; room.parse().ok()?];
            let entry = if kind == "cread" { read_entry } else { normalise_entry };
            let number = entry(ca.parse().ok()?, ioa.parse().ok()?, &bytes(plan)?, &bytes(file)?, &mut out);
            format!("N {number} {}", hex(&out))
        }
        ["prog", "!", stdin] => format!("OUT {}", hex(&program(None, &bytes(stdin)?))),
        ["prog", plan, stdin] => format!("OUT {}", hex(&program(Some(&bytes(plan)?), &bytes(stdin)?))),
        ["time", which, plan, ca, ioa, file, sheet] => {
            let call = if which == "a" { start_up_time } else { ramp_time };
            match call(ca.parse().ok()?, ioa.parse().ok()?, &bytes(plan)?, &bytes(file)?, &bytes(sheet)?) {
                Ok(part) => {
                    let source = if part.source == Source::File { "file" } else { "sheet" };
                    format!("P {source} {} {}", part.start, part.start + part.bytes.len())
                }
                Err(refusal) => refused(refusal),
            }
        }
        ["book", unit, calls] => book(&bytes(unit)?, calls)?,
        ["collect", units] => collected(units)?,
        _ => return None,
    })
}

fn accepted(record: &Record) -> String {
    let layout = match record.body {
        Body::Market(_) => "M",
        Body::Mfrr(_) => "F",
        _ => "-",
    };
    let (start, end) = record.dates();
    let end = end.map_or("-".into(), |end| end.instant().to_string());
    let mut form = [0; 8192];
    let length = write(record, &mut form).expect("a record that was read is valid");
    format!(
        "OK {} {layout} {} {} {} {end} {}",
        text(record.kind().word()),
        record.number,
        text(record.unit.get()),
        start.instant(),
        hex(&form[..length])
    )
}

fn book(unit: &[u8], calls: &str) -> Option<String> {
    let (book, answer) = Book::fresh(unit);
    let mut kept = Daybook::without_day(book);
    let mut answers = vec![numbers(answer)];
    for call in calls.split(',').filter(|&call| call != "-") {
        let (next, answer) = called(kept, call)?;
        kept = next;
        answers.push(answer);
    }
    Some(answers.join(" "))
}

/// Book and summary after a call, and what the call answers.
fn called(kept: Daybook, call: &str) -> Option<(Daybook, String)> {
    let parts: Vec<&str> = call.split(':').collect();
    Some(match *parts {
        [kind @ ("C" | "V"), code, unit, file] => {
            let plan = format!("ca=1\nioa=1\nunit={unit}\ntype={code}\n");
            match read(1, 1, plan.as_bytes(), &bytes(file)?) {
                Ok(record) if kind == "C" => told(kept.command(&record), taken),
                Ok(record) => told(kept.revoke(&record), taken),
                Err(_) => (kept, "unread".into()),
            }
        }
        ["X", t] => told(kept.close(t.parse().ok()?), taken),
        ["D", t] => told(kept.choose(t.parse().ok()?), taken),
        ["E"] => (kept, kept.summary.map_or("e:none".into(), |summary| entries(&summary))),
        ["Q", t] => told(beside(kept, kept.book.in_force(t.parse().ok()?)), |number| match number {
            Some(number) => format!("f:{number}"),
            None => "f:none".into(),
        }),
        ["P"] => told(beside(kept, kept.book.panel()), |panel| format!("p:{}:{}", panel.held, panel.next_end)),
        ["S", room] => {
            let mut out = vec![0xaa; room.parse().ok()?];
            let answer = saved::save(&kept.book, &mut out);
            told((kept, answer), |length| format!("t:{}", hex(&out[..length])))
        }
        ["L", text] => {
            let (book, answer) = saved::load(&bytes(text)?);
            told((Daybook::without_day(book), answer), taken)
        }
        _ => return None,
    })
}

/// What a question of the book alone hands back, and the summary that stood beside it.
fn beside<T>(kept: Daybook, (book, answer): (Book, Result<T, Refusal>)) -> (Daybook, Result<T, Refusal>) {
    (Daybook { book, ..kept }, answer)
}

fn entries(summary: &Summary) -> String {
    let entries = summary.entries.map(|entry| entry.map_or("-".into(), |number| number.to_string()));
    format!("e:{}", entries.join("."))
}

/// Of a call that gives nothing but book and summary.
fn taken((): ()) -> String {
    numbers(Ok(()))
}

/// What a call hands back, its answer in words: a refusal, or `words` of what it gave.
fn told<T>((kept, answer): (Daybook, Result<T, Refusal>), words: impl FnOnce(T) -> String) -> (Daybook, String) {
    (kept, answer.map_or_else(|refusal| numbers(Err(refusal)), words))
}

/// A `-` alone is no unit at all; among others it is one without octets.
fn collected(units: &str) -> Option<String> {
    let mut collector = Collector::default();
    let units = units.split(',').filter(|_| units != "-");
    let answers: Option<Vec<String>> = units.map(|unit| Some(heard(collector.take(&bytes(unit)?)))).collect();
    Some(answers?.join(" "))
}

fn heard(heard: Heard) -> String {
    match heard {
        Heard::More => numbers(Ok(())),
        Heard::Whole { octets, .. } => format!("F:{}", hex(&octets)),
        Heard::Refused(refusal) => numbers(Err(refusal)),
    }
}

fn numbers(answer: Result<(), Refusal>) -> String {
    let refusal = answer.err().unwrap_or(Refusal::plain(0));
    format!("{}/{}", refusal.number, refusal.detail)
}

fn refused(refusal: Refusal) -> String {
    format!("R {} {}", refusal.number, refusal.detail)
}

fn text(bytes: &[u8]) -> &str {
    std::str::from_utf8(bytes).expect("plain bytes")
}

fn bytes(hex: &str) -> Option<Vec<u8>> {
    if hex == "-" {
        return Some(Vec::new());
    }
    let digits: Option<Vec<u8>> = hex.chars().map(|c| c.to_digit(16).map(|d| d as u8)).collect();
    digits?.chunks(2).map(|two| Some(two[0] * 16 + two.get(1)?)).collect()
}

fn hex(bytes: &[u8]) -> String {
    if bytes.is_empty() {
        return "-".into();
    }
    bytes.iter().map(|byte| format!("{byte:02x}")).collect()
}
