//! Times records through our writer, through the packaged quick-xml serializer, through libxml2's xmlTextWriter and, where a
//! program for it is named, through the crate that is ported; prints a table for docs/BENCH.md.
//!
//! usage: driver [CRATE]
//!
//! CRATE is called as `CRATE TIMES` with a script on its standard input, and prints `nanoseconds TOTAL records TIMES bytes N`.

mod records;

use records::{Record, Shape, Step, Steps, Value, script};
use serde::ser::{Serialize, SerializeStruct, Serializer};
use std::ffi::{CString, c_char, c_int};
use std::io::Write;
use std::process::{Command, Stdio};
use std::time::Instant;

const STAGE: usize = 65_536;
const NAMES: usize = 4_096;
// How many bytes each turn writes at least, and the turns, of which the fastest counts: short ones, so that some are undisturbed.
const BYTES: usize = 1_000_000;
const TURNS: usize = 60;

unsafe extern "C" {
    fn timed_write(
        steps: *const Step,
        steps_len: usize,
        text: *const u8,
        text_len: usize,
        stage: *mut u8,
        stage_len: usize,
        names: *mut u8,
        names_len: usize,
        out: *mut u8,
        out_len: usize,
        times: usize,
    ) -> usize;
    fn libxml_write(ops: *const Op, count: usize, times: usize) -> usize;
}

/// The memory that is lent to our writer.
struct Lent {
    stage: Vec<u8>,
    names: Vec<u8>,
    out: Vec<u8>,
}

impl Lent {
    fn new() -> Lent {
        Lent {
            stage: vec![0; STAGE],
            names: vec![0; NAMES],
            out: vec![0; STAGE],
        }
    }

    fn write(&mut self, calls: &Steps, times: usize) -> usize {
        // SAFETY: each pointer and length are of one vector, and no two of the vectors that are written to are the same.
        unsafe {
            timed_write(
                calls.steps.as_ptr(),
                calls.steps.len(),
                calls.text.as_ptr(),
                calls.text.len(),
                self.stage.as_mut_ptr(),
                self.stage.len(),
                self.names.as_mut_ptr(),
                self.names.len(),
                self.out.as_mut_ptr(),
                self.out.len(),
                times,
            )
        }
    }
}

/// A record as the packaged serializer takes it: it writes a text as an attribute, unless its key says otherwise.
struct Packaged {
    name: &'static str,
    fields: Vec<(&'static str, Field)>,
}

enum Field {
    Text(String),
    Record(Packaged),
}

impl Packaged {
    fn of(record: &Record) -> Packaged {
        let fields = record.fields.iter().map(|(key, value)| match value {
            Value::Text(text) => {
                let key = match key.strip_prefix('@') {
                    Some(name) => name.to_string(),
                    None => format!("$unflatten={key}"),
                };
                (&*key.leak(), Field::Text(text.clone()))
            }
            Value::Record(inner) => (&*key.clone().leak(), Field::Record(Packaged::of(inner))),
        });
        Packaged {
            name: record.name,
            fields: fields.collect(),
        }
    }
}

impl Serialize for Packaged {
    fn serialize<S: Serializer>(&self, serializer: S) -> Result<S::Ok, S::Error> {
        let mut fields = serializer.serialize_struct(self.name, self.fields.len())?;
        for (key, field) in &self.fields {
            match field {
                Field::Text(text) => fields.serialize_field(key, text)?,
                Field::Record(inner) => fields.serialize_field(key, inner)?,
            }
        }
        fields.end()
    }
}

fn packaged_write(record: &Packaged, out: &mut Vec<u8>, times: usize) -> usize {
    for _ in 0..times {
        out.clear();
        quick_xml::se::to_writer(&mut *out, record).expect("the packaged serializer takes it");
        std::hint::black_box(&out);
    }
    out.len()
}

#[repr(C)]
struct Op {
    kind: c_int,
    name: *const c_char,
    text: *const c_char,
}

/// A record as calls on an xmlTextWriter, which takes attributes before children alone.
#[derive(Default)]
struct Ops {
    ops: Vec<Op>,
}

impl Ops {
    fn of(record: &Record) -> Ops {
        let mut all = Ops::default();
        all.element(record.name, record);
        all
    }

    fn add(&mut self, kind: c_int, name: &str, text: &str) {
        let text_of = |text: &str| {
            CString::new(text)
                .expect("no byte is 0")
                .into_raw()
                .cast_const()
        };
        self.ops.push(Op {
            kind,
            name: text_of(name),
            text: text_of(text),
        });
    }

    fn element(&mut self, name: &str, record: &Record) {
        self.add(0, name, "");
        for (key, value) in &record.fields {
            if let (Some(name), Value::Text(text)) = (key.strip_prefix('@'), value) {
                self.add(1, name, text);
            }
        }
        for (key, value) in &record.fields {
            match value {
                Value::Text(text) if !key.starts_with('@') => self.add(2, key, text),
                Value::Record(inner) => self.element(key, inner),
                Value::Text(_) => {}
            }
        }
        self.add(3, "", "");
    }
}

// Nanoseconds for one record in one turn, and its length.
fn timed(times: usize, mut write: impl FnMut(usize) -> usize) -> (f64, usize) {
    let start = Instant::now();
    let length = std::hint::black_box(write(times));
    (start.elapsed().as_nanos() as f64 / times as f64, length)
}

// The same by a program of its own, which prints `nanoseconds TOTAL records TIMES bytes LENGTH`.
fn timed_by(program: &str, script: &str, times: usize) -> (f64, usize) {
    let mut child = Command::new(program)
        .arg(times.to_string())
        .stdin(Stdio::piped())
        .stdout(Stdio::piped())
        .spawn()
        .expect("the program for the crate starts");
    let mut input = child.stdin.take().expect("its input is a pipe");
    input
        .write_all(script.as_bytes())
        .expect("it reads its input");
    drop(input);
    let answer = child.wait_with_output().expect("it ends").stdout;
    let answer = String::from_utf8(answer).expect("it prints text");
    let words: Vec<&str> = answer.split_whitespace().collect();
    let [_, total, _, records, _, length] = words[..] else {
        panic!("it answered {answer}");
    };
    let total: f64 = total.parse().expect("a number");
    let records: f64 = records.parse().expect("a number");
    (total / records, length.parse().expect("a number"))
}

/// The fastest of some turns, and the length of the record.
#[derive(Clone, Copy)]
struct Best {
    nanoseconds: f64,
    length: usize,
}

impl Best {
    const NONE: Best = Best {
        nanoseconds: f64::INFINITY,
        length: 0,
    };

    fn meet(&mut self, (nanoseconds, length): (f64, usize)) {
        assert!(length > 0, "a record was refused");
        self.nanoseconds = self.nanoseconds.min(nanoseconds);
        self.length = length;
    }
}

/// What one record took.
struct Row {
    shape: Shape,
    ours: Best,
    ported: Option<Best>,
    packaged: Best,
    libxml: Option<Best>,
}

impl Row {
    // The writers take turns, so that what else the machine does meets all of them. The crate's program starts anew each time,
    // and so gets turns ten times as long.
    fn of(shape: Shape, lent: &mut Lent, ported: Option<&str>) -> Row {
        let record = shape.record(length);
        let inner = |(_, value): &(String, Value)| matches!(value, Value::Record(_));
        assert_eq!(record.fields.iter().any(inner), shape.nested);
        let calls = Steps::of(&record);
        let packaged = Packaged::of(&record);
        let ops = Ops::of(&record).ops;
        let script = script(&record);
        let times = BYTES.div_ceil(lent.write(&calls, 1));
        let mut out = Vec::new();
        let mut row = Row {
            shape,
            ours: Best::NONE,
            ported: ported.map(|_| Best::NONE),
            packaged: Best::NONE,
            libxml: (!shape.late_attributes).then_some(Best::NONE),
        };
        for _ in 0..TURNS {
            row.ours
                .meet(timed(times, |times| lent.write(&calls, times)));
            row.packaged.meet(timed(times, |times| {
                packaged_write(&packaged, &mut out, times)
            }));
            if let Some(libxml) = &mut row.libxml {
                // SAFETY: the operations and their count are of one vector, and its strings end in 0 and are never freed.
                libxml.meet(timed(times, |times| unsafe {
                    libxml_write(ops.as_ptr(), ops.len(), times)
                }));
            }
            if let (Some(best), Some(program)) = (&mut row.ported, ported) {
                best.meet(timed_by(program, &script, 10 * times));
                assert_eq!(best.length, row.ours.length, "{}", shape.label());
            }
        }
        row
    }

    fn per_byte(&self) -> f64 {
        self.ours.nanoseconds / self.ours.length as f64
    }

    // How many times as long another takes, and the length that it gives; none where it does not take the record.
    fn beside(&self, other: Option<Best>) -> String {
        other.map_or("-".to_string(), |best| {
            let ratio = best.nanoseconds / self.ours.nanoseconds;
            format!("{ratio:.2} ({} B)", best.length)
        })
    }

    fn print(&self) {
        let Best {
            nanoseconds,
            length,
        } = self.ours;
        println!(
            "| {} | {length} | {nanoseconds:.0} | {:.2} | {} | {} | {} |",
            self.shape.label(),
            self.per_byte(),
            self.beside(self.ported),
            self.beside(Some(self.packaged)),
            self.beside(self.libxml),
        );
    }
}

fn main() {
    let ported = std::env::args().nth(1);
    let mut lent = Lent::new();
    println!(
        "| Size | Form | Escapes | Attributes | Bytes | Ours, ns | ns/byte | Crate/ours | Packaged/ours | libxml2/ours |"
    );
    println!("|---|---|---|---|---|---|---|---|---|---|");
    let rows: Vec<Row> = Shape::all()
        .into_iter()
        .map(|shape| {
            let row = Row::of(shape, &mut lent, ported.as_deref());
            row.print();
            row
        })
        .collect();
    println!();
    for large in rows.iter().filter(|row| row.shape.size == 60_000) {
        let same = Shape {
            size: 2_000,
            ..large.shape
        };
        if let Some(small) = rows.iter().find(|row| row.shape == same) {
            let ratio = large.per_byte() / small.per_byte();
            println!(
                "{}, time per byte to that at 2 KB: {ratio:.2}",
                large.shape.label()
            );
        }
    }
    let behind = rows
        .iter()
        .filter(|row| row.shape.size == 2_000)
        .filter(|row| {
            row.ported
                .is_some_and(|best| best.nanoseconds < row.ours.nanoseconds)
        });
    println!(
        "records of 2 KB on which the crate is faster: {}",
        behind.count()
    );
}

// How long a record is as our writer writes it; one that it refuses is too long.
fn length(record: &Record) -> usize {
    match Lent::new().write(&Steps::of(record), 1) {
        0 => usize::MAX,
        length => length,
    }
}
