//! The records that are timed, and the four forms in which they are handed over.

/// A record's fields in the order in which they are handed over.
pub struct Record {
    pub name: &'static str,
    pub fields: Vec<(String, Value)>,
}

pub enum Value {
    Text(String),
    Record(Record),
}

/// What sets one record apart from another.
#[derive(Clone, Copy, PartialEq, Eq)]
pub struct Shape {
    pub size: usize,
    pub nested: bool,
    pub many_escapes: bool,
    pub late_attributes: bool,
}

impl Shape {
    pub fn all() -> Vec<Shape> {
        let mut all = Vec::new();
        for size in [200, 2_000, 60_000] {
            for nested in [false, true] {
                for many_escapes in [false, true] {
                    for late_attributes in [false, true] {
                        all.push(Shape {
                            size,
                            nested,
                            many_escapes,
                            late_attributes,
                        });
                    }
                }
            }
        }
        all
    }

    pub fn label(&self) -> String {
        let size = match self.size {
            200 => "200 B",
            2_000 => "2 KB",
            _ => "60 KB",
        };
        let form = if self.nested { "nested" } else { "flat" };
        let escapes = if self.many_escapes { "many" } else { "few" };
        let attributes = if self.late_attributes {
            "late"
        } else {
            "early"
        };
        format!("{size} | {form} | {escapes} | {attributes}")
    }

    // Trail names and remarks. Every fifth has an `&`, or each has two tags' marks and two `&`, and quotation marks besides,
    // which an attribute replaces too.
    fn text(&self, turn: usize) -> String {
        const WORDS: [&str; 8] = [
            "Alpe",
            "Höhenweg",
            "Tal",
            "bridge closed",
            "via ferrata",
            "Rast",
            "north face",
            "ford",
        ];
        let (a, b, c) = (
            WORDS[turn % 8],
            WORDS[(turn * 3 + 1) % 8],
            WORDS[(turn * 5 + 2) % 8],
        );
        match (self.many_escapes, turn % 5) {
            (true, _) => format!("<{a}> {b} & \"{c}\" & more"),
            (false, 0) => format!("{a} & {b} {c}"),
            (false, _) => format!("{a} to {b}, {c}"),
        }
    }

    // A record of a number, some texts and perhaps one more record. Its grade is in ASCII, since libxml2 writes any other
    // character of an attribute as a reference.
    fn leaf(
        &self,
        name: &'static str,
        turn: usize,
        texts: usize,
        inner: Option<(&str, Record)>,
    ) -> Record {
        let grade = self.text(turn + 3).replace('ö', "oe");
        let mut attributes = vec![("@no".to_string(), Value::Text(turn.to_string()))];
        if self.size > 200 {
            attributes.push(("@grade".to_string(), Value::Text(grade)));
        }
        let texts = (0..texts).map(|k| {
            let key = ["trail", "from", "to", "remark"][k % 4];
            (key.to_string(), Value::Text(self.text(turn + k)))
        });
        let inner = inner.map(|(key, record)| (key.to_string(), Value::Record(record)));
        let children = texts.chain(inner);
        let fields = if self.late_attributes {
            children.chain(attributes).collect()
        } else {
            attributes.into_iter().chain(children).collect()
        };
        Record { name, fields }
    }

    // A section, which has an edition within.
    fn section(&self, turn: usize, texts: usize) -> (&'static str, Record) {
        let edition = self.leaf("edition", turn + 1, 1, None);
        (
            "section",
            self.leaf("section", turn, texts, Some(("edition", edition))),
        )
    }

    // So many more texts, or so many sections; a small record has but one section, of so many texts.
    fn grown(&self, count: usize) -> Record {
        if !self.nested {
            return self.leaf("sheet", 0, count, None);
        }
        if self.size == 200 {
            return self.leaf("sheet", 0, 0, Some(self.section(0, count)));
        }
        let mut root = self.leaf("sheet", 0, 1, None);
        let behind = if self.late_attributes {
            1
        } else {
            root.fields.len()
        };
        let sections = (0..count).map(|turn| {
            let (key, record) = self.section(turn, 2);
            (key.to_string(), Value::Record(record))
        });
        root.fields.splice(behind..behind, sections);
        root
    }

    /// The largest such record of no more than its size; how long a record is, `len` says.
    pub fn record(&self, len: impl Fn(&Record) -> usize) -> Record {
        let (mut fits, mut over) = (0, 1);
        while len(&self.grown(over)) <= self.size {
            (fits, over) = (over, 2 * over);
        }
        while over - fits > 1 {
            let middle = (fits + over) / 2;
            if len(&self.grown(middle)) <= self.size {
                fits = middle;
            } else {
                over = middle;
            }
        }
        self.grown(fits)
    }
}

/// One call on our writer: its kind, and where its bytes stand in the text.
#[repr(C)]
#[derive(Clone, Copy)]
pub struct Step {
    pub kind: u32,
    pub from: u32,
    pub end: u32,
}

/// The calls that write a record.
#[derive(Default)]
pub struct Steps {
    pub steps: Vec<Step>,
    pub text: Vec<u8>,
}

impl Steps {
    pub fn of(record: &Record) -> Steps {
        let mut all = Steps::default();
        all.add(0, record.name);
        all.fields(record);
        all
    }

    fn add(&mut self, kind: u32, text: &str) {
        let from = self.text.len() as u32;
        self.text.extend(text.as_bytes());
        self.steps.push(Step {
            kind,
            from,
            end: self.text.len() as u32,
        });
    }

    fn fields(&mut self, record: &Record) {
        for (key, value) in &record.fields {
            self.add(1, key);
            match value {
                Value::Text(text) => self.add(2, text),
                Value::Record(inner) => {
                    self.add(3, inner.name);
                    self.fields(inner);
                }
            }
        }
        self.add(4, "");
    }
}

/// The same as a script, for a program that reads such.
pub fn script(record: &Record) -> String {
    let mut lines = format!("open {}\n", record.name);
    script_fields(record, &mut lines);
    lines.push_str("finish\n");
    lines
}

fn script_fields(record: &Record, lines: &mut String) {
    for (key, value) in &record.fields {
        lines.push_str(&format!("field {key}\n"));
        match value {
            Value::Text(text) => lines.push_str(&format!("text {text}\n")),
            Value::Record(inner) => {
                lines.push_str(&format!("record {}\n", inner.name));
                script_fields(inner, lines);
            }
        }
    }
    lines.push_str("end\n");
}
