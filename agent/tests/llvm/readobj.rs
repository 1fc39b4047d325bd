//! Reads what `llvm-readobj --stackmap` prints. Every line must be one that is expected at its place; any other
//! line is an error that names it, so that a change in the printed form cannot pass unseen.

/// All that is printed of one map.
#[derive(Debug)]
pub struct Printed {
    pub functions: Vec<Function>,
    pub constants: Vec<u64>,
    pub records: Vec<Record>,
}

#[derive(Debug)]
pub struct Function {
    pub address: u64,
    pub stack_size: u64,
    pub record_count: u64,
}

#[derive(Debug)]
pub struct Record {
    pub id: u64,
    pub offset: u32,
    pub locations: Vec<Location>,
    pub live_outs: Vec<LiveOut>,
}

#[derive(Debug)]
pub struct Location {
    pub value: Value,
    pub size: u16,
}

/// What is printed of a location beside its size. A small constant is printed without its sign, as its 32 bits.
#[derive(Debug)]
pub enum Value {
    Register(u16),
    Direct(u16, i32),
    Indirect(u16, i32),
    Constant(u32),
    ConstIndex(u32, u64),
}

#[derive(Debug)]
pub struct LiveOut {
    pub register: u16,
    pub size: u8,
}

/// The whole text.
pub fn parse(text: &str) -> Result<Printed, String> {
    let mut lines = Lines {
        left: text.lines(),
        number: 0,
        line: "",
    };
    head(&mut lines)?;
    let functions = counted(&mut lines, "Num Functions: ", function)?;
    let constants = counted(&mut lines, "Num Constants: ", constant)?;
    let records = counted(&mut lines, "Num Records: ", record)?;
    match lines.left.next() {
        None => Ok(Printed {
            functions,
            constants,
            records,
        }),
        Some(more) => Err(format!("a line after the last record: {more:?}")),
    }
}

/// The lines not read yet, and the last one read with its number, for messages.
struct Lines<'a> {
    left: std::str::Lines<'a>,
    number: usize,
    line: &'a str,
}

impl<'a> Lines<'a> {
    /// The rest of the next line, which must begin so.
    fn next(&mut self, beginning: &str) -> Result<Rest<'a>, String> {
        self.line = self
            .left
            .next()
            .ok_or_else(|| format!("the text ends where {beginning:?} should stand"))?;
        self.number += 1;
        let mut rest = Rest {
            text: self.line,
            number: self.number,
            line: self.line,
        };
        rest.word(beginning)?;
        Ok(rest)
    }
}

/// What is left of one line.
struct Rest<'a> {
    text: &'a str,
    number: usize,
    line: &'a str,
}

impl<'a> Rest<'a> {
    fn wrong(&self, wanted: &str) -> String {
        format!(
            "line {}, {:?}: {wanted:?} should stand before {:?}",
            self.number, self.line, self.text
        )
    }

    /// Whether the rest begins with these characters; if so, they are read.
    fn begins(&mut self, word: &str) -> bool {
        let after = self.text.strip_prefix(word);
        self.text = after.unwrap_or(self.text);
        after.is_some()
    }

    fn word(&mut self, word: &str) -> Result<(), String> {
        if self.begins(word) {
            Ok(())
        } else {
            Err(self.wrong(word))
        }
    }

    /// A decimal number that fits its type, with a sign where it is negative.
    fn number<T: std::str::FromStr>(&mut self) -> Result<T, String> {
        let sign = usize::from(self.text.starts_with('-'));
        let digits = self.text[sign..]
            .bytes()
            .take_while(u8::is_ascii_digit)
            .count();
        let (number, after) = self.text.split_at(sign + digits);
        let value = number
            .parse()
            .map_err(|_| self.wrong("a number in range"))?;
        self.text = after;
        Ok(value)
    }

    fn end(&self) -> Result<(), String> {
        if self.text.is_empty() {
            Ok(())
        } else {
            Err(self.wrong("the end of the line"))
        }
    }
}

/// The lines about the file. Their values are free, but for the width of addresses and the version.
fn head(lines: &mut Lines) -> Result<(), String> {
    lines.next("")?.end()?;
    lines.next("File: ")?;
    lines.next("Format: elf64-")?;
    lines.next("Arch: ")?;
    lines.next("AddressSize: 64bit")?.end()?;
    lines.next("LoadName: ")?;
    lines.next("LLVM StackMap Version: 3")?.end()
}

/// A line with a number, then that many items. Items that are numbered count from 1.
fn counted<T>(
    lines: &mut Lines,
    beginning: &str,
    item: fn(&mut Lines, usize) -> Result<T, String>,
) -> Result<Vec<T>, String> {
    let mut rest = lines.next(beginning)?;
    let count: usize = rest.number()?;
    rest.end()?;
    (1..=count).map(|number| item(lines, number)).collect()
}

fn function(lines: &mut Lines, _number: usize) -> Result<Function, String> {
    let mut rest = lines.next("  Function address: ")?;
    let address = rest.number()?;
    rest.word(", stack size: ")?;
    let stack_size = rest.number()?;
    rest.word(", callsite record count: ")?;
    let record_count = rest.number()?;
    rest.end()?;
    Ok(Function {
        address,
        stack_size,
        record_count,
    })
}

fn constant(lines: &mut Lines, number: usize) -> Result<u64, String> {
    let mut rest = lines.next(&format!("  #{number}: "))?;
    let value = rest.number()?;
    rest.end()?;
    Ok(value)
}

fn record(lines: &mut Lines, _number: usize) -> Result<Record, String> {
    let mut rest = lines.next("  Record ID: ")?;
    let id = rest.number()?;
    rest.word(", instruction offset: ")?;
    let offset = rest.number()?;
    rest.end()?;
    let mut rest = lines.next("    ")?;
    let count: usize = rest.number()?;
    rest.word(" locations:")?;
    rest.end()?;
    let locations = (1..=count)
        .map(|number| location(lines, number))
        .collect::<Result<_, _>>()?;
    let live_outs = live_outs(lines)?;
    Ok(Record {
        id,
        offset,
        locations,
        live_outs,
    })
}

fn location(lines: &mut Lines, number: usize) -> Result<Location, String> {
    let mut rest = lines.next(&format!("      #{number}: "))?;
    let value = value(&mut rest)?;
    rest.word(", size: ")?;
    let size = rest.number()?;
    rest.end()?;
    Ok(Location { value, size })
}

fn value(rest: &mut Rest) -> Result<Value, String> {
    if rest.begins("Register R#") {
        Ok(Value::Register(rest.number()?))
    } else if rest.begins("Direct R#") {
        let (register, offset) = sum(rest)?;
        Ok(Value::Direct(register, offset))
    } else if rest.begins("Indirect [R#") {
        let (register, offset) = sum(rest)?;
        rest.word("]")?;
        Ok(Value::Indirect(register, offset))
    } else if rest.begins("Constant ") {
        Ok(Value::Constant(rest.number()?))
    } else if rest.begins("ConstantIndex #") {
        let index = rest.number()?;
        rest.word(" (")?;
        let constant = rest.number()?;
        rest.word(")")?;
        Ok(Value::ConstIndex(index, constant))
    } else {
        Err(rest.wrong("a kind of location"))
    }
}

/// A register and what is added to it.
fn sum(rest: &mut Rest) -> Result<(u16, i32), String> {
    let register = rest.number()?;
    rest.word(" + ")?;
    Ok((register, rest.number()?))
}

/// All live-outs of a record are in one line.
fn live_outs(lines: &mut Lines) -> Result<Vec<LiveOut>, String> {
    let mut rest = lines.next("    ")?;
    let count: usize = rest.number()?;
    rest.word(" live-outs: [ ")?;
    let mut live_outs = Vec::new();
    for _ in 0..count {
        rest.word("R#")?;
        let register = rest.number()?;
        rest.word(" (")?;
        live_outs.push(LiveOut {
            register,
            size: rest.number()?,
        });
        rest.word("-bytes) ")?;
    }
    rest.word("]")?;
    rest.end()?;
    Ok(live_outs)
}
