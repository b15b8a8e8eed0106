//! What a line of `vecdist` or `vecprobe` asks, and how its answer is printed.

use crate::differences::{bits_32, bits_64, MOST_LENGTH};
use crate::hex;
use crate::oracle::Oracle;
use crate::request::{Answer, Mode, Refused, Reply, Request, Shown, Vecs};
use crate::rules::{Kind, Measure, View};

#[derive(Clone, Copy, Debug, PartialEq, Eq)]
pub enum Program {
    Vecdist,
    Vecprobe,
}

impl Program {
    pub fn name(self) -> &'static str {
        match self {
            Self::Vecdist => "vecdist",
            Self::Vecprobe => "vecprobe",
        }
    }

    /// The one that answers such a request.
    pub fn of(request: &Request) -> Self {
        match request {
            Request::Distance { .. } => Self::Vecdist,
            _ => Self::Vecprobe,
        }
    }

    pub fn named(name: &str) -> Option<Self> {
        let mut programs = [Self::Vecdist, Self::Vecprobe].into_iter();
        programs.find(|program| program.name() == name)
    }

    /// How many bytes a line may have before its newline.
    pub const fn longest(self) -> usize {
        match self {
            Self::Vecdist => 32_768,
            Self::Vecprobe => 1_100_000,
        }
    }

    /// The answer to a line, without its number; `X` for a line of another shape.
    pub fn answer(self, line: &[u8], oracle: &mut Oracle) -> String {
        let fields: Vec<&[u8]> = line.split(|&byte| byte == b'\t').collect();
        let answered = |request: Request| printed(&oracle.answer(&request));
        let answer = match self {
            _ if line.len() > self.longest() => None,
            Self::Vecdist => distance(&fields).map(answered),
            Self::Vecprobe => rounded(&fields).or_else(|| probe(&fields).map(answered)),
        };
        answer.unwrap_or_else(|| "X".to_string())
    }
}

/// What the fields of a `vecdist` line ask.
fn distance(fields: &[&[u8]]) -> Option<Request> {
    let &[name, a, b] = fields else { return None };
    let blobs = [hex::decode(a)?, hex::decode(b)?];
    let measure = measure(name)?;
    Some(Request::Distance { measure, blobs })
}

/// The answer to the fields of a `vecprobe` line about one float.
fn rounded(fields: &[&[u8]]) -> Option<String> {
    Some(match *fields {
        [b"root", b"32", f] => format!("F\t{:08x}", bits_32(single(f)?.sqrt())),
        [b"root", b"64", f] => format!("F\t{:016x}", bits_64(double(f)?.sqrt())),
        [b"narrow", f] => format!("F\t{:08x}", bits_32(double(f)? as f32)),
        [b"widen", f] => format!("F\t{:016x}", bits_64(single(f)? as f64)),
        [b"trunc", f] => format!("F\t{:02x}", truncated(single(f)?)),
        _ => return None,
    })
}

/// What the fields of any other `vecprobe` line ask.
fn probe(fields: &[&[u8]]) -> Option<Request> {
    Some(match *fields {
        [b"read", blob] => reading(Mode::Plain, blob)?,
        [b"strict", blob] => reading(Mode::Strict, blob)?,
        [b"conv", target, blob] => Request::Convert {
            target: kind(target)?,
            blob: hex::decode(blob)?,
        },
        [b"write", to, count, body] => Request::Write {
            kind: kind(to)?,
            dims: decimal(count)?,
            body: hex::decode(body)?,
        },
        [b"near", name, probe, a, b] => Request::Nearer {
            measure: measure(name)?,
            blobs: [hex::decode(probe)?, hex::decode(a)?, hex::decode(b)?],
        },
        [b"fvecs", place, file] => finding(Vecs::Fvecs, place, file)?,
        [b"bvecs", place, file] => finding(Vecs::Bvecs, place, file)?,
        [b"append", fill, lent, blob] => Request::Append {
            fill: decimal(fill)?,
            buffer: buffer(lent)?,
            blob: hex::decode(blob)?,
        },
        _ => return None,
    })
}

fn reading(mode: Mode, blob: &[u8]) -> Option<Request> {
    let blob = hex::decode(blob)?;
    Some(Request::Read { mode, blob })
}

fn finding(vecs: Vecs, place: &[u8], file: &[u8]) -> Option<Request> {
    let (place, file) = (decimal(place)?, hex::decode(file)?);
    Some(Request::Find { vecs, place, file })
}

/// The line of a request.
pub fn line(request: &Request) -> String {
    spelled(request, request.number().map(|number| number.to_string()))
}

/// The line of a request, whose number, if it has one, is spelled so: the word, the kind or the name of the
/// distance that `near` asks for, the number, the bytes.
pub fn spelled(request: &Request, number: Option<String>) -> String {
    let choice = match request {
        Request::Write { kind, .. } | Request::Convert { target: kind, .. } => {
            Some((*kind as u8).to_string())
        }
        Request::Nearer { measure, .. } => Some(measure.word().to_string()),
        _ => None,
    };
    let parts = request.parts().into_iter().map(|part| hex::encode(part));
    let word = request.word().to_string();
    let fields: Vec<String> = [Some(word), choice, number]
        .into_iter()
        .flatten()
        .chain(parts)
        .collect();
    fields.join("\t")
}

/// Truncation as `convert.rs` has it.
fn truncated(x: f32) -> u8 {
    (x as i32).clamp(0, 255) as u8
}

/// A reply as our programs print it, without the number of its line.
pub fn printed(reply: &Reply) -> String {
    match reply {
        Ok(Answer::Read(view)) => shown('V', view),
        Ok(Answer::Converted(view)) => shown('C', view),
        Ok(Answer::Written(blob)) => format!("W\t{}", hex::encode(blob)),
        Ok(Answer::Measured(measured)) => format!("D\t{:016x}", measured.bits),
        Ok(Answer::Nearer(nearer)) => {
            let (which, bits, readings) = (nearer.which, nearer.bits, nearer.readings);
            format!("N\t{which}\t{bits:016x}\t{readings}")
        }
        Ok(Answer::Found(Some(Shown { dims, body, next }))) => {
            format!("I\t{next}\t{dims}\t{}", hex::encode(body))
        }
        Ok(Answer::Found(None)) => "E".to_string(),
        Ok(Answer::Appended { fill, buffer }) => format!("A\t{fill}\t{}", hex::encode(buffer)),
        Ok(Answer::Panic(words)) => words.clone(),
        Err(refused) => refusal(refused),
    }
}

/// A vector's kind, dims and body, and its count of readings last.
fn shown(letter: char, view: &View) -> String {
    let (kind, dims, readings) = (view.kind as u8, view.dims, view.readings);
    let body = hex::encode(&view.body);
    format!("{letter}\t{kind}\t{dims}\t{body}\t{readings}")
}

/// A refusal's number, the blob that it names and what it carries.
fn refusal(Refused { refusal, blob }: &Refused) -> String {
    let blob = blob.map(|blob| blob.to_string());
    let carried = refusal.carried.map(|carried| carried.to_string());
    let fields = ["R".to_string(), refusal.number.to_string()];
    let fields: Vec<String> = fields.into_iter().chain(blob).chain(carried).collect();
    fields.join("\t")
}

fn measure(name: &[u8]) -> Option<Measure> {
    let mut measures = Measure::ALL.into_iter();
    measures.find(|measure| measure.word().as_bytes() == name)
}

fn kind(digits: &[u8]) -> Option<Kind> {
    Kind::ALL
        .into_iter()
        .find(|&kind| [b'0' + kind as u8] == digits)
}

/// The buffer of an `append` line, no longer than the longest blob.
fn buffer(digits: &[u8]) -> Option<Vec<u8>> {
    hex::decode(digits).filter(|buffer| buffer.len() <= MOST_LENGTH)
}

/// One to ten decimal digits.
fn decimal(digits: &[u8]) -> Option<usize> {
    let decimal = (1..=10).contains(&digits.len()) && digits.iter().all(u8::is_ascii_digit);
    decimal.then(|| {
        let digit = |&byte: &u8| usize::from(byte - b'0');
        digits
            .iter()
            .map(digit)
            .fold(0, |number, digit| 10 * number + digit)
    })
}

fn single(digits: &[u8]) -> Option<f32> {
    hex::pattern(digits).map(f32::from_be_bytes)
}

fn double(digits: &[u8]) -> Option<f64> {
    hex::pattern(digits).map(f64::from_be_bytes)
}

#[cfg(test)]
mod tests {
    use super::*;
    use crate::generate::random::Random;

    /// Asks lines in which `|` stands for a tab, each with its answer after ` = `.
    fn ask(program: Program, lines: &[&str]) {
        let mut oracle = Oracle::default();
        for line in lines {
            let (asked, expected) = line.split_once(" = ").expect("an answer");
            let answer = program.answer(asked.replace('|', "\t").as_bytes(), &mut oracle);
            assert_eq!(answer.replace('\t', "|"), expected, "{asked}");
            assert_eq!(oracle.take_findings(), [""; 0], "{asked}");
        }
    }

    #[test]
    fn a_line_asks_its_request() {
        let mut random = Random::new(1);
        let requests = std::iter::repeat_with(|| random.request());
        let is_short = |request: &Request| request.parts().iter().all(|part| part.len() < 1_000);
        for request in requests.filter(is_short).take(20_000) {
            let line = line(&request);
            let fields: Vec<&[u8]> = line.as_bytes().split(|&byte| byte == b'\t').collect();
            let asked = match Program::of(&request) {
                Program::Vecdist => distance(&fields),
                Program::Vecprobe => probe(&fields),
            };
            assert_eq!(asked, Some(request));
        }
    }

    #[test]
    fn the_example_of_document_01() {
        let lines = [
            "cos|| = D|0000000000000000",
            "dot|aa0803|ab0803 = D|c018000000000000",
            "l2|aa0803|ab0803 = R|14|-",
            "cos|07|05 = R|3|a",
            "cos|0200000009|0200000009 = D|7ff8000000000000",
            "hello = X",
        ];
        ask(Program::Vecdist, &lines);
    }

    #[test]
    fn examples_on_each_side() {
        let float8 = |t: &str, answer: &str| format!("read|{:0<26}{t}04 = {answer}", "");
        let blobs = [
            "read| = V|1|0||0",
            "read|01 = V|1|0||0",
            "read|05 = R|2",
            "read|03 = R|4",
            "read|aa0803 = V|3|8|aa|8",
            "read|aa0703 = R|6",
            "read|aa1003 = R|7",
            "read|aa1103 = R|5",
            &float8("03", "V|4|1|000000000000000000000000|1"),
            &float8("04", "R|7"),
            &float8("05", "R|5"),
            "read|0000803f020000000200000009 = R|8|0",
        ];
        ask(Program::Vecprobe, &blobs);
        let distances = [
            "cos|aa0803|ab0803 = D|3ff0000000000000",
            "jac|aa0803|ab0803 = D|3fc9999999999998",
            "l2|0000000000000000|0000404000008040 = D|4014000000000000",
            "dot|0000803f00000000|000000000000803f = D|8000000000000000",
            "cos|050000000000000000000000000304|070000000000000000000000000304 \
             = D|7ff8000000000000",
        ];
        ask(Program::Vecdist, &distances);
    }

    #[test]
    fn every_request_of_vecprobe() {
        let lines = [
            "root|32|40800000 = F|40000000",
            "root|64|c010000000000000 = F|7ff8000000000000",
            "root|32|80000000 = F|80000000",
            "narrow|36a0000000000000 = F|00000001",
            "narrow|3690000000000000 = F|00000000",
            "widen|ff800001 = F|7ff8000000000000",
            "trunc|437fffff = F|ff",
            "trunc|c37fffff = F|00",
            "strict|ff0903 = R|11",
            "strict|7f0903 = V|3|7|7f|7",
            "strict|000080bf0000803f01000000000000000200000009 = R|10|1",
            "conv|4|00000000ffff7f7f = C|4|2|00ff00008080807b00000000|2",
            "conv|1|000080bf0000803f01000000010000000200000009 = C|1|2|000000000000803f|2",
            "write|3|8|aa = W|aa0803",
            "write|3|0| = R|16",
            "write|3|9|aa = R|7",
            "write|9|0000000002|0000803f01000000 = W|0000803f010000000200000009",
            "write|9|4294967298|0000803f01000000 = R|9",
            "near|l2||| = N|1|0000000000000000|0",
            "near|cos|aa0803|ab0803|aa0803 = N|2|0000000000000000|8",
            "near|l2|aa0803|ab0803|aa0903 = R|12|-",
            "near|cos|aa0803|07|05 = R|3|a",
            "near|jac|000803|000803|000803 = R|18|-",
        ];
        ask(Program::Vecprobe, &lines);
    }

    #[test]
    fn the_entry_that_is_wrong() {
        let wrong = "0000803f0000803f01000000050000000200000009";
        let distances = [
            format!("cos|{wrong}|0200000009 = R|8|a|1"),
            format!("cos|0200000009|{wrong} = R|8|b|1"),
            format!("jac|{wrong}|{wrong} = R|8|a|1"),
        ];
        ask(Program::Vecdist, &distances.each_ref().map(String::as_str));
        let lines = [
            format!("read|{wrong} = R|8|1"),
            format!("strict|{wrong} = R|8|1"),
            format!("conv|1|{wrong} = R|8|1"),
            format!("append|0||{wrong} = R|8|1"),
            format!("near|l2|{wrong}|0200000009|0200000009 = R|8|p|1"),
            format!("near|l2|0200000009|{wrong}|0200000009 = R|8|a|1"),
            format!("near|l2|0200000009|0200000009|{wrong} = R|8|b|1"),
            // both indices are out of range, and fall
            "strict|0000803f0000803f05000000020000000200000009 = R|8|0".to_string(),
            "write|9|2|0000803f0000803f0100000005000000 = R|8|1".to_string(),
            // dims 65,537, and an index as great
            "read|0000803f010001000100010009 = R|8|0".to_string(),
        ];
        ask(Program::Vecprobe, &lines.each_ref().map(String::as_str));
    }

    /// Strict order: the plain mode takes indices as they come.
    #[test]
    fn the_entry_that_does_not_rise() {
        let ones = |count: usize| "0000803f".repeat(count);
        let strict = |indices: &[u8], answer: &str| {
            let indices: String = indices.iter().map(|i| format!("{i:02x}000000")).collect();
            let count = indices.len() / 8;
            let blob = format!("{}{indices}0900000009", ones(count));
            let shown = format!("V|9|9|{}{indices}|{count}", ones(count));
            let answer = if answer == "V" { &shown } else { answer };
            [
                format!("read|{blob} = {shown}"),
                format!("strict|{blob} = {answer}"),
            ]
        };
        let lines = [
            strict(&[], "V"),
            strict(&[0], "V"),
            strict(&[0, 7, 8], "V"),
            strict(&[0, 0], "R|10|1"),
            strict(&[7, 7, 8], "R|10|1"),
            strict(&[7, 8, 8], "R|10|2"),
            strict(&[1, 7, 7, 8], "R|10|2"),
            strict(&[1, 7, 7, 0], "R|10|2"),
            strict(&[1, 7, 0, 0], "R|10|2"),
            strict(&[8, 7], "R|10|1"),
        ];
        let lines = lines.concat();
        let lines: Vec<&str> = lines.iter().map(String::as_str).collect();
        ask(Program::Vecprobe, &lines);
    }

    /// 60 at place 0 and 80 at place 2 of three.
    const TWO_READINGS: &str = "000070420000a04200000000020000000300000009";

    /// Two readings in the one place that there is.
    const ONE_PLACE: &str = "0000803f0000803f00000000000000000100000009";

    #[test]
    fn readings_of_a_blob() {
        let shown = "V|9|3|000070420000a0420000000002000000|2";
        let zeros = "000000000000008000000000020000000300000009";
        let lines = [
            format!("read|{TWO_READINGS} = {shown}"),
            format!("strict|{TWO_READINGS} = {shown}"),
            "read|0300000009 = V|9|3||0".to_string(),
            "strict|0300000009 = V|9|3||0".to_string(),
            format!("read|{ONE_PLACE} = V|9|1|0000803f0000803f0000000000000000|2"),
            format!("strict|{ONE_PLACE} = R|10|1"),
            // stored zeros count, of both signs
            format!("read|{zeros} = V|9|3|00000000000000800000000002000000|2"),
            format!("strict|{zeros} = V|9|3|00000000000000800000000002000000|2"),
        ];
        ask(Program::Vecprobe, &lines.each_ref().map(String::as_str));
    }

    #[test]
    fn readings_of_other_kinds_are_dims() {
        let zeros = |length: usize| "00".repeat(length);
        let lines = ["read", "strict"].map(|word| {
            [
                format!("{word}|{0} = V|1|3|{0}|3", zeros(12)),
                format!("{word}|{0}01 = V|1|3|{0}|3", zeros(12)),
                format!("{word}|{0}02 = V|2|3|{0}|3", zeros(24)),
                format!("{word}|000d03 = V|3|3|00|3"),
                format!("{word}|0000001d03 = V|3|3|00|3"),
                format!("{word}|{0}000104 = V|4|3|{0}|3", zeros(12)),
            ]
        });
        let lines = lines.concat();
        let lines: Vec<&str> = lines.iter().map(String::as_str).collect();
        ask(Program::Vecprobe, &lines);
    }

    #[test]
    fn readings_of_a_conversion_from_sparse() {
        let lines = [
            format!("conv|1|{TWO_READINGS} = C|1|3|00007042000000000000a042|3"),
            format!(
                "conv|2|{TWO_READINGS} = C|2|3|0000000000004e4000000000000000000000000000005440|3"
            ),
            format!("conv|3|{TWO_READINGS} = C|3|3|05|3"),
            format!("conv|4|{TWO_READINGS} = C|4|3|bf00ff00a1a0a03e00000000|3"),
            format!("conv|1|{ONE_PLACE} = C|1|1|0000803f|1"),
            "conv|1|0300000009 = C|1|3|000000000000000000000000|3".to_string(),
            "conv|3|0300000009 = C|3|3|00|3".to_string(),
            // of the same kind: all entries, with repeats and stored zeros
            format!("conv|9|{TWO_READINGS} = C|9|3|000070420000a0420000000002000000|2"),
            format!("conv|9|{ONE_PLACE} = C|9|1|0000803f0000803f0000000000000000|2"),
            "conv|9|0300000009 = C|9|3||0".to_string(),
            "conv|9|00000000010000000300000009 = C|9|3|0000000001000000|1".to_string(),
        ];
        ask(Program::Vecprobe, &lines.each_ref().map(String::as_str));
    }

    #[test]
    fn readings_of_a_conversion_to_sparse() {
        let lines = [
            // 60, 0, 80, -0: zeros of both signs are dropped
            "conv|9|00007042000000000000a04200000080 = C|9|4|000070420000a0420000000002000000|2",
            "conv|9|0000000000000080 = C|9|2||0",
            "conv|9|0000c07f = C|9|1|0000c07f00000000|1",
            "conv|9| = C|9|0||0",
            // 1, 0, -0 of Float64, and one that is 0 only as f32
            "conv|9|000000000000f03f0000000000000000000000000000008002 = C|9|3|0000803f00000000|1",
            "conv|9|26a6acaa04b6793302 = C|9|1|0000000000000000|1",
            // 0 and 5 of Float8
            "conv|9|000500000000803f00000000000204 = C|9|2|0000a04001000000|1",
            // 1-bit has no zero
            "conv|9|020e03 = C|9|2|000080bf0000803f0000000001000000|2",
        ];
        ask(Program::Vecprobe, &lines);
    }

    #[test]
    fn readings_of_other_conversions_are_dims() {
        let lines = [
            "conv|1|0000704200000000 = C|1|2|0000704200000000|2",
            "conv|2|0000000000000080 = C|2|2|00000000000000000000000000000080|2",
            "conv|3|0000000000000080 = C|3|2|00|2",
            "conv|4|0000000000000080 = C|4|2|000000000000000000000000|2",
            "conv|1|000000000000f03f000000000000000002 = C|1|2|0000803f00000000|2",
            "conv|3|020e03 = C|3|2|02|2",
            "conv|1|020e03 = C|1|2|000080bf0000803f|2",
            "conv|2|000500000000803f00000000000204 = C|2|2|00000000000000000000000000001440|2",
            "conv|4|000500000000803f00000000000204 = C|4|2|000500000000803f00000000|2",
        ];
        ask(Program::Vecprobe, &lines);
    }

    /// A sparse blob of three places, with these values at these indices.
    fn sparse(entries: &[(u8, f32)]) -> String {
        let value = |(_, value): &(u8, f32)| hex::encode(&value.to_le_bytes());
        let index = |(index, _): &(u8, f32)| format!("{index:02x}000000");
        let values: String = entries.iter().map(value).collect();
        let indices: String = entries.iter().map(index).collect();
        format!("{values}{indices}0300000009")
    }

    #[test]
    fn readings_of_the_winner() {
        let none = sparse(&[]);
        let one = sparse(&[(0, 1.0)]);
        let two = sparse(&[(0, 1.0), (1, 1.0)]);
        let three = sparse(&[(0, 1.0), (1, 1.0), (2, 1.0)]);
        let zero = sparse(&[(0, 1.0), (2, 0.0)]);
        let nan = sparse(&[(0, f32::NAN)]);
        let far = "00004040000000000100000009";
        let lines = [
            format!("near|l2|{three}|{two}|{one} = N|1|3ff0000000000000|2"),
            format!("near|l2|{three}|{one}|{two} = N|2|3ff0000000000000|2"),
            format!("near|l2|{one}|{none}|{three} = N|1|3ff0000000000000|0"),
            format!("near|l2|{one}|{three}|{none} = N|2|3ff0000000000000|0"),
            format!("near|l2|{none}|{one}|{three} = N|1|3ff0000000000000|1"),
            format!("near|l2|{none}|{three}|{one} = N|2|3ff0000000000000|1"),
            // a tie gives the first, and its count
            format!("near|l2|{none}|{one}|{zero} = N|1|3ff0000000000000|1"),
            format!("near|l2|{none}|{zero}|{one} = N|1|3ff0000000000000|2"),
            // NaN loses
            format!("near|l2|{none}|{nan}|{zero} = N|2|3ff0000000000000|2"),
            format!("near|l2|{none}|{zero}|{nan} = N|1|3ff0000000000000|2"),
            // more readings than places
            format!("near|dot|{far}|0100000009|{ONE_PLACE} = N|2|c008000000000000|2"),
            // the other kinds have dims
            "near|l2|00000000|0000803f|00000040 = N|1|3ff0000000000000|1".to_string(),
            "near|dot|000e03|000e03|010e03 = N|1|c000000000000000|2".to_string(),
        ];
        ask(Program::Vecprobe, &lines.each_ref().map(String::as_str));
        let distance = format!("l2|{one}|{none} = D|3ff0000000000000");
        ask(Program::Vecdist, &[&distance]);
    }

    #[test]
    fn files_of_vectors() {
        let fvecs = "fvecs|{N}|01000000 0000803f 02000000 00000000 000000c0".replace(' ', "");
        let bvecs = "bvecs|{N}|03000000 00ff80 00000000 02000000 07".replace(' ', "");
        let at = |line: &str, place: &str, answer: &str| {
            let asked = line.replace("{N}", place);
            format!("{asked} = {answer}")
        };
        let lines = [
            "fvecs|0| = E",
            "fvecs|9999999999| = E",
            "fvecs|0|01 = R|19|0",
            "fvecs|0|0102 = R|19|0",
            "fvecs|0|010203 = R|19|0",
            "fvecs|0|01000000 = R|19|0",
            "fvecs|0|00000000 = I|4|0|",
            "fvecs|0|00000100 = R|19|0",
            "fvecs|0|01000100 = R|9",
            "fvecs|0|00000080 = R|9",
            "fvecs|0|ffffffff = R|9",
            "fvecs|0|ffffff = R|19|0",
            "fvecs|1|00ffffffff = R|9",
            &at(&fvecs, "0", "I|8|1|0000803f"),
            &at(&fvecs, "0000000008", "I|20|2|00000000000000c0"),
            &at(&fvecs, "20", "E"),
            &at(&fvecs, "21", "E"),
            &at(&fvecs, "4294967304", "E"),
            &at(&fvecs, "9999999999", "E"),
            &at(&fvecs, "4", "R|9"),
            &at(&fvecs, "12", "I|16|0|"),
            &at(&fvecs, "17", "R|19|17"),
            &at(&bvecs, "0", "I|7|3|0000000000007f4300000043"),
            &at(&bvecs, "7", "I|11|0|"),
            &at(&bvecs, "11", "R|19|11"),
            &at(&bvecs, "16", "E"),
            "bvecs|0| = E",
            "bvecs|0|00000080 = R|9",
        ];
        ask(Program::Vecprobe, &lines);
    }

    #[test]
    fn appends() {
        let lines = [
            "append|0|ffffffffffffffff|0000803f = A|8|010000000000803f",
            "append|0|ffffffffffffffff|0000803f01 = A|8|010000000000803f",
            "append|1|aaffffffffffffffffbb|0000803f = A|9|aa010000000000803fbb",
            "append|2|ffffffffffffffffff|0000803f = R|15|8",
            "append|8|ffffffffffffffff|0000803f = R|15|8",
            "append|9|ffffffffffffffff|0000803f = R|15|8",
            "append|9999999999|ffffffffffffffff|0000803f = R|15|8",
            "append|0||0000803f = R|15|8",
            "append|0|| = R|15|4",
            "append|0|ffffffff| = A|4|00000000",
            "append|0000000001|aaffffffff|01 = A|5|aa00000000",
            "append|0||05 = R|2",
            "append|0||0000 = R|7",
            "append|0||aa0803 = R|13",
            "append|0|ffffffffffffffff|0000000009 = R|13",
        ];
        ask(Program::Vecprobe, &lines);
    }

    #[test]
    fn the_longest_buffer() {
        let zeros = |length: usize| "00".repeat(length);
        for blob in ["", "05"] {
            let answer = if blob.is_empty() { "R|15|4" } else { "R|2" };
            let longest = format!("append|524293|{}|{blob} = {answer}", zeros(524_293));
            let longer = format!("append|524293|{}|{blob} = X", zeros(524_294));
            ask(Program::Vecprobe, &[&longest, &longer]);
        }
        let before = zeros(524_285);
        let asked = format!("append|524285|{before}ffffffffffffffff|0000803f");
        let answer = format!("A|524293|{before}010000000000803f");
        ask(Program::Vecprobe, &[&format!("{asked} = {answer}")]);
    }

    /// A file may be longer than a blob: only its line has a limit.
    #[test]
    fn the_longest_file() {
        let file = "00".repeat(549_993);
        for mode in ["fvecs", "bvecs"] {
            let longest = format!("{mode}|549988|{file}");
            assert_eq!(longest.len(), Program::Vecprobe.longest() - 1);
            let lines = [
                format!("{longest} = I|549992|0|"),
                format!("{mode}|549992|{file} = R|19|549992"),
                format!("{mode}|549993|{file} = E"),
                format!("{longest}00 = X"),
            ];
            ask(Program::Vecprobe, &lines.each_ref().map(String::as_str));
        }
    }

    #[test]
    fn lines_of_no_shape() {
        ask(
            Program::Vecdist,
            &[
                " = X",
                "cos| = X",
                "cos|07|zz = X",
                "cos|0|00 = X",
                "COS|| = X",
                "cos||| = X",
                "cos||\r = X",
            ],
        );
        ask(
            Program::Vecprobe,
            &[
                "root|16|0000 = X",
                "root|32|0000000 = X",
                "root|32|00000000000000ff = X",
                "narrow|0000000A00000000 = X",
                "conv|5| = X",
                "conv|01| = X",
                "write|1|| = X",
                "write|1|+0| = X",
                "write|1|00000000000| = X",
                "fvecs|0 = X",
                "fvecs|0|| = X",
                "fvecs|| = X",
                "fvecs|00000000000| = X",
                "fvecs|-1| = X",
                "fvecs|1f| = X",
                "fvecs|0|0 = X",
                "fvecs|0|0G = X",
                "fvecs|0|0A = X",
                "bvecs| = X",
                "bvecs|+0| = X",
                "bvecs|0|000 = X",
                "ivecs|0| = X",
                "append|0| = X",
                "append|0||| = X",
                "append||| = X",
                "append|12345678901|| = X",
                "append|0x|| = X",
                "append|0|0| = X",
                "append|0||0 = X",
                "append|0|FF| = X",
                "append|0||FF = X",
            ],
        );
    }

    #[test]
    fn the_longest_line() {
        let float8 = format!("{:0<16380}04", "");
        let longest = format!("l2|{float8}|{float8}");
        assert_eq!(longest.len(), Program::Vecdist.longest());
        ask(
            Program::Vecdist,
            &[&format!("{longest} = D|0000000000000000")],
        );
        ask(
            Program::Vecdist,
            &[&format!("{} = X", longest.replace("l2", "cos"))],
        );
    }
}
