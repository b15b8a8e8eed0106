//! What the soak prints: how many requests of each word were compared, how they were answered, and a
//! difference.

use std::fmt::{self, Display, Formatter};

use super::{Case, Compared, Lent, Outcome};
use crate::hex;
use crate::lines::{self, Program};
use crate::request::{Answer, Reply, Request};
use crate::rules::Kind;

/// The greatest number of a refusal.
const MOST_REFUSALS: usize = 19;

/// How many requests were compared.
#[derive(Default)]
pub struct Tally {
    /// By the place of the word: answers and refusals.
    pub(super) words: [[u64; 2]; Request::WORDS.len()],
    /// By number.
    pub(super) refusals: [u64; MOST_REFUSALS + 1],
    /// Conversions that were answered, by the places of both kinds.
    pub(super) conversions: [[u64; Kind::ALL.len()]; Kind::ALL.len()],
}

impl Tally {
    pub fn add(&mut self, case: &Case, reply: &Reply) {
        let word = case.request.word();
        let at = Request::WORDS.iter().position(|&other| other == word);
        let [answers, refusals] = &mut self.words[at.expect("every word is listed")];
        match reply {
            Ok(_) => *answers += 1,
            Err(refused) => {
                *refusals += 1;
                self.refusals[usize::from(refused.refusal.number)] += 1;
            }
        }
        if let (Request::Convert { target, blob }, Ok(_)) = (&case.request, reply) {
            let from = Kind::of(blob).expect("an accepted blob has a kind");
            self.conversions[from.place()][target.place()] += 1;
        }
    }

    /// How many requests there were.
    pub fn requests(&self) -> u64 {
        self.words.iter().flatten().sum()
    }
}

impl Display for Tally {
    fn fmt(&self, f: &mut Formatter<'_>) -> fmt::Result {
        writeln!(
            f,
            "{:8}{:>12}{:>12}{:>12}",
            "", "requests", "answers", "refusals"
        )?;
        for (word, [answers, refusals]) in Request::WORDS.iter().zip(self.words) {
            let requests = answers + refusals;
            writeln!(f, "{word:8}{requests:>12}{answers:>12}{refusals:>12}")?;
        }
        let by_number = self.refusals.iter().enumerate().skip(1);
        let by_number: Vec<String> = by_number
            .map(|(number, count)| format!("{number}: {count}"))
            .collect();
        writeln!(f, "refusals by number: {}", by_number.join(", "))?;
        writeln!(
            f,
            "conversions answered, from the kind in front to the one above:"
        )?;
        let kinds: String = Kind::ALL.map(|kind| format!("{:>12}", kind as u8)).concat();
        writeln!(f, "{:8}{kinds}", "")?;
        for (kind, row) in Kind::ALL.iter().zip(self.conversions) {
            let row: String = row.map(|count| format!("{count:>12}")).concat();
            writeln!(f, "{:<8}{row}", *kind as u8)?;
        }
        Ok(())
    }
}

impl Compared {
    /// The line of the case and the program that answers it, what was lent, and both sides.
    pub fn report(&self, case: &Case) -> String {
        let Case { request, room } = case;
        let mut lines = vec![
            format!("a line of {}:", Program::of(request).name()),
            lines::line(request),
        ];
        if request.has_output() {
            let Lent { scratch, out } = &self.ours.lent;
            let (scratch, out, byte) = (scratch.len(), out.len(), room.byte);
            lines.push(format!(
                "lent: {scratch} bytes of scratch, {out} of output, each {byte:02x}"
            ));
        }
        lines.push(format!("oracle: {}", self.oracle));
        lines.push(format!("ours:   {}", self.ours));
        let findings = self.findings.iter();
        lines.extend(findings.map(|finding| format!("finding: {finding}")));
        lines.join("\n")
    }
}

impl Display for Outcome {
    fn fmt(&self, f: &mut Formatter<'_>) -> fmt::Result {
        write!(f, "{}", lines::printed(&self.reply))?;
        if let Ok(Answer::Measured(measured)) = &self.reply {
            let [first, second] = measured.readings;
            write!(f, ", {first} and {second} readings")?;
        }
        for (name, bytes) in [("scratch", &self.lent.scratch), ("output", &self.lent.out)] {
            if !bytes.is_empty() {
                write!(f, ", {name} {}", hex::encode(bytes))?;
            }
        }
        Ok(())
    }
}
