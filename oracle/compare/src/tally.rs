//! What the images showed: how often each code stood first in its pass and anywhere in a list,
//! how often each pass accepted, how often each refusal was given. A comparison that never saw a
//! rule at work has compared nothing, so too few of anything is a failure.

use generate::CODES;
use reference::Pass;
use std::fmt::Write;

#[derive(Default)]
pub struct Tally {
    admitted: u64,
    refused: u64,
    refusals: [u64; 9],
    accepted: [u64; 3],
    first: Vec<u64>,
    listed: Vec<u64>,
    longest: usize,
}

impl Tally {
    pub fn new() -> Tally {
        Tally { first: vec![0; 64], listed: vec![0; 64], ..Tally::default() }
    }

    pub fn refused(&mut self, refusal: u8) {
        self.refused += 1;
        self.refusals[refusal as usize] += 1;
    }

    /// An image that was admitted: the code of each pass's verdict, and all codes of the list.
    pub fn admitted(&mut self, verdicts: [u16; 3], listed: &[u16]) {
        self.admitted += 1;
        self.longest = self.longest.max(listed.len());
        for (pass, code) in verdicts.into_iter().enumerate() {
            match code {
                0 => self.accepted[pass] += 1,
                code => self.first[usize::from(code)] += 1,
            }
        }
        for code in listed {
            self.listed[usize::from(*code)] += 1;
        }
    }

    /// What the comparison has to print: the table, or what came too seldom.
    pub fn finish(&self) -> Result<String, String> {
        outcome(self.table(), self.wanted())
    }

    /// A code as the first of its pass once in 500 admitted images, an acceptance once in 10, a
    /// refusal once in 200 refused images.
    fn wanted(&self) -> Vec<Wanted> {
        let mut wanted = Vec::new();
        let mut want = |what: String, count: u64, least: u64| wanted.push((what, count, least));
        for code in CODES {
            let count = self.first[code as usize];
            want(format!("code {code} as the first of its pass"), count, self.admitted / 500);
        }
        for pass in Pass::ALL {
            let count = self.accepted[pass as usize];
            want(format!("{} accepts", pass.word()), count, self.admitted / 10);
        }
        for refusal in 1..=8 {
            want(format!("refusal {refusal}"), self.refusals[refusal], self.refused / 200);
        }
        wanted
    }

    /// The table that is printed.
    fn table(&self) -> String {
        let mut out = String::new();
        let mut line = |text: String| writeln!(out, "{text}").expect("a String takes any text");
        line(format!("admitted {}, refused {}", self.admitted, self.refused));
        for pass in Pass::ALL {
            line(format!("{} accepts {}", pass.word(), self.accepted[pass as usize]));
        }
        line("code      first     listed".to_string());
        for code in CODES {
            let (first, listed) = (self.first[code as usize], self.listed[code as usize]);
            line(format!("{code:>4} {first:>10} {listed:>10}"));
        }
        let refusals: Vec<String> = (1..=8).map(|r| format!("{r}: {}", self.refusals[r])).collect();
        line(format!("refusals {}", refusals.join(", ")));
        line(format!("longest list {}", self.longest));
        out
    }
}

/// What a comparison must have met, how often it came, and how often it is wanted at the least.
pub type Wanted = (String, u64, u64);

/// What a comparison that met no mismatch has to print: what it saw, or what of it came too seldom.
pub fn outcome(seen: String, wanted: impl IntoIterator<Item = Wanted>) -> Result<String, String> {
    let too_few = |(what, count, least): Wanted| {
        let least = least.max(1);
        (count < least).then(|| format!("{what}: {count}, and {least} are wanted"))
    };
    let few: Vec<String> = wanted.into_iter().filter_map(too_few).collect();
    if few.is_empty() {
        Ok(format!("{seen}no mismatch\n"))
    } else {
        Err(format!("{seen}too few:\n{}\n", few.join("\n")))
    }
}
