//! Counts the answers that a test saw, so that one that tested too little fails.

use crate::second::Answer;

/// How many answers of each kind were seen.
#[derive(Default)]
pub struct Seen {
    pub inputs: usize,
    pub yes: usize,
    pub no: usize,
    pub refused: [usize; 14],
}

impl Seen {
    pub fn count(&mut self, answer: Answer) {
        self.inputs += 1;
        match answer {
            Answer::Yes => self.yes += 1,
            Answer::No(_) => self.no += 1,
            Answer::Refused(number, _) => self.refused[number as usize] += 1,
        }
    }

    /// Fails if some answer was rarely seen, so that the test tested too little.
    pub fn must_include(&self, refusals: &[usize], inputs: usize) {
        println!(
            "{} inputs: {} yes, {} no, refused by number {:?}",
            self.inputs,
            self.yes,
            self.no,
            &self.refused[1..]
        );
        assert!(self.inputs >= inputs, "only {} inputs", self.inputs);
        assert!(self.yes >= inputs / 20, "only {} yes", self.yes);
        assert!(self.no >= inputs / 20, "only {} no", self.no);
        for &refusal in refusals {
            let times = self.refused[refusal];
            assert!(times >= 100, "refusal {refusal} seen only {times} times");
        }
    }
}
