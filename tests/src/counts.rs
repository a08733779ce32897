// How often each answer came up: of reading, and of restating to each target.

use crate::questions::{Outcome, Question};

/// Counts for each answer from 0 to 19.
#[derive(Default)]
pub struct Counts([[u64; 3]; 20]);

impl Counts {
    /// Counts an answer, if it is one of reading or restating.
    pub fn add(&mut self, question: &Question, outcome: &Outcome) {
        let column = match question {
            Question::Read { .. } => 0,
            Question::Restate { target: 103, .. } => 1,
            Question::Restate { target: 104, .. } => 2,
            _ => return,
        };
        self.0[outcome.answer[0] as usize][column] += 1;
    }

    /// Prints all counts.
    pub fn print(&self) {
        println!("answer     read  to 1.3.1  to 1.4.1");
        for (number, [read, old, new]) in self.0.iter().enumerate() {
            println!("{number:6} {read:8} {old:9} {new:9}");
        }
    }
}
