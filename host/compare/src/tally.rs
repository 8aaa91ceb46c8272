//! What came of a group's cases.

use std::fmt;

/// What a case was run on.
pub trait Input: fmt::Display {
    /// How much there is to read; the smallest input that failed is shown.
    fn size(&self) -> usize;
}

/// The refusal that core and law agree on, 0 where they agree on an answer; or how they differ.
pub type Verdict = Result<u32, String>;

struct Failure {
    size: usize,
    case: u64,
    input: String,
    why: String,
}

#[derive(Default)]
pub struct Tally {
    answers: [u64; 11],
    failed: u64,
    smallest: Option<Failure>,
}

impl Tally {
    pub fn note(&mut self, input: &impl Input, verdict: Verdict) {
        match verdict {
            Ok(number) => self.answers[number as usize] += 1,
            Err(why) => self.fail(input, why),
        }
    }

    fn fail(&mut self, input: &impl Input, why: String) {
        self.failed += 1;
        let size = input.size();
        if self.smallest.as_ref().is_none_or(|it| size < it.size) {
            self.smallest = Some(Failure {
                size,
                case: self.cases(),
                input: input.to_string(),
                why,
            });
        }
    }

    pub fn cases(&self) -> u64 {
        self.answers.iter().sum::<u64>() + self.failed
    }

    pub fn passed(&self) -> bool {
        self.failed == 0 && self.cases() > 0
    }
}

impl fmt::Display for Tally {
    fn fmt(&self, f: &mut fmt::Formatter<'_>) -> fmt::Result {
        write!(f, "{} cases", self.cases())?;
        write!(f, ", {} answered", self.answers[0])?;
        for (number, count) in self.answers.iter().enumerate().skip(1) {
            if *count > 0 {
                write!(f, ", {count} refused by {number}")?;
            }
        }
        if let Some(it) = &self.smallest {
            write!(
                f,
                ", {} FAILED; the smallest is case {}",
                self.failed, it.case
            )?;
            write!(f, "\n{}\n{}", it.input, it.why)?;
        }
        Ok(())
    }
}

#[cfg(test)]
mod tests {
    use super::*;

    impl Input for &str {
        fn size(&self) -> usize {
            self.len()
        }
    }

    #[test]
    fn the_smallest_failure_is_shown() {
        let mut tally = Tally::default();
        assert!(!tally.passed(), "a group of no cases shows nothing");
        tally.note(&"sound", Ok(0));
        tally.note(&"refused", Ok(8));
        assert!(tally.passed());
        tally.note(&"a longer input", Err("one".into()));
        tally.note(&"short", Err("two".into()));
        tally.note(&"longest of all inputs", Err("three".into()));
        assert!(!tally.passed());
        let shown = tally.to_string();
        assert!(shown.starts_with("5 cases, 1 answered, 1 refused by 8, 3 FAILED"));
        assert!(shown.ends_with("is case 4\nshort\ntwo"));
    }
}
