//! An answer to a question, from either side: numbers, the number of a refusal, or something that neither may be.

#[derive(Clone, Debug, PartialEq)]
pub enum Answer {
    Is(Vec<i64>),
    Refused(u32),
    /// A panic that no number stands for, or a list of the library that is not left as it must be.
    Odd(String),
}

impl Answer {
    /// Number i of an answer, as a count; 0 where there is none.
    pub fn count(&self, i: usize) -> usize {
        match self {
            Answer::Is(numbers) => numbers.get(i).map_or(0, |n| *n as usize),
            _ => 0,
        }
    }
}

impl std::fmt::Display for Answer {
    fn fmt(&self, f: &mut std::fmt::Formatter<'_>) -> std::fmt::Result {
        match self {
            Answer::Is(numbers) => {
                let text: Vec<String> = numbers.iter().map(|n| n.to_string()).collect();
                write!(f, "{}", text.join(" "))
            }
            Answer::Refused(number) => write!(f, "refused with {number}"),
            Answer::Odd(text) => write!(f, "{text}"),
        }
    }
}
