//! How often each answer came.

/// By the answer's number.
#[derive(Clone, Copy, Default)]
pub struct Answers([usize; 20]);

impl Answers {
    pub fn add(&mut self, no: u8) {
        self.0[usize::from(no)] += 1;
    }

    fn all(&self) -> usize {
        self.0.iter().sum()
    }

    /// Accepted and each number in turn; one that never came is an error.
    pub fn print(&self, what: &str, numbers: &[usize]) -> Result<(), String> {
        let counts: Vec<String> = numbers.iter().map(|no| format!("{} no {no}", self.0[*no])).collect();
        println!("  {what}: {} calls, {} accepted, {}", self.all(), self.0[0], counts.join(", "));
        match numbers.iter().chain([&0]).find(|no| self.0[**no] == 0) {
            Some(no) => Err(format!("{what}: the answer {no} never came")),
            None => Ok(()),
        }
    }
}

/// How many there were of each kind, and how many of these got a number.
pub fn print_kinds(what: &str, kinds: &[Answers], name: fn(usize) -> &'static str, no: usize) {
    println!("  {what}, how many of each kind and how many of them got {no}:");
    for (kind, answers) in kinds.iter().enumerate() {
        println!("    {:36} {:7} {:7}", name(kind), answers.all(), answers.0[no]);
    }
}
