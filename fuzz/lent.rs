//! Memory that is lent, with guards before and behind it.

const GUARD: u64 = 0xfeed_5afe_0dd5_eed5;
const GUARDS: usize = 16;

pub struct Lent {
    memory: Vec<u64>,
}

impl Lent {
    pub fn of(words: &[u64]) -> Lent {
        let mut memory = Vec::with_capacity(words.len() + 2 * GUARDS);
        memory.extend([GUARD; GUARDS]);
        memory.extend(words);
        memory.extend([GUARD; GUARDS]);
        Lent { memory }
    }

    fn length(&self) -> usize {
        self.memory.len() - 2 * GUARDS
    }

    pub fn words(&self) -> &[u64] {
        &self.memory[GUARDS..GUARDS + self.length()]
    }

    /// What C is passed: where it begins, and how many numbers it has.
    pub fn part(&mut self) -> (*mut u64, usize) {
        let length = self.length();
        (self.memory[GUARDS..].as_mut_ptr(), length)
    }

    pub fn is_guarded(&self) -> bool {
        let behind = &self.memory[GUARDS + self.length()..];
        self.memory[..GUARDS].iter().chain(behind).all(|word| *word == GUARD)
    }
}
