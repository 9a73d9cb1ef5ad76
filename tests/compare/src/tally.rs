//! How often each call gave each number, and each law held.

use std::collections::BTreeMap;

/// For each call or law, how often it gave each number; 0 stands for an answer.
#[derive(Default)]
pub struct Tally(BTreeMap<&'static str, BTreeMap<u8, usize>>);

impl Tally {
    pub fn note(&mut self, name: &'static str, number: u8) {
        *self.0.entry(name).or_default().entry(number).or_default() += 1;
    }

    /// A line a name: how many times, and each number of refusal with its times.
    pub fn print(&self) {
        for (name, numbers) in &self.0 {
            let total: usize = numbers.values().sum();
            let each = numbers.iter().map(|(number, times)| match number {
                0 => format!(", answered {times}"),
                _ => format!(", {number}: {times}"),
            });
            println!("{name}: {total} times{}", each.collect::<String>());
        }
    }

    /// The numbers that a call should have given by now and did not.
    pub fn missing(&self, name: &str, numbers: &[u8]) -> Vec<u8> {
        let given = |number: &u8| self.0.get(name).is_some_and(|n| n.contains_key(number));
        numbers.iter().copied().filter(|n| !given(n)).collect()
    }
}
