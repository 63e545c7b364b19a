//! What a test has met, by name, and what it should have met.

use std::collections::BTreeMap;

#[derive(Default)]
pub struct Coverage {
    counts: BTreeMap<String, u64>,
}

impl Coverage {
    pub fn met(&mut self, name: &str) {
        match self.counts.get_mut(name) {
            Some(count) => *count += 1,
            None => {
                self.counts.insert(name.to_string(), 1);
            }
        }
    }

    pub fn print(&self) {
        for (name, count) in &self.counts {
            println!("{count:>9}  {name}");
        }
    }

    /// Says where something was met too rarely; true where it was not.
    pub fn has_at_least(&self, count: u64, name: &str) -> bool {
        let met = self.counts.get(name).copied().unwrap_or(0);
        if met < count {
            println!("met {met} times, not {count}: {name}");
        }
        met >= count
    }

    /// Says what was never met; true where nothing is missing.
    pub fn has_all<'a>(&self, wanted: impl IntoIterator<Item = &'a str>) -> bool {
        let mut complete = true;
        for name in wanted {
            if !self.counts.contains_key(name) {
                println!("never met: {name}");
                complete = false;
            }
        }
        complete
    }
}
