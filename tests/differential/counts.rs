//! Counts with their names: what was met of one function, and what should have been met but never was; and what was compared.

pub trait Counts {
    /// What is counted, in a word or two.
    const OF: &'static str;
    /// The line above the counts.
    const TITLE: &'static str;

    /// The counts with their names; each must be met.
    fn named(&self) -> Vec<(String, u64)>;

    fn missing(&self) -> impl Iterator<Item = String> {
        let named = self.named().into_iter();
        named
            .filter(|(_, count)| *count == 0)
            .map(|(name, _)| format!("{}: {name}", Self::OF))
    }

    fn print(&self) {
        println!("{}:", Self::TITLE);
        for (name, count) in self.named() {
            println!("{count:>10}  {name}");
        }
    }
}

/// Comparisons by name: how often each was made, and how often it differed.
pub fn print_compared(title: &str, names: &[&str], made: &[u64], different: &[u64]) {
    println!("{title}:");
    for ((name, made), different) in names.iter().zip(made).zip(different) {
        println!("{made:>10}  {name}, {different} with a difference");
    }
}
