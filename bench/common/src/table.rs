//! Tables of what is proved beside plain Rust.

/// Prints the head of a table, whose first column is named so.
pub fn print_head(unit: &str) {
    println!("| {unit} | proved | plain Rust | ratio |");
    println!("|---|---:|---:|---:|");
}

/// Prints a row: what the proved one takes, and the plain one.
pub fn print_row(name: &str, [proved, plain]: [f64; 2]) {
    let ratio = proved / plain;
    println!("| {name} | {proved:.0} | {plain:.0} | {ratio:.2} |");
}

fn median(values: impl Iterator<Item = f64>) -> f64 {
    let mut values: Vec<_> = values.collect();
    values.sort_by(f64::total_cmp);
    values[values.len() / 2]
}

/// Timings: of the proved one and, right behind, of the plain one.
pub struct Pairs(Vec<[f64; 2]>);

impl Pairs {
    /// Room for so many.
    pub fn with_capacity(timings: usize) -> Pairs {
        Pairs(Vec::with_capacity(timings))
    }

    pub fn push(&mut self, pair: [f64; 2]) {
        self.0.push(pair);
    }

    /// Prints the medians in a row; the ratio is that of the ratios of neighbouring timings.
    pub fn print(&self, name: &str) {
        let [proved, plain] = [0, 1].map(|which| median(self.0.iter().map(|pair| pair[which])));
        let ratio = median(self.0.iter().map(|[proved, plain]| proved / plain));
        println!("| {name} | {proved:.1} | {plain:.1} | {ratio:.2} |");
    }
}
