//! The proved operations against plain Rust on the same pools, in one run: times as ratios, medians over seeds. Prints a table, and
//! writes it with a plot to target/bench/.

mod clock;
mod houses;
mod measures;
mod report;
mod sessions;
mod terms;

fn main() -> std::io::Result<()> {
    let seeds: Vec<u64> = (1..=5).collect();
    let mut lines = vec![];
    lines.extend(measures::working(&seeds));
    lines.extend(measures::sheets(&seeds));
    lines.extend(measures::search(&seeds));
    lines.extend(measures::ceiling(&seeds));
    lines.extend(measures::collapse(&seeds));
    lines.extend(terms::first_day(&seeds));
    lines.extend(sessions::anchoring(&seeds));
    lines.extend(sessions::events(&seeds));
    lines.extend(measures::rounds(&seeds));
    lines.extend(houses::share_rounds(&seeds));
    let table = report::table(&lines, seeds.len());
    print!("{table}");
    report::write(&table, &report::plot(&lines))
}
