//! Tables of misses, as plain text and as Markdown.

use crate::results::{Results, CORES, LOADS, ONE};

/// Rows of fields; the first row has the headings.
pub struct Table(Vec<Vec<String>>);

impl Table {
    /// Misses by load, for all numbers of cores together.
    pub fn by_load(results: &Results) -> Table {
        let mut rows = vec![headings(&["load", "jobs"], &results.players)];
        for (load, percent) in LOADS.iter().enumerate() {
            let mut row = vec![format!("{percent} %")];
            row.push(grouped(results.at_load(load, 0).jobs));
            let misses = |player| grouped(results.at_load(load, player).misses);
            row.extend((0..results.players.len()).map(misses));
            rows.push(row);
        }
        Table(rows)
    }

    /// Misses by load and number of cores, with what version one had no room for.
    pub fn by_cores(results: &Results) -> Table {
        let mut rows = vec![headings(&["load", "cores", "jobs"], &results.players)];
        rows[0].push("jobs without room in version one".to_string());
        for place in 0..LOADS.len() * CORES.len() {
            let (load, cores) = (place / CORES.len(), place % CORES.len());
            let one = results.at(load, cores, ONE);
            let mut row = vec![format!("{} %", LOADS[load]), CORES[cores].to_string()];
            row.push(grouped(one.jobs));
            let misses = |player| grouped(results.at(load, cores, player).misses);
            row.extend((0..results.players.len()).map(misses));
            row.push(grouped(one.without_room));
            rows.push(row);
        }
        Table(rows)
    }

    /// Fields at the right edge of columns as wide as need be.
    pub fn plain(&self) -> String {
        let width = |column: usize| self.0.iter().map(|row| row[column].len()).max();
        let mut text = String::new();
        for row in &self.0 {
            let line: Vec<String> = row
                .iter()
                .enumerate()
                .map(|(column, field)| format!("{field:>0$}", width(column).unwrap_or(0)))
                .collect();
            text += &(line.join("  ") + "\n");
        }
        text
    }

    pub fn markdown(&self) -> String {
        let mut lines: Vec<String> = self.0.iter().map(|row| bars(row)).collect();
        lines.insert(1, bars(&vec!["--:".to_string(); self.0[0].len()]));
        lines.concat()
    }
}

fn headings(first: &[&str], players: &[&str]) -> Vec<String> {
    let all = first.iter().chain(players);
    all.map(|heading| heading.to_string()).collect()
}

fn bars(fields: &[String]) -> String {
    format!("| {} |\n", fields.join(" | "))
}

/// 12345 as 12,345.
pub fn grouped(number: usize) -> String {
    match number {
        0..1_000 => number.to_string(),
        _ => format!("{},{:03}", grouped(number / 1_000), number % 1_000),
    }
}

#[cfg(test)]
mod tests {
    use super::grouped;

    #[test]
    fn thousands_are_grouped() {
        assert_eq!(grouped(0), "0");
        assert_eq!(grouped(999), "999");
        assert_eq!(grouped(1_000), "1,000");
        assert_eq!(grouped(1_020_003), "1,020,003");
    }
}
