//! The table and its JSON.

use std::fmt::Write;

use crate::programs::{PROVED, SECOND};
use crate::timing::Cell;
use crate::work::{
    EDIT_OF_IMPORT, FROM_UTF8, IMPORT, IMPORT_OF_1_MB, IMPORT_OF_500_KB, MEMCPY, MEMSET, ONE_OF_128,
    ONE_OF_256, ONE_OF_256_ON_64_SLOTS, PLAIN, TAKE_LAST_OF_32, TAKE_LAST_OF_64,
};

const PROGRAMS: [&str; 2] = [PROVED, SECOND];

/// What is told of each row: nanoseconds and ratios, by their heads in the table and in JSON.
const COLUMNS: [(&str, &str); 7] = [
    (PROVED, PROVED),
    (SECOND, SECOND),
    ("p/second", "proved / second"),
    ("p/memset", "proved / memset"),
    ("p/memcpy", "proved / memcpy"),
    ("s/memset", "second / memset"),
    ("s/memcpy", "second / memcpy"),
];

/// Rows of which the first should not take much more than the second: more slots, an import and its edit; or twice as
/// much, of twice the records, bytes or slots to look at; and an import beside the least that can be asked of its text.
const GROWTHS: [(&str, &str); 6] = [
    (ONE_OF_256_ON_64_SLOTS, ONE_OF_256),
    (ONE_OF_256, ONE_OF_128),
    (IMPORT, EDIT_OF_IMPORT),
    (IMPORT, FROM_UTF8),
    (IMPORT_OF_1_MB, IMPORT_OF_500_KB),
    (TAKE_LAST_OF_64, TAKE_LAST_OF_32),
];

/// What is not a call.
const YARDSTICKS: [&str; 3] = [MEMSET, MEMCPY, FROM_UTF8];

/// Medians by row and column.
pub struct Report {
    /// In the order in which they were first timed.
    rows: Vec<&'static str>,
    medians: Vec<(&'static str, &'static str, f64)>,
}

impl Report {
    pub fn new(cells: &[Cell]) -> Report {
        let mut rows = Vec::new();
        for cell in cells {
            if !rows.contains(&cell.row) {
                rows.push(cell.row);
            }
        }
        let medians = cells.iter().map(|cell| (cell.row, cell.column, cell.median())).collect();
        Report { rows, medians }
    }

    fn median(&self, row: &str, column: &str) -> Option<f64> {
        let cell = self.medians.iter().find(|(r, c, _)| *r == row && *c == column);
        cell.map(|(_, _, median)| *median)
    }

    /// Filling and copying a slot, and going through a leaflet.
    fn yardsticks(&self) -> [Option<f64>; 3] {
        YARDSTICKS.map(|row| self.median(row, PLAIN))
    }

    /// The rows of calls.
    fn calls(&self) -> impl Iterator<Item = &'static str> + '_ {
        self.rows.iter().copied().filter(|row| !YARDSTICKS.contains(row))
    }

    /// A row of calls, by the columns.
    fn row(&self, row: &str) -> [Option<f64>; 7] {
        let [memset, memcpy, _] = self.yardsticks();
        let [proved, second] = PROGRAMS.map(|column| self.median(row, column));
        [
            proved,
            second,
            ratio(proved, second),
            ratio(proved, memset),
            ratio(proved, memcpy),
            ratio(second, memset),
            ratio(second, memcpy),
        ]
    }

    /// How an edit of this program grows with slots and with records, an import over its edit, over `from_utf8` and
    /// with bytes, and a taking with slots.
    fn growths(&self, column: &str) -> [Option<f64>; 6] {
        GROWTHS.map(|(more, less)| {
            let less =
                if YARDSTICKS.contains(&less) { self.median(less, PLAIN) } else { self.median(less, column) };
            ratio(self.median(more, column), less)
        })
    }

    /// The rows, then how an edit, an import and a taking grow.
    pub fn table(&self) -> String {
        let [memset, memcpy, from_utf8] = self.yardsticks().map(number);
        let mut table =
            format!("{MEMSET}: {memset} ns, {MEMCPY}: {memcpy} ns, {FROM_UTF8}: {from_utf8} ns\n\n");
        let heads = COLUMNS.map(|(head, _)| head.to_string());
        let _ = writeln!(table, "{:<28}{}", "ns per call, median", columns(heads));
        for row in self.calls() {
            let _ = writeln!(table, "{row:<28}{}", columns(self.row(row).map(number)));
        }
        table.push('\n');
        for column in PROGRAMS {
            let [slots, records, import, utf8, bytes, take] = self.growths(column).map(number);
            let _ = writeln!(
                table,
                "{column}: an edit on 64 slots takes {slots} times one on 1, of 256 records {records} times one of 128"
            );
            let _ = writeln!(
                table,
                "{column}: an import of 256 records takes {import} times its edit, {utf8} times from_utf8 of its text, \
                 of 1 MB {bytes} times one of 500 KB"
            );
            let _ =
                writeln!(table, "{column}: a taking of the last of 64 slots takes {take} times one of 32");
        }
        table
    }

    /// The same as an object of objects: nanoseconds of the yardsticks, then of the calls with their
    /// ratios, then the growths of each program. What was not timed is null.
    pub fn json(&self) -> String {
        let [memset, memcpy, from_utf8] = self.yardsticks().map(json_number);
        let names = COLUMNS.map(|(_, name)| name);
        let calls = self.calls().map(|row| member(row, &one_line(&names, &self.row(row))));
        let names = GROWTHS.map(|(more, less)| format!("{more} / {less}"));
        let names = names.each_ref().map(String::as_str);
        let growths = PROGRAMS.map(|column| member(column, &one_line(&names, &self.growths(column))));
        let members = [
            member(MEMSET, &memset),
            member(MEMCPY, &memcpy),
            member(FROM_UTF8, &from_utf8),
            member("calls", &object("  ", calls)),
            member("growths", &object("  ", growths)),
        ];
        object("", members) + "\n"
    }
}

fn ratio(a: Option<f64>, b: Option<f64>) -> Option<f64> {
    Some(a? / b?)
}

fn columns(cells: [String; 7]) -> String {
    cells.map(|cell| format!("{cell:>10}")).concat()
}

fn number(value: Option<f64>) -> String {
    match value {
        None => "-".to_string(),
        Some(value) if value < 100.0 => format!("{value:.2}"),
        Some(value) => format!("{value:.0}"),
    }
}

fn json_number(value: Option<f64>) -> String {
    value.map_or("null".to_string(), |value| format!("{value:.3}"))
}

fn member(name: &str, value: &str) -> String {
    format!("\"{name}\": {value}")
}

/// An object of numbers on one line.
fn one_line(names: &[&str], values: &[Option<f64>]) -> String {
    let members = names.iter().zip(values).map(|(name, value)| member(name, &json_number(*value)));
    format!("{{{}}}", members.collect::<Vec<_>>().join(", "))
}

/// An object with a line for each member.
fn object(indent: &str, members: impl IntoIterator<Item = String>) -> String {
    let lines: Vec<String> = members.into_iter().map(|member| format!("{indent}  {member}")).collect();
    format!("{{\n{}\n{indent}}}", lines.join(",\n"))
}
