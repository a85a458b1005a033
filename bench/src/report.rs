//! The table that is printed, in Markdown.

use crate::families::Family;
use crate::multiples::{best, milliseconds, multiple, shown, sum};
use crate::timing::Times;
use crate::ways::{LIBRARY, SAME_METHOD, THREE_LOOPS, WAYS};

/// Some lists of a family: all, or those of one verdict.
pub struct Row<'a> {
    pub family: &'a Family,
    pub name: String,
    pub lists: Vec<Times>,
}

/// A row for a family, and one for each verdict where its lists have both.
pub fn rows<'a>(family: &'a Family, lists: &[(bool, Times)]) -> Vec<Row<'a>> {
    let of = |verdict: bool| -> Vec<Times> {
        let those = lists.iter().filter(|(holds, _)| *holds == verdict);
        those.map(|(_, times)| *times).collect()
    };
    let (yes, no) = (of(true), of(false));
    let all = [&yes[..], &no].concat();
    let parts = if yes.is_empty() || no.is_empty() {
        vec![("", all)]
    } else {
        vec![(", all", all), (", can hold", yes), (", can't", no)]
    };
    let row = |(part, lists)| Row {
        family,
        name: format!("{}{part}", family.name),
        lists,
    };
    parts.into_iter().map(row).collect()
}

pub fn print_head() {
    let columns = [
        "Variables",
        "Lines",
        "Lists",
        "Count",
        "Library, a list",
        "Same method",
        "Three loops",
        "Best plain way",
    ];
    println!("| {} |", columns.join(" | "));
    println!("|{}", "---|".repeat(columns.len()));
}

impl Row<'_> {
    pub fn print(&self) {
        let (sum, count) = (sum(&self.lists), self.lists.len());
        let best = best(&sum);
        println!(
            "| {} | {} | {} | {count} | {} | {} | {} | {} ({}) |",
            self.family.n,
            self.family.lists[0].len(),
            self.name,
            milliseconds(sum[LIBRARY] / count as f64),
            shown(multiple(&sum, SAME_METHOD)),
            shown(multiple(&sum, THREE_LOOPS)),
            shown(multiple(&sum, best)),
            WAYS[best].name,
        );
    }
}
