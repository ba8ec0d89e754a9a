//! Lines of a table: a name, figures, the times, and after each time but the first the ratio of the first to it.

use crate::contenders::Times;

pub fn heading(title: &str, figures: &[&str], unit: &str) {
    names(title, figures, &format!(" {:>14} {:>6}", "fast", "ratio"));
    let pad = 44 + 13 * figures.len();
    println!("{:<pad$} {unit:>14} {unit:>14} {:>6} {unit:>14}", "", "");
}

/// Where the fast contender has no part.
pub fn heading_of_two(title: &str, figures: &[&str], unit: &str) {
    names(title, figures, "");
    let pad = 44 + 13 * figures.len();
    println!("{:<pad$} {unit:>14} {unit:>14}", "");
}

fn names(title: &str, figures: &[&str], more: &str) {
    println!("\n{title}");
    let mut line = format!("{:<44}", "");
    for figure in figures {
        line += &format!(" {figure:>12}");
    }
    println!(
        "{line} {:>14} {:>14} {:>6}{more}",
        "proved", "Rust", "ratio"
    );
}

pub fn line(name: &str, figures: &[f64], times: Times) {
    let mut line = format!("{name:<44}");
    for figure in figures {
        line += &format!(" {figure:>12.0}");
    }
    line += &format!(" {:>14.2}", times.proved);
    line += &beside(times.proved, times.independent);
    if let Some(fast) = times.fast {
        line += &beside(times.proved, fast);
    }
    println!("{line}");
}

/// A time and the ratio of the proved reader's to it.
fn beside(proved: f64, time: f64) -> String {
    let ratio = proved / time;
    format!(" {time:>14.2} {ratio:>6.2}")
}
