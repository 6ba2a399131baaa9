//! What the uptime program of `../examples` has to print, from the drawing as a tree: the labels of all objects, and the lines of a list of hours.

use crate::list;
use crate::read;

/// The lines for a plan and a list, and the exit status; no lines for a plan that is refused.
pub fn lines(file: &[u8], listed: &str, period: f64) -> (String, u8) {
    let Ok(drawing) = read::drawing(file) else {
        return (String::new(), 2);
    };
    let mut labels: Vec<String> = Vec::new();
    for object in list::opened(&drawing) {
        let label = String::from_utf16_lossy(object.description);
        if !label.is_empty() && !labels.contains(&label) {
            labels.push(label);
        }
    }
    // A label whose hours are no number, but a dash, is no tool.
    let hours: Vec<(&str, Option<f64>)> = listed
        .lines()
        .skip(1)
        .filter_map(|line| line.rsplit_once(','))
        .map(|(label, hours)| (label, hours.parse().ok()))
        .collect();
    let of = |label: &str| hours.iter().find(|(own, _)| *own == label);
    let unlisted: Vec<&String> = labels.iter().filter(|label| of(label).is_none()).collect();
    let unplaced: Vec<&str> =
        hours.iter().map(|(label, _)| *label).filter(|label| labels.iter().all(|own| own != label)).collect();
    // A label that is not in the list may be a tool: it counts as one that did not run.
    let run: Vec<f64> = labels.iter().filter_map(|label| of(label).map_or(Some(0.0), |(_, hours)| *hours)).collect();
    let (tools, all) = (run.len(), labels.len());
    let mut lines = if tools == 0 {
        "no figure: no label of the plan is a tool\n".to_string()
    } else {
        let percent = 100.0 * run.iter().sum::<f64>() / (tools as f64 * period);
        let (bound, not_run) = match unlisted.len() {
            0 => ("", String::new()),
            count => ("at least ", format!("; not in the list, so counted as not run: {count}")),
        };
        let others = match unplaced.len() {
            0 => String::new(),
            count => format!("; labels of the list that are not on the plan: {count}"),
        };
        let no_tools = all - tools;
        format!(
            "uptime {bound}{percent:.1} % over the {tools} tools of the plan in {period} hours \
             (labels that are no tools: {no_tools}{not_run}{others})\n"
        )
    };
    for label in &unlisted {
        lines += &format!("on the plan, not in the list: {label}\n");
    }
    for label in &unplaced {
        lines += &format!("in the list, not on the plan: {label}\n");
    }
    (lines, u8::from(!unlisted.is_empty() || !unplaced.is_empty()))
}
