//! Whether a printed cost has guards in it.
use crate::records::{is_of, links, records_of, word, GUARDED_LINK, STEP};

/// Whether a guarded switch is operated by the plan that is printed, or by the submitted one that is called valid.
pub fn is_charged(input: &[u8], text: &[u8]) -> bool {
    let text = String::from_utf8_lossy(text);
    let links = links(input);
    let is_guarded = |link: usize| links.get(link).is_some_and(|record| is_of(input, record.start, GUARDED_LINK));
    match text.split(' ').next() {
        Some("PLAN") => text.lines().filter_map(operated).any(is_guarded),
        Some("VALID") => {
            let steps = records_of(input, STEP);
            steps.iter().any(|step| is_guarded(word(input, step.start + 4) as usize))
        }
        _ => false,
    }
}

/// The link of a printed step.
fn operated(line: &str) -> Option<usize> {
    let link = line.strip_prefix("OPEN ").or(line.strip_prefix("CLOSE "))?;
    link.parse().ok()
}
