//! What was drawn, counted by the oracle's answers.

use crate::draw::Case;
use oracle::pitches::tied;

/// The cases' outputs come first, then those of the lists.
pub fn counted(cases: &[Case], outputs: &[Vec<u8>]) -> String {
    let (texts, lists) = outputs.split_at(cases.len());
    let is_refused = |output: &Vec<u8>| output.starts_with(b"text\nrefused=");
    let refused = texts.iter().filter(|output| is_refused(output)).count();
    let answered = cases.iter().zip(texts).filter(|(_, output)| !is_refused(output));
    let ties = answered.filter(|(case, _)| tied(case.master as u32, case.pitch as u32)).count();
    let said = |line: &[u8]| lists.iter().filter(|output| output.as_slice() == line).count();
    let (yes, no) = (said(b"lists=0 yes\n"), said(b"lists=0 no\n"));
    format!(
        "cases={} ties={ties} refused={refused} lists={} yes={yes} no={no} refused={}",
        cases.len(),
        lists.len(),
        lists.len() - yes - no
    )
}
