//! Where two printed texts part.

pub struct Parting {
    /// Counted from 0.
    pub line: usize,
    ours: String,
    theirs: String,
}

pub fn parting(ours: &[u8], theirs: &[u8]) -> Option<Parting> {
    if ours == theirs {
        return None;
    }
    let (ours, theirs) = (String::from_utf8_lossy(ours), String::from_utf8_lossy(theirs));
    let line = ours.split('\n').zip(theirs.split('\n')).take_while(|(ours, theirs)| ours == theirs).count();
    let at = |text: &str| text.split('\n').nth(line).unwrap_or("").to_string();
    Some(Parting { line, ours: at(&ours), theirs: at(&theirs) })
}

impl Parting {
    pub fn print(&self) {
        println!("line {} of the output", self.line + 1);
        println!("    oracle: {}", self.ours);
        println!("    other:  {}", self.theirs);
    }
}
