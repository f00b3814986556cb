//! What a check finds wrong.
use std::fmt;

/// A slip: the document, the line (from 1), and what is wrong there.
#[derive(Debug, Clone, PartialEq, Eq)]
pub struct Finding {
    pub document: String,
    pub line: usize,
    pub what: String,
}

impl Finding {
    pub fn new(document: &str, line: usize, what: impl Into<String>) -> Finding {
        Finding {
            document: document.to_string(),
            line,
            what: what.into(),
        }
    }
}

impl fmt::Display for Finding {
    fn fmt(&self, f: &mut fmt::Formatter) -> fmt::Result {
        write!(f, "{}:{}: {}", self.document, self.line, self.what)
    }
}

/// All findings, a line each: what a failed test says.
pub fn told(findings: &[Finding]) -> String {
    findings.iter().map(|finding| format!("\n{finding}")).collect()
}
