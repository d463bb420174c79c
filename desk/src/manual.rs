//! The sheet's manual, as it stands in `docs`.

/// The page.
pub const MANUAL: &str = include_str!("../../docs/SHEET.md");

/// What the manual says of a refusal.
pub fn section(number: u32) -> Option<&'static str> {
    let head = format!("### {number}: ");
    let from = MANUAL.find(&head)?;
    let section = &MANUAL[from + "### ".len()..];
    let end = section.find("\n#").unwrap_or(section.len());
    Some(section[..end].trim_end())
}

/// A section for a terminal: the sheets are set in, and marks are left out.
pub fn plain(section: &str) -> String {
    let mut shown = String::new();
    let mut inside = false;
    for line in section.lines() {
        if line.starts_with("```") {
            inside = !inside;
        } else if inside {
            shown += "    ";
            shown += line;
            shown += "\n";
        } else {
            shown += &line.replace("**", "");
            shown += "\n";
        }
    }
    shown
}
