//! The text of a plan: a line for each group, its modulation, rate and slots. The library reads it; here stands what to say of
//! one that it refuses, and the lines of a plan.
use crate::failure::Failure;
use s3frame::{Group, Plan, Refusal, MOST_GROUPS};

/// The most octets that a plan's text may have.
pub const MOST_OCTETS: usize = 128;

/// The line about a text that is refused, in the file of this name.
pub fn refused(name: &str, text: &[u8], refusal: Refusal) -> Failure {
    match refusal {
        Refusal::Plan => Failure::refused(name, refusal, wrong_form(text)),
        _ => Failure::new(name, format!("{refusal}{}", lines_at_fault(text, refusal))),
    }
}

/// The number of the first line that is refused by this rule, together with those behind it, so many lines in all. The library
/// is asked: lines of a text are refused by the same rule as a text of their own.
fn first_refused(text: &[u8], count: usize, refusal: Refusal) -> Option<usize> {
    let lines: Vec<&[u8]> = text.split_inclusive(|octet| *octet == b'\n').collect();
    lines.windows(count).position(|lines| Plan::of_text(&lines.concat()) == Err(refusal)).map(|before| before + 1)
}

/// What is wrong with the form of a text.
fn wrong_form(text: &[u8]) -> String {
    if text.is_empty() {
        return "there are no lines".to_string();
    }
    if text.len() > MOST_OCTETS {
        return format!("the text has more than {MOST_OCTETS} octets");
    }
    let line_feeds = text.iter().filter(|octet| **octet == b'\n').count();
    match first_refused(text, 1, Refusal::Plan) {
        Some(line) if line > line_feeds => format!("line {line}: no line feed after it"),
        Some(line) => {
            format!("line {line}: not three numbers of 1 to 3 digits without leading zeros, one space between")
        }
        None => format!("there are more than {MOST_GROUPS} lines"),
    }
}

/// The first lines that break the rule which refuses a plan, in words behind the refusal; none where no line does so alone.
fn lines_at_fault(text: &[u8], refusal: Refusal) -> String {
    match refusal {
        Refusal::Value => first_refused(text, 1, refusal).map(|line| format!(" (line {line})")),
        Refusal::Order => first_refused(text, 2, refusal).map(|line| format!(" (lines {line} and {})", line + 1)),
        _ => None,
    }
    .unwrap_or_default()
}

/// The lines of a plan's text, without line feeds.
pub fn lines_of(plan: &Plan) -> Vec<String> {
    let line = |Group { modulation, rate, slots }: Group| format!("{} {} {slots}", modulation.number(), rate.number());
    plan.groups().map(line).collect()
}

#[cfg(test)]
mod tests {
    use super::*;

    /// What is said of a text that is refused so.
    fn said(text: &str, refusal: Refusal) -> String {
        assert_eq!(Plan::of_text(text.as_bytes()), Err(refusal), "{text:?}");
        refused("plan", text.as_bytes(), refusal).to_string()
    }

    #[test]
    fn a_plan_leads_back_to_its_lines() {
        let plan = Plan::of_text(b"5 11 100\n2 3 20\n").expect("a plan");
        assert_eq!(lines_of(&plan), ["5 11 100", "2 3 20"]);
    }

    #[test]
    fn the_lines_that_break_a_rule_are_named() {
        for (text, refusal, lines) in [
            ("4 7 100\n3 7 15\n3 12 5\n", Refusal::Value, " (line 3)"),
            ("4 7 116\n2 3 4\n", Refusal::Value, " (line 1)"),
            ("4 7 115\n256 3 5\n", Refusal::Value, " (line 2)"),
            ("4 7 100\n2 3 5\n3 7 15\n", Refusal::Order, " (lines 2 and 3)"),
            ("4 7 60\n4 7 60\n", Refusal::Order, " (lines 1 and 2)"),
            ("4 7 115\n", Refusal::Total, ""),
            ("4 7 995\n", Refusal::Total, ""),
        ] {
            assert_eq!(said(text, refusal), format!("plan: {refusal}{lines}"));
        }
    }

    #[test]
    fn the_wrong_line_is_named() {
        let said_of = |line: &str, behind: &str| said(&format!("4 7 115\n{line}{behind}"), Refusal::Plan);
        let wrong = ["2 3  5", "2 3", "2 3 5 ", "02 3 5", "", "2 3 5\r", "2 3 0005", "2 3 +5", "2\t3 5"];
        for line in wrong {
            let wrong = "line 2: not three numbers of 1 to 3 digits without leading zeros, one space between";
            for behind in ["\n", "\n3 12\n", "\n3 12 5"] {
                assert_eq!(said_of(line, behind), format!("plan: refused 1 plan: {wrong}"), "{line:?}");
            }
        }
        for line in ["2 3 5", "2 3", "x"] {
            assert_eq!(said_of(line, ""), "plan: refused 1 plan: line 2: no line feed after it", "{line:?}");
        }
    }

    #[test]
    fn from_1_line_to_8_and_to_128_octets() {
        let said = |text: &str| said(text, Refusal::Plan).replace("plan: refused 1 plan: ", "");
        assert_eq!(said(""), "there are no lines");
        for count in [9, 16] {
            assert_eq!(said(&"1 1 105\n".repeat(count)), "there are more than 8 lines");
        }
        assert_eq!(said(&"1 1 105\n".repeat(17)), "the text has more than 128 octets");
    }
}
