//! The library's answer with the faults that explain it.

use std::fmt::Write;

use crate::faults::{Analysis, Fault};

/// Status of a plan, image or log that is accepted.
pub const ACCEPTED: u8 = 0;
pub const REFUSED: u8 = 1;
/// The library's number is not the one that the analysis finds.
pub const DIFFERENT: u8 = 3;
/// An entry of a log is wrong.
pub const WRONG: u8 = 4;

/// The refusal's number of an answer; 0 for accepted.
pub fn number(answer: yard::Answer) -> u32 {
    match answer.kind {
        yard::REFUSED => answer.number,
        _ => 0,
    }
}

/// The first lines, which say the library's number and whether the analysis differs, and the status.
pub fn verdict(number: u32, analysed: u32) -> (String, u8) {
    let mut output = match number {
        0 => "accepted\n".to_string(),
        _ => format!("refused {number}\n"),
    };
    if number == analysed {
        let status = if number == 0 { ACCEPTED } else { REFUSED };
        return (output, status);
    }
    let (library, analysis) = (says(number), says(analysed));
    let _ = writeln!(
        output,
        "the two differ: the library {library}, the analysis below {analysis}; the library's answer counts"
    );
    (output, DIFFERENT)
}

/// What an answer does, by its refusal's number.
pub fn says(number: u32) -> String {
    match number {
        0 => "accepts".to_string(),
        _ => format!("refuses with {number}"),
    }
}

/// Answer, first fault and further faults.
pub fn explained(number: u32, analysis: &Analysis) -> (String, u8) {
    let (output, status) = verdict(number, analysis.first_number());
    (output + &listed(analysis), status)
}

/// The first fault and all further ones.
pub fn listed(analysis: &Analysis) -> String {
    let mut output = String::new();
    let Some((first, further)) = analysis.faults.split_first() else {
        return output;
    };
    output += &lines("", "", first);
    if !further.is_empty() {
        output += "further faults:\n";
    }
    for fault in further {
        output += &lines("  ", &format!("{}: ", fault.number), fault);
    }
    if let Some(rest) = analysis.rest {
        let _ = writeln!(output, "{rest}");
    }
    output
}

fn lines(indent: &str, number: &str, fault: &Fault) -> String {
    let Fault {
        what,
        place,
        text,
        cure,
        ..
    } = fault;
    format!("{indent}{number}{what}, byte {place}: {text}\n{indent}  cure: {cure}\n")
}

#[cfg(test)]
mod tests {
    use super::*;
    use crate::faults;

    fn faulty(count: usize) -> Analysis {
        let fault = faults::of_plan(&[]).faults.remove(0);
        Analysis {
            faults: vec![fault; count],
            rest: None,
        }
    }

    #[test]
    fn the_librarys_number_comes_first_where_the_two_differ() {
        let (output, status) = explained(7, &faulty(1));
        let lines: Vec<&str> = output.lines().collect();
        assert_eq!(lines[0], "refused 7");
        assert_eq!(
            lines[1],
            "the two differ: the library refuses with 7, the analysis below refuses with 1; the library's answer counts"
        );
        assert!(lines[2].starts_with("file, byte 0: "));
        assert_eq!(status, DIFFERENT);
    }

    #[test]
    fn accepted_by_one_alone_differs_too() {
        let (output, status) = explained(0, &faulty(1));
        assert!(output.starts_with("accepted\nthe two differ: the library accepts, "));
        assert_eq!(status, DIFFERENT);
        let (output, status) = explained(3, &faulty(0));
        assert!(output.contains("refuses with 3, the analysis below accepts"));
        assert_eq!(status, DIFFERENT);
    }

    #[test]
    fn every_further_fault_is_listed() {
        for count in [1, 2, 102, 5_000] {
            let (output, status) = explained(1, &faulty(count));
            assert_eq!(output.matches("\nfile, byte 0").count(), 1);
            assert_eq!(output.matches("\n  1: file, byte 0").count(), count - 1);
            assert_eq!(output.contains("\nfurther faults:\n"), count > 1);
            assert_eq!(status, REFUSED);
        }
    }
}
