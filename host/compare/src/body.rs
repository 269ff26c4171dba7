//! The values of a file's body: got and set by label, and the summary row mended to fit them.

use crate::lines::{body_end, parameter, Lines};
use crate::samples::Sample;

pub fn get(lines: &Lines, label: &str) -> Vec<u8> {
    place(lines, label).and_then(|at| parameter(&lines[at])).map_or(Vec::new(), |(_, value)| value.to_vec())
}

pub fn set(lines: &mut Lines, label: &str, value: &[u8]) {
    if let Some(at) = place(lines, label) {
        let mut line = format!("{label:<36}=").into_bytes();
        if !value.is_empty() {
            line.push(b' ');
        }
        line.extend_from_slice(value);
        lines[at] = line;
    }
}

fn place(lines: &Lines, label: &str) -> Option<usize> {
    let has_label = |line: &Vec<u8>| parameter(line).is_some_and(|(name, _)| name == label.as_bytes());
    lines.iter().position(has_label)
}

/// The line after the first separator becomes the row of the body's values.
pub fn mend_row(lines: &mut Lines, sample: &Sample) {
    let at = body_end(lines) + 1;
    if at < lines.len() {
        lines[at] = row(lines, sample);
    }
}

fn row(lines: &Lines, sample: &Sample) -> Vec<u8> {
    let labels: Vec<&str> = sample.labels().collect();
    let parts: Vec<Vec<u8>> =
        sample.row.iter().map(|&place| row_part(labels[place], get(lines, labels[place]))).collect();
    parts.join(&b';')
}

/// SR's halves are trimmed and stand as two, blank ones as two empty values; all else stands as it is.
fn row_part(label: &str, value: Vec<u8>) -> Vec<u8> {
    if label != "Semibande" {
        return value;
    }
    if value.is_empty() {
        return b";".to_vec();
    }
    value.split(|&byte| byte == b';').map(<[u8]>::trim_ascii).collect::<Vec<_>>().join(&b';')
}
