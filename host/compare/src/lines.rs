//! A text as its lines, to be changed and joined again. A line is what stands between two LF, so a CR stays at its end, and a
//! text that ends with LF has an empty last line.

pub type Lines = Vec<Vec<u8>>;

pub fn split(text: &[u8]) -> Lines {
    text.split(|&byte| byte == b'\n').map(<[u8]>::to_vec).collect()
}

pub fn join(lines: &Lines) -> Vec<u8> {
    lines.join(&b'\n')
}

pub fn is_separator(line: &[u8]) -> bool {
    let line = line.trim_ascii();
    line.len() >= 5 && line.iter().all(|&byte| byte == b'+')
}

/// Where the first separator stands, or the end.
pub fn body_end(lines: &Lines) -> usize {
    lines.iter().position(|line| is_separator(line)).unwrap_or(lines.len())
}

/// Label and value of a parameter line, trimmed.
pub fn parameter(line: &[u8]) -> Option<(&[u8], &[u8])> {
    let cut = line.iter().position(|&byte| byte == b'=')?;
    Some((line[..cut].trim_ascii(), line[cut + 1..].trim_ascii()))
}

/// The places of the body's parameter lines.
pub fn parameters(lines: &Lines) -> Vec<usize> {
    (0..body_end(lines)).filter(|&at| parameter(&lines[at]).is_some()).collect()
}
