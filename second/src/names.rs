//! Names and paths (document 01, "Names and paths"), and when two names are the same (document 02, K2).

/// The longest name, and the longest path.
pub const LONGEST_NAME: usize = 60;
pub const LONGEST_PATH: usize = 1023;

/// For each byte, whether a name may hold it: all but 0 and the slash.
pub const PERMITTED: [bool; 256] = permitted();

const fn permitted() -> [bool; 256] {
    let mut marks = [true; 256];
    marks[0] = false;
    marks[b'/' as usize] = false;
    marks
}

/// Whether a name's text is bad in any way other than being too long (refusal 5).
pub fn bad_name(name: &[u8]) -> bool {
    name.is_empty() || name == b"." || name == b".." || name.iter().any(|&byte| !PERMITTED[byte as usize])
}

/// Whether a name is too long (refusal 6).
pub fn long_name(name: &[u8]) -> bool {
    name.len() > LONGEST_NAME
}

pub fn valid_name(name: &[u8]) -> bool {
    !bad_name(name) && !long_name(name)
}

/// Whether two names are the same: equal once A to Z are replaced by a to z (document 02, K2). No other byte changes,
/// and names are stored and logged as they are typed. Nothing else compares names.
pub fn same_name(one: &[u8], other: &[u8]) -> bool {
    let small = |&byte: &u8| if (b'A'..=b'Z').contains(&byte) { byte - b'A' + b'a' } else { byte };
    one.iter().map(small).eq(other.iter().map(small))
}

/// Whether a path's text is bad before any component is looked at (refusal 5).
pub fn bad_path(path: &[u8]) -> bool {
    path.is_empty() || path.len() > LONGEST_PATH || path[0] != b'/'
}

/// The components of a path in order, each a part of the path itself; "/" has none.
/// Doubled and trailing slashes give an empty component, which is a bad name.
pub fn components(path: &[u8]) -> Vec<&[u8]> {
    if path == b"/" {
        return Vec::new();
    }
    path[1..].split(|&byte| byte == b'/').collect()
}
