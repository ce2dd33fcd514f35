//! How often each call was accepted, and refused with each number.

use std::collections::BTreeMap;

/// The second sense of refusal 2 is counted apart, under this number.
pub const DOES_NOT_APPLY: u64 = 102;

/// The numbers that a call can give besides 0; none for what is no call.
pub fn possible(name: &str) -> Option<&'static [u64]> {
    Some(match name {
        "format" => &[1],
        "mount" | "cut" => &[1, 2],
        "lookup" => &[1, 2, 3, 4, 5, 6, 8, 9],
        "list" => &[1, 2, 3, 4, 7, 8, 9, 19],
        "stat" => &[1, 2, 3, 4, 7, 8],
        "read" => &[1, 2, 3, 4, 7, 8, 9, 12],
        "create" | "mkdir" => &[1, 2, 3, 4, 5, 6, 7, 8, 9, 10, 13, 14],
        "rmfile" => &[1, 2, 3, 4, 5, 6, 7, 8, 9, 13, 14],
        "rmdir" | "rename" => &[1, 2, 3, 4, 5, 6, 7, 8, 9, 11, 13, 14],
        "write" | "setlen" => &[1, 2, 3, 4, 7, 8, 9, 12, 13, 14],
        "forder" => &[1, 2, 3, 4, 7, 8, 13, 14],
        "push" => &[1, 2, 15, 16, DOES_NOT_APPLY],
        "fsync" => &[1, 2, 3, 4, 7, 8, 17, DOES_NOT_APPLY],
        "take" => &[1, 2, 3, 16, 19],
        "renew" => &[1, 2, 3, 18],
        "record" => &[20],
        _ => return None,
    })
}

const CALLS: [&str; 20] = [
    "format", "mount", "lookup", "list", "stat", "read", "create", "mkdir", "rmfile", "rmdir", "rename", "write",
    "setlen", "forder", "push", "fsync", "cut", "take", "renew", "record",
];

#[derive(Default)]
pub struct Calls(BTreeMap<(&'static str, u64), usize>);

impl Calls {
    pub fn note(&mut self, name: &'static str, code: u64, damaged: bool) {
        let code = if code == 2 && !damaged && name != "mount" { DOES_NOT_APPLY } else { code };
        *self.0.entry((name, code)).or_default() += 1;
    }

    fn count(&self, name: &'static str, code: u64) -> usize {
        self.0.get(&(name, code)).copied().unwrap_or(0)
    }

    /// A line for each call: how often it gave 0 and each other number.
    pub fn table(&self) -> String {
        let mut text = String::from("returned number:count (2' is an operation that does not apply)\n");
        for name in CALLS {
            let codes = std::iter::once(0).chain(possible(name).unwrap_or(&[]).iter().copied());
            let counts: Vec<String> = codes.map(|code| format!("{}:{}", label(code), self.count(name, code))).collect();
            text += &format!("  {name:<7} {}\n", counts.join(" "));
        }
        text
    }

    /// What did not occur, and what occurred that cannot.
    pub fn missing(&self) -> Vec<String> {
        let mut missing = Vec::new();
        for name in CALLS {
            for &code in [0].iter().chain(possible(name).unwrap_or(&[])) {
                if self.count(name, code) == 0 {
                    missing.push(format!("{name} with {}", label(code)));
                }
            }
        }
        for (name, code) in self.0.keys() {
            if *code != 0 && !possible(name).unwrap_or(&[]).contains(code) {
                missing.push(format!("{name} gave {}, which it cannot", label(*code)));
            }
        }
        missing
    }
}

fn label(code: u64) -> String {
    if code == DOES_NOT_APPLY {
        "2'".to_string()
    } else {
        code.to_string()
    }
}
