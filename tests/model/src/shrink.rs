//! Makes a failing case smaller while it still fails.

use crate::case::Case;

/// So many tries at most.
const TRIES: usize = 4000;

/// The smallest case found for which `fails` holds; it holds for `case`.
pub fn shrink(case: &Case, mut fails: impl FnMut(&Case) -> bool) -> Case {
    let mut best = case.clone();
    let mut tries = 0;
    loop {
        let smaller = smaller(&best).into_iter().find(|candidate| {
            tries += 1;
            tries < TRIES && fails(candidate)
        });
        match smaller {
            Some(candidate) => best = candidate,
            None => return best,
        }
    }
}

/// Cases that are each a little smaller, the boldest first.
fn smaller(case: &Case) -> Vec<Case> {
    let mut found = Vec::new();
    let mut add = |change: &dyn Fn(&mut Case)| {
        let mut candidate = case.clone();
        change(&mut candidate);
        found.push(candidate);
    };
    for length in [0, case.grants.len() / 2] {
        if length < case.grants.len() {
            add(&|case| case.grants.truncate(length));
        }
    }
    if !case.decimals.is_empty() {
        add(&|case| case.decimals.clear());
    }
    for index in 0..case.loads.len() {
        add(&|case| {
            case.loads.remove(index);
        });
    }
    for index in 0..case.starts.len() {
        add(&|case| {
            case.starts.remove(index);
        });
    }
    for index in 0..case.grants.len() {
        add(&|case| {
            case.grants.remove(index);
        });
    }
    for index in 0..case.decimals.len() {
        add(&|case| {
            case.decimals.remove(index);
        });
    }
    for index in 0..case.starts.len() {
        for edit in 0..case.starts[index].edits.len() {
            add(&|case| {
                case.starts[index].edits.remove(edit);
            });
        }
    }
    for index in 0..case.grants.len() {
        for edit in 0..case.grants[index].edits.len() {
            add(&|case| {
                case.grants[index].edits.remove(edit);
            });
        }
    }
    for part in parts(case.input.len()) {
        add(&|case| {
            case.input.drain(part.clone());
        });
    }
    for index in 0..case.loads.len() {
        let text = &case.loads[index].text;
        let lines: Vec<&[u8]> = text.split_inclusive(|byte| *byte == b'\n').collect();
        for part in parts(lines.len()) {
            let kept = [&lines[..part.start], &lines[part.end..]].concat().concat();
            add(&|case| case.loads[index].text = kept.clone());
        }
        // A line replaced by an empty one keeps the targets of the jumps.
        for line in 0..lines.len() {
            if lines[line] != b"\n" {
                let mut kept = lines.clone();
                kept[line] = b"\n";
                add(&|case| case.loads[index].text = kept.concat());
            }
        }
        if text.len() <= 400 {
            for byte in 0..text.len() {
                add(&|case| {
                    case.loads[index].text.remove(byte);
                });
            }
        }
        for (start, end) in numbers(text) {
            for digit in [b"0", b"1"] {
                if end - start > 1 || text[start] > digit[0] {
                    add(&|case| {
                        case.loads[index].text.splice(start..end, *digit);
                    });
                }
            }
        }
    }
    for index in 0..case.grants.len() {
        let grant = &case.grants[index];
        for cycles in [0, grant.cycles / 2, grant.cycles.saturating_sub(1)] {
            if cycles < grant.cycles {
                add(&|case| case.grants[index].cycles = cycles);
            }
        }
        for length in [0, grant.output_length / 2] {
            if length < grant.output_length {
                add(&|case| case.grants[index].output_length = length);
            }
        }
    }
    for index in 0..case.decimals.len() {
        let (value, length) = case.decimals[index];
        for value_less in [0, value / 10] {
            if value_less != value {
                add(&|case| case.decimals[index].0 = value_less);
            }
        }
        if length > 0 {
            add(&|case| case.decimals[index].1 = length - 1);
        }
    }
    // Smaller machines, where all calls have the same parameters.
    let now = case.parameters;
    let same = case.loads.iter().all(|load| load.parameters == now)
        && case.starts.iter().all(|start| start.parameters == now);
    if same {
        for n in [1, now.n / 2, now.n - 1] {
            if n > 0 && n < now.n {
                add(&|case| set(case, |parameters| parameters.n = n));
            }
        }
        for s in [1, now.s / 2, now.s - 1] {
            if s > 0 && s < now.s {
                add(&|case| {
                    set(case, |parameters| {
                        parameters.s = s;
                        parameters.b = parameters.b.min(s);
                    })
                });
            }
        }
        for b in [0, now.b / 2] {
            if b < now.b {
                add(&|case| set(case, |parameters| parameters.b = b));
            }
        }
        for t in [1, now.t / 2, now.t - 1] {
            if t > 0 && t < now.t {
                add(&|case| set(case, |parameters| parameters.t = t));
            }
        }
        if now.k > 8 {
            add(&|case| set(case, |parameters| parameters.k -= 1));
        }
    }
    found
}

fn set(case: &mut Case, change: impl Fn(&mut model::Parameters)) {
    change(&mut case.parameters);
    for load in &mut case.loads {
        load.parameters = case.parameters;
        load.image_length = 4 * case.parameters.t as usize;
    }
    for start in &mut case.starts {
        start.parameters = case.parameters;
    }
}

/// Ranges of a list to drop: halves, quarters and so on; single elements only of short lists.
fn parts(length: usize) -> Vec<std::ops::Range<usize>> {
    let mut parts = Vec::new();
    let mut size = length;
    while size > 0 {
        for start in (0..length).step_by(size) {
            parts.push(start..(start + size).min(length));
        }
        if length / size > 128 {
            break;
        }
        size /= 2;
    }
    parts
}

/// Where the numbers of a text stand.
fn numbers(text: &[u8]) -> Vec<(usize, usize)> {
    let mut found = Vec::new();
    let mut index = 0;
    while index < text.len() {
        let length = text[index..]
            .iter()
            .take_while(|byte| byte.is_ascii_digit())
            .count();
        if length > 0 {
            found.push((index, index + length));
        }
        index += length + 1;
    }
    found
}
