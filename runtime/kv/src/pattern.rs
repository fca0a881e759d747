//! Patterns of keys, as Redis has them: `*`, `?`, `[a-c]`, `[^a]`, and a backslash before what stands for itself.

/// Whether a text is of a pattern. It takes at most the product of their lengths.
pub fn matches(pattern: &[u8], text: &[u8]) -> bool {
    let (mut p, mut t) = (0, 0);
    // where the last star goes on, and what it has taken
    let mut star: Option<(usize, usize)> = None;
    loop {
        if pattern.get(p) == Some(&b'*') {
            p += 1;
            star = Some((p, t));
            continue;
        }
        let one = text.get(t).and_then(|byte| one(&pattern[p..], *byte));
        match one {
            Some(used) => {
                p += used;
                t += 1;
            }
            None if p == pattern.len() && t == text.len() => return true,
            None => match &mut star {
                Some((after, taken)) if *taken < text.len() => {
                    *taken += 1;
                    (p, t) = (*after, *taken);
                }
                _ => return false,
            },
        }
    }
}

/// How many bytes of a pattern stand for a byte at its front; None if they don't stand for this one.
fn one(pattern: &[u8], byte: u8) -> Option<usize> {
    let (first, rest) = pattern.split_first()?;
    match (first, rest) {
        (b'?', _) => Some(1),
        (b'[', _) => class(rest, byte).map(|used| used + 1),
        (b'\\', [literal, ..]) => (*literal == byte).then_some(2),
        (literal, _) => (*literal == byte).then_some(1),
    }
}

/// How many bytes a class has behind its bracket; None if the byte isn't in it. One that isn't closed ends with the pattern.
fn class(rest: &[u8], byte: u8) -> Option<usize> {
    let is_inverse = rest.first() == Some(&b'^');
    let mut at = usize::from(is_inverse);
    let mut is_in = false;
    loop {
        match &rest[at.min(rest.len())..] {
            [] => break,
            [b']', ..] => {
                at += 1;
                break;
            }
            [b'\\', literal, ..] => {
                is_in |= *literal == byte;
                at += 2;
            }
            [from, b'-', to, ..] => {
                let (least, most) = (from.min(to), from.max(to));
                is_in |= (*least..=*most).contains(&byte);
                at += 3;
            }
            [literal, ..] => {
                is_in |= *literal == byte;
                at += 1;
            }
        }
    }
    (is_in != is_inverse).then_some(at)
}

#[cfg(test)]
mod tests {
    use super::*;

    #[test]
    fn patterns_are_as_in_redis() {
        for (pattern, text, is_one) in [
            ("*", "", true),
            ("*", "abc", true),
            ("", "", true),
            ("", "a", false),
            ("h?llo", "hello", true),
            ("h?llo", "hllo", false),
            ("h*llo", "heeeello", true),
            ("h[ae]llo", "hallo", true),
            ("h[ae]llo", "hillo", false),
            ("h[^e]llo", "hallo", true),
            ("h[^e]llo", "hello", false),
            ("h[a-b]llo", "hbllo", true),
            ("h[b-a]llo", "hallo", true),
            ("h\\*llo", "h*llo", true),
            ("h\\*llo", "hxllo", false),
            ("a*b*c", "axxbyyc", true),
            ("a*b*c", "axxbyy", false),
            ("[a", "a", true),
            ("a**", "a", true),
            ("*a", "ba", true),
            ("*a", "bab", false),
        ] {
            let found = matches(pattern.as_bytes(), text.as_bytes());
            assert_eq!(found, is_one, "{pattern} {text}");
        }
    }

    #[test]
    fn many_stars_end() {
        let pattern = b"*a".repeat(50);
        let text = vec![b'a'; 2_000];
        assert!(matches(&pattern, &text));
        assert!(!matches(&[&pattern[..], b"b"].concat(), &text));
    }
}
