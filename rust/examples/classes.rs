//! Character classes, as patterns have them: made from ranges, combined, negated, and written in
//! brackets.

use range_sets::{Countable, RangeSet2};

type Class = RangeSet2<char>;

/// The class of a text as `a-z_0-9`, in which `-` stands between the first and the last of a range.
fn class(text: &str) -> Class {
    let (mut found, mut rest) = (Class::empty(), text.chars().peekable());
    while let Some(first) = rest.next() {
        let last = match rest.next_if_eq(&'-') {
            Some(_) => rest.next().unwrap_or('-'),
            None => first,
        };
        found.insert(first..=last);
    }
    found
}

/// A character as it stands in a pattern.
fn shown(c: char) -> String {
    match c {
        ' '..='~' => c.to_string(),
        _ => format!("\\u{{{:x}}}", u32::from(c)),
    }
}

/// The class in brackets. A range has its last character, and one without an end the greatest of
/// all.
fn pattern(class: &Class) -> String {
    let mut text = String::from("[");
    for range in class {
        let first = **range.start();
        // The end is the first character after the range.
        let last = match range.end() {
            Some(end) => class.prev_member(end).unwrap_or(first),
            None => char::MAX,
        };
        text += &shown(first);
        if last != first {
            text += &format!("-{}", shown(last));
        }
    }
    text + "]"
}

fn main() {
    let letters = class("a-zA-Z");
    let word = &letters | &class("0-9_");
    let vowels = class("aeiouAEIOU");
    println!("words have {}", pattern(&word));
    println!("consonants are {}", pattern(&(&letters - &vowels)));
    println!("the rest is {}", pattern(&!&word));

    assert!(word.contains(&'x') && !word.contains(&'-'));
    assert!(vowels.is_subset(&letters) && vowels.is_disjoint(&class("0-9")));
    let many = word.covered().expect("a class of words has an end");
    assert_eq!(many, 63);
    let all = 0x11_0000 - 0x800;
    println!(
        "{many} of {all} characters; the last has place {}",
        char::MAX.place()
    );
}
