//! The stand-in for ropey against plain counting.

use original::Rope;

const TEXTS: [&str; 8] = [
    "",
    "\n",
    "a",
    "a\n",
    "\n\nあ",
    "a\nbc\n\nd",
    "é\n\n",
    "😀a\nb",
];

fn char_to_byte(text: &str, char_idx: usize) -> usize {
    text.chars().take(char_idx).map(char::len_utf8).sum()
}

/// Every method gives what the text's own characters and LFs give.
fn check(rope: &Rope, text: &str) {
    let rows: Vec<&str> = text.split('\n').collect();
    assert_eq!(rope.to_string(), text);
    assert_eq!(rope.len_bytes(), text.len());
    assert_eq!(rope.len_chars(), text.chars().count());
    assert_eq!(rope.len_lines(), rows.len());
    for (idx, ch) in text.chars().enumerate() {
        assert_eq!(rope.char(idx), ch);
        assert_eq!(rope.byte_to_char(char_to_byte(text, idx)), idx);
        assert_eq!(rope.slice(idx..idx + 1).to_string(), ch.to_string());
    }
    let mut start = 0;
    for (row, content) in rows.iter().enumerate() {
        let end = text.len().min(start + content.len() + 1);
        let line = &text[start..end];
        assert_eq!(rope.line_to_byte(row), start);
        assert_eq!(rope.line_to_char(row), text[..start].chars().count());
        assert_eq!(rope.line(row).to_string(), line);
        assert_eq!(rope.line(row).len_chars(), line.chars().count());
        start = end;
    }
    assert_eq!(rope.line_to_byte(rows.len()), text.len());
    assert_eq!(rope.line_to_char(rows.len()), text.chars().count());
}

#[test]
fn insertions_leave_the_text_with_its_rows() {
    for text in TEXTS {
        for put_in in TEXTS {
            for at in 0..=text.chars().count() {
                let mut rope = Rope::new(text);
                rope.insert(at, put_in);
                let (front, back) = text.split_at(char_to_byte(text, at));
                check(&rope, &format!("{front}{put_in}{back}"));
            }
        }
    }
}

#[test]
fn removals_leave_the_text_with_its_rows() {
    for text in TEXTS {
        let count = text.chars().count();
        for start in 0..=count {
            for end in start..=count {
                let mut rope = Rope::new(text);
                rope.remove(start..end);
                let (front, back) = (
                    &text[..char_to_byte(text, start)],
                    &text[char_to_byte(text, end)..],
                );
                check(&rope, &format!("{front}{back}"));
            }
        }
    }
}
