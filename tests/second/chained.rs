//! A source of one form over and over.

/// As many links as go into so many bytes between a head and a tail; in a link `%` is its number.
pub fn chained(head: &str, link: &str, tail: &str, bytes: usize) -> Vec<u8> {
    let mut text = head.to_string();
    for number in 1.. {
        let link = link.replace('%', &number.to_string());
        if text.len() + link.len() + tail.len() > bytes {
            break;
        }
        text += &link;
    }
    (text + tail).into_bytes()
}
