//! Numbers and words as the picture's text.

/// A length or a place in the picture, to a tenth of a pixel.
pub fn px(n: f64) -> String {
    let text = format!("{n:.1}");
    text.trim_end_matches('0').trim_end_matches('.').to_string()
}

/// Text that is fit to stand between tags; characters that XML does not know are shown as U+FFFD.
pub fn escape(text: &str) -> String {
    text.chars()
        .map(|c| match c {
            '&' => "&amp;".to_string(),
            '<' => "&lt;".to_string(),
            '>' => "&gt;".to_string(),
            '\t' | '\n' | '\r' => " ".to_string(),
            '\0'..='\u{1f}' | '\u{fffe}' | '\u{ffff}' => '\u{fffd}'.to_string(),
            _ => c.to_string(),
        })
        .collect()
}

/// The title above the map, smaller where it is long, and cut where it is still too long.
pub fn headline(title: &str, width: f64) -> String {
    let (largest, smallest) = (18.0, 9.0);
    let letters = (width - 40.0) / 0.65;
    let most = (letters / smallest) as usize;
    let length = title.chars().count();
    let shown: String = if length <= most { title.to_string() } else { title.chars().take(most - 3).chain("...".chars()).collect() };
    let size = (letters / length as f64).clamp(smallest, largest);
    format!("<text x=\"20\" y=\"28\" font-size=\"{}\" font-weight=\"bold\">{}</text>\n", px(size), escape(&shown))
}

/// A small line below the title.
pub fn note(text: &str) -> String {
    format!("<text x=\"20\" y=\"46\" font-size=\"11\" fill=\"#555\">{text}</text>\n")
}
