//! HTML, with every text escaped.

/// A text as it stands in HTML and SVG, in elements and in attributes.
pub fn escape(text: &str) -> String {
    let mut escaped = String::with_capacity(text.len());
    for letter in text.chars() {
        match letter {
            '&' => escaped.push_str("&amp;"),
            '<' => escaped.push_str("&lt;"),
            '>' => escaped.push_str("&gt;"),
            '"' => escaped.push_str("&quot;"),
            '\'' => escaped.push_str("&#39;"),
            letter if letter.is_control() => escaped.push(' '),
            letter => escaped.push(letter),
        }
    }
    escaped
}

/// An element that holds a text.
pub fn text(tag: &str, content: &str) -> String {
    around(tag, &escape(content))
}

/// An element that holds HTML.
pub fn around(tag: &str, content: &str) -> String {
    let name = tag.split(' ').next().unwrap_or(tag);
    format!("<{tag}>{content}</{name}>")
}

/// A table: the names of its columns, and its rows. On a narrow screen each cell stands under its
/// column's name.
pub fn table(class: &str, columns: &[&str], rows: &[Vec<String>]) -> String {
    let heads: String = columns.iter().map(|name| text("th", name)).collect();
    let cell = |(name, value): (&&str, &String)| {
        let tag = format!("td data-name=\"{}\"", escape(name));
        text(&tag, value)
    };
    let row = |row: &Vec<String>| {
        let cells: String = columns.iter().zip(row).map(cell).collect();
        around("tr", &cells)
    };
    let body: String = rows.iter().map(row).collect();
    let head = around("thead", &around("tr", &heads));
    let tag = format!("table class=\"{}\"", escape(class));
    around(&tag, &(head + &around("tbody", &body)))
}

#[cfg(test)]
mod tests {
    use super::*;

    #[test]
    fn nothing_gets_through() {
        let wild = "<script>\"&'\u{7}";
        assert_eq!(escape(wild), "&lt;script&gt;&quot;&amp;&#39; ");
        let cells = table("runs", &["a<b"], &[vec!["</td>".to_owned()]]);
        assert!(!cells.contains("a<b") && cells.contains("&lt;/td&gt;"));
    }
}
