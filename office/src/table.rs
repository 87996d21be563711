//! Tables: the same rows as columns of a text, as CSV and as HTML.

/// A table: the names of its columns, its rows, and the colour of each row's first cell, if it has
/// one.
#[derive(Debug, Clone, PartialEq, Eq)]
pub struct Table {
    head: Vec<&'static str>,
    rows: Vec<Vec<String>>,
    fills: Vec<&'static str>,
}

impl Table {
    /// A table without rows.
    pub fn new(head: &[&'static str]) -> Table {
        Table {
            head: head.to_vec(),
            rows: Vec::new(),
            fills: Vec::new(),
        }
    }

    /// Adds a row, a cell for each column.
    pub fn row(&mut self, cells: impl IntoIterator<Item = impl ToString>) {
        self.row_filled("", cells);
    }

    /// Adds a row whose first cell has a colour on a page.
    pub fn row_filled(
        &mut self,
        fill: &'static str,
        cells: impl IntoIterator<Item = impl ToString>,
    ) {
        let cells: Vec<String> = cells.into_iter().map(|cell| cell.to_string()).collect();
        assert_eq!(cells.len(), self.head.len());
        self.rows.push(cells);
        self.fills.push(fill);
    }

    /// The table without a column, if this is empty in every row.
    pub fn without_empty(mut self, name: &str) -> Table {
        let column = self.head.iter().position(|&column| column == name);
        if let Some(column) = column {
            if self.rows.iter().all(|row| row[column].is_empty()) {
                self.head.remove(column);
                for row in &mut self.rows {
                    row.remove(column);
                }
            }
        }
        self
    }

    /// Whether the table has no rows.
    pub fn is_empty(&self) -> bool {
        self.rows.is_empty()
    }

    /// How many rows the table has.
    pub fn rows(&self) -> usize {
        self.rows.len()
    }

    /// Whether a column holds words, so that it stands at the left.
    fn of_words(&self, column: usize) -> bool {
        let word = |cell: &str| cell.chars().any(char::is_alphabetic);
        self.rows.iter().any(|row| word(&row[column]))
    }

    /// The table as text: the names of the columns and the rows, two blanks between columns,
    /// numbers at the right.
    pub fn text(&self) -> String {
        let head: Vec<String> = self.head.iter().map(|name| name.to_string()).collect();
        let lines = || std::iter::once(&head).chain(&self.rows);
        let width = |column: usize| lines().map(|row| columns(&row[column])).max();
        let widths: Vec<usize> = (0..head.len()).filter_map(width).collect();
        let mut text = String::new();
        for row in lines() {
            let cell = |column: usize| {
                let room = " ".repeat(widths[column] - columns(&row[column]));
                match self.of_words(column) {
                    true => format!("{}{room}", row[column]),
                    false => format!("{room}{}", row[column]),
                }
            };
            let cells: Vec<String> = (0..row.len()).map(cell).collect();
            text.push_str(cells.join("  ").trim_end());
            text.push('\n');
        }
        text
    }

    /// The table as CSV: commas, a line for the names of the columns, quotation marks where a cell
    /// needs them.
    pub fn csv(&self) -> String {
        let mut text = self.head.join(",") + "\n";
        for row in &self.rows {
            let cells: Vec<String> = row.iter().map(|cell| quoted(cell)).collect();
            text.push_str(&(cells.join(",") + "\n"));
        }
        text
    }

    /// The table as HTML. Words have a class, and those of a column "cut" one of their own, so that they
    /// are not broken.
    pub fn html(&self) -> String {
        let words: Vec<bool> = (0..self.head.len())
            .map(|column| self.of_words(column))
            .collect();
        let class = |column: usize| match (words[column], self.head[column]) {
            (true, "cut") => " class=\"words cut\"",
            (true, _) => " class=\"words\"",
            (false, _) => "",
        };
        let mut text = String::from("<table><thead><tr>");
        for (column, name) in self.head.iter().enumerate() {
            text += &format!("<th{}>{name}</th>", class(column));
        }
        text.push_str("</tr></thead><tbody>\n");
        for (row, fill) in self.rows.iter().zip(&self.fills) {
            text.push_str("<tr>");
            for (column, cell) in row.iter().enumerate() {
                let fill = match (column, *fill) {
                    (0, fill) if !fill.is_empty() => format!(" style=\"background: {fill}\""),
                    _ => String::new(),
                };
                text += &format!("<td{}{fill}>{}</td>", class(column), escaped(cell));
            }
            text.push_str("</tr>\n");
        }
        text + "</tbody></table>\n"
    }
}

/// How many columns of a terminal a text takes: letters of Chinese, Japanese and Korean, and pictures, take two,
/// marks that join or change letters none.
fn columns(text: &str) -> usize {
    let of_letter = |letter: char| match letter {
        '\u{300}'..='\u{36f}' | '\u{200b}'..='\u{200f}' | '\u{fe00}'..='\u{fe0f}' => 0,
        '\u{1100}'..='\u{115f}' | '\u{2e80}'..='\u{a4cf}' | '\u{ac00}'..='\u{d7a3}' => 2,
        '\u{f900}'..='\u{faff}' | '\u{fe30}'..='\u{fe6f}' | '\u{ff00}'..='\u{ff60}' => 2,
        '\u{1f300}'..='\u{1faff}' | '\u{20000}'..='\u{3fffd}' => 2,
        _ => 1,
    };
    text.chars().map(of_letter).sum()
}

/// A cell of a CSV line: in quotation marks where it could be read otherwise, since it holds what parts
/// cells or lines somewhere, a quotation mark or the mark of a remark, or has blanks around it.
pub fn quoted(cell: &str) -> String {
    let plain = cell.trim() == cell && !cell.contains([',', ';', '\t', '"', '#', '\n', '\r']);
    match plain {
        true => cell.to_string(),
        false => format!("\"{}\"", cell.replace('"', "\"\"")),
    }
}

/// A text as HTML and SVG write it. Letters that no XML file may hold, control characters most of all, are
/// shown as the mark of a letter that is unknown.
pub fn escaped(text: &str) -> String {
    let allowed = |letter: char| match letter {
        '\t' | '\n' | '\r' => true,
        '\u{fffe}' | '\u{ffff}' => false,
        _ => letter >= ' ',
    };
    let known = text.chars().map(|letter| match allowed(letter) {
        true => letter,
        false => char::REPLACEMENT_CHARACTER,
    });
    let text: String = known.collect();
    let text = text.replace('&', "&amp;").replace('<', "&lt;");
    text.replace('>', "&gt;").replace('"', "&quot;")
}

#[cfg(test)]
mod tests {
    use super::*;

    fn table() -> Table {
        let mut table = Table::new(&["no.", "what", "sides"]);
        table.row(["1", "a shelf, \"long\"", "1200"]);
        table.row(["12", "<b>", ""]);
        table
    }

    #[test]
    fn numbers_stand_at_the_right_and_words_at_the_left() {
        let text = "no.  what             sides\n  1  a shelf, \"long\"   1200\n 12  <b>\n";
        assert_eq!(table().text(), text);
    }

    #[test]
    fn wide_letters_take_two_columns() {
        let mut table = Table::new(&["name", "width"]);
        for name in ["漢字の板", "Brett", "e\u{301}tage"] {
            table.row([name, "600"]);
        }
        let text = "name      width\n漢字の板    600\nBrett       600\ne\u{301}tage       600\n";
        assert_eq!(table.text(), text);
    }

    #[test]
    fn letters_that_xml_has_not_are_shown_as_unknown() {
        assert_eq!(
            escaped("a\u{1}b\u{0}\u{1b}c"),
            "a\u{fffd}b\u{fffd}\u{fffd}c"
        );
        assert_eq!(escaped("\u{ffff}\u{fffe}\u{fffd}"), "\u{fffd}".repeat(3));
        assert_eq!(escaped("Brett, 5 × 4\té\u{7f}"), "Brett, 5 × 4\té\u{7f}");
    }

    #[test]
    fn a_cell_that_could_be_read_otherwise_is_quoted() {
        for plain in ["shelf 12", "полка", "", "<b>"] {
            assert_eq!(quoted(plain), plain);
        }
        for (cell, written) in [
            ("12\" shelf, long", "\"12\"\" shelf, long\""),
            ("# 4", "\"# 4\""),
            ("door; left", "\"door; left\""),
            (" shelf", "\" shelf\""),
            ("a\rb", "\"a\rb\""),
        ] {
            assert_eq!(quoted(cell), written);
        }
    }

    #[test]
    fn cells_are_quoted_and_escaped() {
        let csv = "no.,what,sides\n1,\"a shelf, \"\"long\"\"\",1200\n12,<b>,\n";
        assert_eq!(table().csv(), csv);
        let html = table().html();
        assert!(html.contains("<th>no.</th><th class=\"words\">what</th>"));
        assert!(html.contains("<td class=\"words\">a shelf, &quot;long&quot;</td><td>1200</td>"));
        let mut filled = Table::new(&["type", "name"]);
        filled.row_filled("#ffeedd", ["1", ""]);
        assert_eq!(filled.clone().without_empty("type"), filled);
        let html_filled = filled.without_empty("name").html();
        assert!(html_filled.contains("<tr><td style=\"background: #ffeedd\">1</td></tr>"));
        assert!(html.contains("<td>12</td><td class=\"words\">&lt;b&gt;</td><td></td>"));
        let mut cuts = Table::new(&["no.", "cut", "name"]);
        cuts.row(["1", "stack cut", "полка"]);
        let row = "<td>1</td><td class=\"words cut\">stack cut</td><td class=\"words\">полка</td>";
        assert!(cuts.html().contains(row));
    }
}
