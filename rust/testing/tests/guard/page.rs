//! Tables, lists, headings and code spans of a page.

/// A row of a table, its cells under the columns' names.
#[derive(Debug)]
pub struct Row {
    /// The heading that the table stands under.
    pub under: String,
    pub columns: Vec<String>,
    pub cells: Vec<String>,
}

impl Row {
    pub fn first(&self) -> &str {
        self.cells.first().map_or("", String::as_str)
    }

    /// The cell under a column, if the table has the column.
    pub fn cell(&self, column: &str) -> Option<&str> {
        let at = self.columns.iter().position(|name| name == column)?;
        self.cells.get(at).map(String::as_str)
    }
}

/// The rows of all tables: a table is a row of names, a row of dashes, then its rows.
pub fn rows(page: &str) -> Vec<Row> {
    let mut rows = Vec::new();
    let mut under = String::new();
    let mut columns: Option<Vec<String>> = None;
    let mut lines = page.lines().peekable();
    while let Some(line) = lines.next() {
        let Some(cells) = cells(line) else {
            columns = None;
            if line.starts_with('#') {
                under = line.trim_start_matches(['#', ' ']).to_owned();
            }
            continue;
        };
        if let Some(columns) = columns.clone() {
            let under = under.clone();
            rows.push(Row {
                under,
                columns,
                cells,
            });
        } else if lines.next_if(|line| line.starts_with("|-")).is_some() {
            columns = Some(cells);
        }
    }
    rows
}

/// The cells of a line that begins and ends with a bar. `\|` is a bar in a cell.
fn cells(line: &str) -> Option<Vec<String>> {
    let inner = line.trim().strip_prefix('|')?.strip_suffix('|')?;
    let inner = inner.replace("\\|", "\0");
    let cells = inner.split('|');
    Some(cells.map(|cell| cell.trim().replace('\0', "|")).collect())
}

/// An item of a list that begins with a code span, and its notes, which stand further in:
///
/// ```text
/// - `front`: what is said of it
///   - Label: text
/// ```
pub struct Item<'a> {
    /// The heading that it stands under.
    pub heading: &'a str,
    pub front: &'a str,
    notes: Vec<(&'a str, &'a str)>,
}

impl<'a> Item<'a> {
    pub fn note(&self, label: &str) -> Option<&'a str> {
        let mut notes = self.notes.iter();
        let note = notes.find(|(known, _)| *known == label);
        note.map(|(_, text)| *text)
    }
}

/// The items of all lists.
pub fn items(page: &str) -> Vec<Item<'_>> {
    let mut items: Vec<Item> = Vec::new();
    let mut heading = "";
    let mut is_open = false;
    for line in prose(page) {
        if let Some(note) = line.strip_prefix("  - ").filter(|_| is_open) {
            let item = items.last_mut().expect("an open item is the last");
            item.notes.extend(note.split_once(": "));
            continue;
        }
        heading = line.strip_prefix("## ").unwrap_or(heading);
        let item = line.strip_prefix("- ").filter(|item| item.starts_with('`'));
        let front = item.and_then(|item| item.split_once(": "));
        is_open = front.is_some();
        items.extend(front.map(|(front, _)| Item {
            heading,
            front,
            notes: Vec::new(),
        }));
    }
    items
}

/// The headings of the second order.
pub fn headings(page: &str) -> Vec<&str> {
    let headings = prose(page).filter_map(|line| line.strip_prefix("## "));
    headings.collect()
}

/// What stands between single backquotes.
pub fn code_spans(text: &str) -> Vec<&str> {
    text.split('`').skip(1).step_by(2).collect()
}

/// The lines that belong to no table and to no block of code.
pub fn prose(page: &str) -> impl Iterator<Item = &str> {
    let mut is_code = false;
    page.lines().filter(move |line| {
        is_code ^= line.starts_with("```");
        !is_code && !line.starts_with('|')
    })
}
