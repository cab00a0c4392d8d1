//! SVG elements, written one below the other.

/// What another domain reaches, too: hatched.
pub const SHARED_PATTERN: &str = r##"<pattern id="shared" width="6" height="6" patternUnits="userSpaceOnUse" patternTransform="rotate(45)">
<rect width="6" height="6" fill="#fff"/><rect width="3" height="6" fill="#111"/></pattern>
"##;

/// What no domain reaches: two lines in zigzag.
pub const BREAK_PATTERN: &str = r##"<pattern id="break" width="14" height="12" patternUnits="userSpaceOnUse">
<path d="M2 0l4 6l-4 6M8 0l4 6l-4 6" fill="none" stroke="#777"/></pattern>
"##;

pub struct Elements(String);

impl Elements {
    pub fn new() -> Elements {
        Elements(String::new())
    }

    pub fn written(&self) -> &str {
        &self.0
    }

    /// A rectangle; `attributes` say how it is filled and drawn.
    pub fn rect(&mut self, [x, y, width, height]: [u64; 4], attributes: &str) {
        self.line(&format!(r#"<rect x="{x}" y="{y}" width="{width}" height="{height}"{}/>"#, spaced(attributes)));
    }

    /// The mark for addresses that are passed over: the pattern begins at its corner.
    pub fn break_mark(&mut self, x: u64, y: u64, height: u64) {
        self.line(&format!(r#"<rect transform="translate({x} {y})" width="14" height="{height}" fill="url(#break)"/>"#));
    }

    pub fn text(&mut self, x: u64, y: u64, attributes: &str, text: &str) {
        self.line(&format!(r#"<text x="{x}" y="{y}"{}>{}</text>"#, spaced(attributes), escaped(text)));
    }

    /// A text that begins at a place and leads away from it at an angle.
    pub fn slanted(&mut self, x: u64, y: u64, angle: i64, text: &str) {
        self.line(&format!(r#"<text transform="translate({x} {y}) rotate({angle})">{}</text>"#, escaped(text)));
    }

    /// Elements that have attributes in common, up to `end`.
    pub fn begin(&mut self, attributes: &str) {
        self.line(&format!("<g{}>", spaced(attributes)));
    }

    /// Elements that show a text when they are pointed at, up to `end`.
    pub fn begin_titled(&mut self, title: &str) {
        self.line(&format!("<g><title>{}</title>", escaped(title)));
    }

    pub fn end(&mut self) {
        self.line("</g>");
    }

    fn line(&mut self, line: &str) {
        self.0.push_str(line);
        self.0.push('\n');
    }
}

fn spaced(attributes: &str) -> String {
    if attributes.is_empty() { String::new() } else { format!(" {attributes}") }
}

/// The text as XML has it.
pub fn escaped(text: &str) -> String {
    text.replace('&', "&amp;").replace('<', "&lt;").replace('>', "&gt;").replace('"', "&quot;")
}
