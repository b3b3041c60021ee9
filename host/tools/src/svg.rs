//! Plain SVG elements. Every value and every text is escaped on its way in.

use std::fmt::Display;

#[derive(Clone, Debug)]
pub struct Element {
    tag: &'static str,
    attributes: String,
    inside: String,
}

impl Element {
    pub fn new(tag: &'static str) -> Element {
        Element {
            tag,
            attributes: String::new(),
            inside: String::new(),
        }
    }

    pub fn set(mut self, name: &str, value: impl Display) -> Element {
        self.attributes += &format!(" {name}=\"{}\"", escape(&value.to_string()));
        self
    }

    /// Sets several lengths or places in pixels.
    pub fn px(self, values: &[(&str, f64)]) -> Element {
        values
            .iter()
            .fold(self, |element, (name, value)| element.set(name, px(*value)))
    }

    pub fn text(mut self, text: &str) -> Element {
        self.inside += &escape(text);
        self
    }

    /// What a viewer shows when the pointer rests on the element.
    pub fn hint(mut self, text: &str) -> Element {
        self.inside += &Element::new("title").text(text).write();
        self
    }

    pub fn add(&mut self, child: Element) {
        self.inside += "\n";
        self.inside += &child.write();
    }

    pub fn with(mut self, child: Element) -> Element {
        self.add(child);
        self
    }

    pub fn write(&self) -> String {
        let Element {
            tag,
            attributes,
            inside,
        } = self;
        if inside.is_empty() {
            return format!("<{tag}{attributes}/>");
        }
        let newline = if inside.starts_with('\n') { "\n" } else { "" };
        format!("<{tag}{attributes}>{inside}{newline}</{tag}>")
    }
}

/// A number of pixels with at most three decimals.
pub fn px(value: f64) -> String {
    let text = format!("{value:.3}");
    text.trim_end_matches('0').trim_end_matches('.').to_string()
}

/// Text that may stand between tags and in quotes. Characters that XML has no place for become a
/// replacement mark.
pub fn escape(text: &str) -> String {
    let mut escaped = String::new();
    for character in text.chars() {
        match character {
            '&' => escaped += "&amp;",
            '<' => escaped += "&lt;",
            '>' => escaped += "&gt;",
            '"' => escaped += "&quot;",
            '\'' => escaped += "&apos;",
            '\n' | '\t' => escaped.push(' '),
            '\u{fffe}' | '\u{ffff}' => escaped.push('\u{fffd}'),
            other if other.is_control() => escaped.push('\u{fffd}'),
            other => escaped.push(other),
        }
    }
    escaped
}
