//! A tiny reader of XML, strict where it matters: tags balanced, attributes quoted and not twice,
//! nothing unescaped, one root.

#[derive(Clone, PartialEq, Debug)]
pub struct Node {
    pub tag: String,
    pub attributes: Vec<(String, String)>,
    pub text: String,
    /// The classes of the elements around it, the outermost first; their tags where they have none.
    pub inside: Vec<String>,
}

impl Node {
    pub fn get(&self, name: &str) -> Option<&str> {
        let found = self.attributes.iter().find(|(other, _)| other == name);
        found.map(|(_, value)| value.as_str())
    }

    #[track_caller]
    pub fn number(&self, name: &str) -> f64 {
        let value = self.get(name).expect("the attribute is there");
        value.parse().expect("the attribute is a number")
    }

    /// Whether one of its classes is this one.
    pub fn is(&self, class: &str) -> bool {
        let classes = self.get("class").unwrap_or("");
        classes.split(' ').any(|other| other == class)
    }

    pub fn is_inside(&self, class: &str) -> bool {
        self.inside.iter().any(|other| other == class)
    }

    fn name(&self) -> String {
        self.get("class").unwrap_or(&self.tag).to_string()
    }
}

/// All elements in the order of their start tags, or what is wrong with the document.
pub fn read(document: &str) -> Result<Vec<Node>, String> {
    let mut rest = document;
    if let Some(after) = rest.strip_prefix("<?xml ") {
        rest = after.split_once("?>").ok_or("the declaration is open")?.1;
    }
    let mut nodes: Vec<Node> = Vec::new();
    let mut open: Vec<usize> = Vec::new();
    while let Some((text, after)) = rest.split_once('<') {
        add_text(&mut nodes, &open, text)?;
        let (tag, after) = after.split_once('>').ok_or("a tag is open")?;
        if tag.contains('<') {
            return Err(format!("a bare < in {tag:?}"));
        }
        enter(tag, &mut nodes, &mut open)?;
        rest = after;
    }
    add_text(&mut nodes, &open, rest)?;
    match open.last() {
        Some(place) => Err(format!("{} is not closed", nodes[*place].tag)),
        None if nodes.is_empty() => Err("no element".to_string()),
        None => Ok(nodes),
    }
}

fn add_text(nodes: &mut [Node], open: &[usize], text: &str) -> Result<(), String> {
    match open.last() {
        Some(place) => nodes[*place].text += &plain(text)?,
        None if text.trim().is_empty() => {}
        None => return Err(format!("text outside the root: {text:?}")),
    }
    Ok(())
}

/// Enters what stands between `<` and `>`.
fn enter(tag: &str, nodes: &mut Vec<Node>, open: &mut Vec<usize>) -> Result<(), String> {
    if let Some(name) = tag.strip_prefix('/') {
        let place = open.pop().ok_or(format!("{name} was not open"))?;
        if nodes[place].tag != name {
            return Err(format!("{} is closed by {name}", nodes[place].tag));
        }
        return Ok(());
    }
    if open.is_empty() && !nodes.is_empty() {
        return Err("a second root".to_string());
    }
    let (inner, closed) = match tag.strip_suffix('/') {
        Some(inner) => (inner, true),
        None => (tag, false),
    };
    let (name, attributes) = inner.split_once(' ').unwrap_or((inner, ""));
    if name.is_empty() || !name.chars().all(|c| c.is_ascii_alphanumeric()) {
        return Err(format!("not the name of a tag: {name:?}"));
    }
    nodes.push(Node {
        tag: name.to_string(),
        attributes: read_attributes(attributes)?,
        text: String::new(),
        inside: open.iter().map(|place| nodes[*place].name()).collect(),
    });
    if !closed {
        open.push(nodes.len() - 1);
    }
    Ok(())
}

fn read_attributes(text: &str) -> Result<Vec<(String, String)>, String> {
    let mut attributes: Vec<(String, String)> = Vec::new();
    let mut rest = text.trim();
    while !rest.is_empty() {
        let (name, after) = rest
            .split_once("=\"")
            .ok_or(format!("no value: {rest:?}"))?;
        let (value, after) = after.split_once('"').ok_or(format!("no quote: {rest:?}"))?;
        let good = |c: char| c.is_ascii_alphanumeric() || c == '-' || c == ':';
        if name.is_empty() || !name.chars().all(good) {
            return Err(format!("not the name of an attribute: {name:?}"));
        }
        if attributes.iter().any(|(other, _)| other == name) {
            return Err(format!("{name} twice"));
        }
        if !after.is_empty() && !after.starts_with(' ') {
            return Err(format!("no space after {name}"));
        }
        attributes.push((name.to_string(), plain(value)?));
        rest = after.trim_start();
    }
    Ok(attributes)
}

/// The text without its escapes.
fn plain(text: &str) -> Result<String, String> {
    let known = [
        ("amp;", '&'),
        ("lt;", '<'),
        ("gt;", '>'),
        ("quot;", '"'),
        ("apos;", '\''),
    ];
    if text.chars().any(|c| c.is_control() && c != '\n') {
        return Err(format!("a control character: {text:?}"));
    }
    let mut parts = text.split('&');
    let mut plain = parts.next().unwrap_or("").to_string();
    for part in parts {
        let found = known.iter().find(|(name, _)| part.starts_with(name));
        let (name, character) = found.ok_or(format!("a bare & in {text:?}"))?;
        plain.push(*character);
        plain += &part[name.len()..];
    }
    Ok(plain)
}
