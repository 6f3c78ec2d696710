//! A reader of pages that takes no tag that is not closed.

/// An element, or the text between elements.
#[derive(Clone, Debug)]
pub enum Node {
    /// An element.
    Element(Element),
    /// Text, with its entities resolved.
    Text(String),
}

/// An element.
#[derive(Clone, Debug, Default)]
pub struct Element {
    /// Its name.
    pub name: String,
    /// Its attributes.
    pub attributes: Vec<(String, String)>,
    /// What stands in it.
    pub inside: Vec<Node>,
}

impl Element {
    /// The value of an attribute.
    pub fn attribute(&self, name: &str) -> Option<&str> {
        let found = self.attributes.iter().find(|(other, _)| other == name);
        found.map(|(_, value)| value.as_str())
    }

    /// All elements in it, each before what it has inside.
    pub fn all(&self) -> Vec<&Element> {
        let mut all = Vec::new();
        for node in &self.inside {
            if let Node::Element(element) = node {
                all.push(element);
                all.extend(element.all());
            }
        }
        all
    }

    /// The elements of a name in it.
    pub fn named(&self, name: &str) -> Vec<&Element> {
        self.all().into_iter().filter(|element| element.name == name).collect()
    }

    /// The element of an id in it.
    pub fn id(&self, id: &str) -> &Element {
        let found = self.all().into_iter().find(|element| element.attribute("id") == Some(id));
        found.unwrap_or_else(|| panic!("there is no element {id}"))
    }

    /// All text in it. Spaces at which no line is broken are spaces.
    pub fn text(&self) -> String {
        let text = |node: &Node| match node {
            Node::Element(element) => element.text(),
            Node::Text(text) => text.replace('\u{a0}', " "),
        };
        self.inside.iter().map(text).collect()
    }
}

/// Reads a page, or says what is wrong with it.
pub fn read(page: &str) -> Result<Element, String> {
    let rest = page.strip_prefix("<!DOCTYPE html>\n").ok_or("there is no document type")?;
    let mut open = vec![Element::default()];
    let mut rest = rest;
    while let Some(start) = rest.find('<') {
        let (text, tag) = rest.split_at(start);
        add(&mut open, Node::Text(resolved(text)?))?;
        let end = tag.find('>').ok_or("a tag has no end")?;
        take(&mut open, &tag[1..end])?;
        rest = &tag[end + 1..];
    }
    match (&open[..], rest.trim()) {
        ([whole], "") => Ok(whole.clone()),
        ([_], text) => Err(format!("`{text}` stands behind the page")),
        _ => Err(format!("{} is not closed", open[open.len() - 1].name)),
    }
}

/// Puts a node into the innermost open element.
fn add(open: &mut [Element], node: Node) -> Result<(), String> {
    open.last_mut().ok_or("too many tags are closed")?.inside.push(node);
    Ok(())
}

/// Takes what stands within the brackets of a tag.
fn take(open: &mut Vec<Element>, tag: &str) -> Result<(), String> {
    if let Some(name) = tag.strip_prefix('/') {
        let element = open.pop().ok_or("too many tags are closed")?;
        if element.name != name {
            return Err(format!("{} is closed as {name}", element.name));
        }
        return add(open, Node::Element(element));
    }
    let alone = tag.strip_suffix('/');
    let (name, attributes) =
        alone.unwrap_or(tag).split_once(' ').unwrap_or((alone.unwrap_or(tag), ""));
    let element = Element {
        name: name.to_string(),
        attributes: read_attributes(attributes)?,
        inside: vec![],
    };
    match alone {
        Some(_) => add(open, Node::Element(element)),
        None => {
            open.push(element);
            Ok(())
        }
    }
}

/// The attributes of a tag.
fn read_attributes(text: &str) -> Result<Vec<(String, String)>, String> {
    let mut attributes = Vec::new();
    let mut rest = text.trim();
    while !rest.is_empty() {
        let (name, value) = rest.split_once("=\"").ok_or(format!("`{rest}` has no value"))?;
        let (value, others) = value.split_once('"').ok_or(format!("{name} has no end"))?;
        attributes.push((name.to_string(), resolved(value)?));
        rest = others.trim_start();
    }
    Ok(attributes)
}

/// Text with its entities resolved.
fn resolved(text: &str) -> Result<String, String> {
    let entities = [("&lt;", "<"), ("&gt;", ">"), ("&quot;", "\""), ("&#39;", "'"), ("&amp;", "&")];
    let plain =
        entities.iter().fold(text.to_string(), |text, (entity, _)| text.replace(entity, ""));
    if plain.contains(['&', '>']) {
        return Err(format!("`{text}` is not escaped"));
    }
    Ok(entities.iter().fold(text.to_string(), |text, (entity, sign)| text.replace(entity, sign)))
}
