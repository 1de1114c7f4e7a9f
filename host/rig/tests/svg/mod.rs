//! Pictures read back, with a demand on their form.

/// An element of a picture.
#[derive(Clone, Debug)]
pub struct Element {
    pub name: String,
    pub attributes: Vec<(String, String)>,
    /// The text right behind its tag.
    pub text: String,
    /// The number of the event whose row it stands in, if it does.
    pub row: Option<usize>,
}

impl Element {
    /// The value of an attribute; empty where there is none.
    pub fn get(&self, name: &str) -> &str {
        self.attributes.iter().find(|one| one.0 == name).map_or("", |one| &one.1)
    }

    /// The value of an attribute as a number.
    pub fn number(&self, name: &str) -> i32 {
        self.get(name).parse().unwrap_or_else(|_| panic!("{name} of {self:?}"))
    }

    /// Whether it has this class.
    pub fn is(&self, class: &str) -> bool {
        self.get("class").split(' ').any(|one| one == class)
    }
}

/// The elements of a document in order. Panics unless there is one outermost element, tags nest, attributes are quoted and
/// named once, and no text needs more than itself to be read.
pub fn elements(xml: &str) -> Vec<Element> {
    let mut elements: Vec<Element> = Vec::new();
    let mut open: Vec<(String, Option<usize>)> = Vec::new();
    let mut tags = xml.trim_end().split('<');
    assert_eq!(tags.next(), Some(""), "something stands before the first tag");
    for part in tags {
        let (tag, text) = part.split_once('>').expect("a tag ends");
        assert!(!text.contains(['>', '&']), "{text}");
        if let Some(name) = tag.strip_prefix('/') {
            assert_eq!(open.pop().map(|one| one.0).as_deref(), Some(name), "a tag ends the element last opened");
        } else {
            assert!(!open.is_empty() || elements.is_empty(), "{tag} is a second outermost element");
            let (tag, empty) = tag.strip_suffix('/').map_or((tag, false), |tag| (tag, true));
            let (name, rest) = tag.split_once(' ').unwrap_or((tag, ""));
            let (name, attributes) = (name.to_string(), attributes(rest));
            let at = attributes.iter().find(|one| one.0 == "data-at").and_then(|one| one.1.parse().ok());
            let row = at.or(open.last().and_then(|one| one.1));
            if !empty {
                open.push((name.clone(), row));
            }
            elements.push(Element { name, attributes, text: text.trim_end_matches('\n').to_string(), row });
        }
        assert!(!open.is_empty() || text.is_empty(), "{text} stands behind the last tag");
    }
    assert!(open.is_empty(), "{open:?} are left open");
    elements
}

fn attributes(text: &str) -> Vec<(String, String)> {
    let mut attributes: Vec<(String, String)> = Vec::new();
    let mut rest = text;
    while !rest.is_empty() {
        let (name, behind) = rest.split_once("=\"").expect("an attribute has a quoted value");
        let (value, behind) = behind.split_once('"').expect("a value ends");
        assert!(!name.contains(char::is_whitespace) && attributes.iter().all(|one| one.0 != name), "{text}");
        attributes.push((name.to_string(), value.to_string()));
        rest = behind.strip_prefix(' ').unwrap_or(behind);
    }
    attributes
}
