//! The tree of an HTML page, by html5ever, as html2text's DOM has it: text and comments are nodes, and what lies in a template is no part of the page.
use html5ever::interface::{ElementFlags, NodeOrText, QuirksMode, TreeSink};
use html5ever::tendril::{StrTendril, TendrilSink};
use html5ever::tree_builder::TreeBuilderOpts;
use html5ever::{Attribute, ExpandedName, ParseOpts, QualName, parse_document};
use std::borrow::Cow;

/// The number of a node; the document's is 0.
pub type Handle = usize;
pub const DOCUMENT: Handle = 0;

/// What a node is.
pub enum Data {
    Document,
    Element {
        name: QualName,
        attributes: Vec<Attribute>,
        template: Option<Handle>,
    },
    Text(String),
    /// A comment, a doctype or a processing instruction.
    Other,
}

pub struct Node {
    pub data: Data,
    pub children: Vec<Handle>,
    parent: Option<Handle>,
}

/// The nodes of a page.
pub struct Dom {
    pub nodes: Vec<Node>,
}

/// Reads a page as html2text does: without scripts, so that what stands in `noscript` is read.
pub fn parse(html: &[u8]) -> Dom {
    let options = ParseOpts { tree_builder: TreeBuilderOpts { scripting_enabled: false, ..Default::default() }, ..Default::default() };
    parse_document(Dom { nodes: vec![Node::new(Data::Document)] }, options).from_utf8().one(html)
}

impl Node {
    fn new(data: Data) -> Node {
        Node { data, children: vec![], parent: None }
    }
}

impl Dom {
    /// The text that lies in a node itself.
    pub fn text_in(&self, node: Handle) -> String {
        let texts = self.nodes[node].children.iter().map(|&child| match &self.nodes[child].data {
            Data::Text(text) => text.as_str(),
            _ => "",
        });
        texts.collect()
    }

    fn add(&mut self, data: Data) -> Handle {
        self.nodes.push(Node::new(data));
        self.nodes.len() - 1
    }

    // A node for what is put into the tree; none where it is text that went to the text before it.
    fn node_for(&mut self, before: Option<Handle>, child: NodeOrText<Handle>) -> Option<Handle> {
        match child {
            NodeOrText::AppendNode(node) => Some(node),
            NodeOrText::AppendText(new) => {
                if let Some(Data::Text(text)) = before.map(|before| &mut self.nodes[before].data) {
                    text.push_str(&new);
                    return None;
                }
                Some(self.add(Data::Text(new.to_string())))
            }
        }
    }

    fn place(&mut self, parent: Handle, at: usize, node: Handle) {
        self.nodes[node].parent = Some(parent);
        self.nodes[parent].children.insert(at, node);
    }

    fn place_in_parent(&self, node: Handle) -> Option<(Handle, usize)> {
        let parent = self.nodes[node].parent?;
        let at = self.nodes[parent].children.iter().position(|&child| child == node).expect("a child of its parent");
        Some((parent, at))
    }
}

impl TreeSink for Dom {
    type Handle = Handle;
    type Output = Dom;

    fn finish(self) -> Dom {
        self
    }

    // Every page is read, whatever is wrong with it.
    fn parse_error(&mut self, _: Cow<'static, str>) {}

    fn set_quirks_mode(&mut self, _: QuirksMode) {}

    fn get_document(&mut self) -> Handle {
        DOCUMENT
    }

    fn elem_name<'a>(&'a self, target: &'a Handle) -> ExpandedName<'a> {
        match &self.nodes[*target].data {
            Data::Element { name, .. } => name.expanded(),
            _ => panic!("only elements have names"),
        }
    }

    fn create_element(&mut self, name: QualName, attributes: Vec<Attribute>, flags: ElementFlags) -> Handle {
        let template = flags.template.then(|| self.add(Data::Document));
        self.add(Data::Element { name, attributes, template })
    }

    fn create_comment(&mut self, _: StrTendril) -> Handle {
        self.add(Data::Other)
    }

    fn create_pi(&mut self, _: StrTendril, _: StrTendril) -> Handle {
        self.add(Data::Other)
    }

    fn append(&mut self, parent: &Handle, child: NodeOrText<Handle>) {
        let before = self.nodes[*parent].children.last().copied();
        if let Some(node) = self.node_for(before, child) {
            let at = self.nodes[*parent].children.len();
            self.place(*parent, at, node);
        }
    }

    fn append_before_sibling(&mut self, sibling: &Handle, child: NodeOrText<Handle>) {
        let (parent, at) = self.place_in_parent(*sibling).expect("a sibling has a parent");
        let before = at.checked_sub(1).map(|at| self.nodes[parent].children[at]);
        if let Some(node) = self.node_for(before, child) {
            self.remove_from_parent(&node);
            let (parent, at) = self.place_in_parent(*sibling).expect("a sibling has a parent");
            self.place(parent, at, node);
        }
    }

    fn append_based_on_parent_node(&mut self, element: &Handle, previous: &Handle, child: NodeOrText<Handle>) {
        if self.nodes[*element].parent.is_some() {
            self.append_before_sibling(element, child);
        } else {
            self.append(previous, child);
        }
    }

    fn append_doctype_to_document(&mut self, _: StrTendril, _: StrTendril, _: StrTendril) {
        let doctype = self.add(Data::Other);
        let at = self.nodes[DOCUMENT].children.len();
        self.place(DOCUMENT, at, doctype);
    }

    fn get_template_contents(&mut self, target: &Handle) -> Handle {
        match self.nodes[*target].data {
            Data::Element { template: Some(contents), .. } => contents,
            _ => panic!("only templates have contents"),
        }
    }

    fn same_node(&self, x: &Handle, y: &Handle) -> bool {
        x == y
    }

    fn add_attrs_if_missing(&mut self, target: &Handle, new: Vec<Attribute>) {
        let Data::Element { attributes, .. } = &mut self.nodes[*target].data else {
            panic!("only elements have attributes");
        };
        for attribute in new {
            if attributes.iter().all(|there| there.name != attribute.name) {
                attributes.push(attribute);
            }
        }
    }

    fn remove_from_parent(&mut self, target: &Handle) {
        if let Some((parent, at)) = self.place_in_parent(*target) {
            self.nodes[parent].children.remove(at);
            self.nodes[*target].parent = None;
        }
    }

    fn reparent_children(&mut self, node: &Handle, new_parent: &Handle) {
        let children = std::mem::take(&mut self.nodes[*node].children);
        for child in children {
            let at = self.nodes[*new_parent].children.len();
            self.place(*new_parent, at, child);
        }
    }
}
