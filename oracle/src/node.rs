//! Fields in memory, so that trees can be made and taken apart.

#[derive(Clone, Debug)]
pub struct Node {
    pub tag: u8,
    pub body: Body,
}

#[derive(Clone, Debug)]
pub enum Body {
    Bytes(Vec<u8>),
    Children(Vec<Node>),
}

pub fn leaf(tag: u8, bytes: &[u8]) -> Node {
    Node { tag, body: Body::Bytes(bytes.to_vec()) }
}

pub fn branch(tag: u8, children: Vec<Node>) -> Node {
    Node { tag, body: Body::Children(children) }
}

pub fn program(statements: Vec<Node>) -> Node {
    branch(0x10, statements)
}

pub fn expr_stmt(expr: Node) -> Node {
    branch(0x11, vec![expr])
}

pub fn block(statements: Vec<Node>) -> Node {
    branch(0x12, statements)
}

pub fn let_stmt(name: &[u8], value: Node) -> Node {
    branch(0x13, vec![leaf(0x30, name), value])
}

pub fn return_stmt(value: Node) -> Node {
    branch(0x14, vec![value])
}

pub fn identifier(name: &[u8]) -> Node {
    leaf(0x20, name)
}

pub fn prefix(operator: u8, right: Node) -> Node {
    branch(0x21, vec![leaf(0x32, &[operator]), right])
}

pub fn infix(left: Node, operator: u8, right: Node) -> Node {
    branch(0x22, vec![left, leaf(0x32, &[operator]), right])
}

pub fn if_expr(condition: Node, consequence: Vec<Node>, alternative: Option<Vec<Node>>) -> Node {
    let mut children = vec![condition, block(consequence)];
    children.extend(alternative.map(block));
    branch(0x23, children)
}

pub fn params(names: &[Vec<u8>]) -> Node {
    branch(0x31, names.iter().map(|n| leaf(0x30, n)).collect())
}

pub fn function(name: &[u8], names: &[Vec<u8>], body: Vec<Node>) -> Node {
    branch(0x24, vec![leaf(0x30, name), params(names), block(body)])
}

pub fn call(callee: Node, arguments: Vec<Node>) -> Node {
    branch(0x25, std::iter::once(callee).chain(arguments).collect())
}

pub fn integer(value: i64) -> Node {
    leaf(0x26, &value.to_be_bytes())
}

pub fn boolean(value: bool) -> Node {
    leaf(0x27, &[u8::from(value)])
}

pub fn string(bytes: &[u8]) -> Node {
    leaf(0x28, bytes)
}

pub fn array(elements: Vec<Node>) -> Node {
    branch(0x29, elements)
}

pub fn index(left: Node, at: Node) -> Node {
    branch(0x2A, vec![left, at])
}

pub fn hash(expressions: Vec<Node>) -> Node {
    branch(0x2B, expressions)
}

pub fn macro_lit(names: &[Vec<u8>], body: Vec<Node>) -> Node {
    branch(0x2C, vec![params(names), block(body)])
}

impl Node {
    /// The field's bytes; a length above 65,535 loses its high part.
    pub fn bytes(&self) -> Vec<u8> {
        let mut out = Vec::new();
        self.write(&mut out);
        out
    }

    fn write(&self, out: &mut Vec<u8>) {
        let start = out.len();
        out.extend_from_slice(&[self.tag, 0, 0]);
        match &self.body {
            Body::Bytes(bytes) => out.extend_from_slice(bytes),
            Body::Children(children) => children.iter().for_each(|c| c.write(out)),
        }
        let length = (out.len() - start - 3) as u16;
        out[start + 1..start + 3].copy_from_slice(&length.to_be_bytes());
    }

    /// How many fields there are, this one included.
    pub fn count(&self) -> usize {
        match &self.body {
            Body::Bytes(_) => 1,
            Body::Children(children) => 1 + children.iter().map(Node::count).sum::<usize>(),
        }
    }

    /// The field with this number, counted from 0 in the order of the bytes.
    pub fn nth(&mut self, mut n: usize) -> Option<&mut Node> {
        if n == 0 {
            return Some(self);
        }
        n -= 1;
        let Body::Children(children) = &mut self.body else { return None };
        for child in children {
            let count = child.count();
            if n < count {
                return child.nth(n);
            }
            n -= count;
        }
        None
    }

    /// The fields that these bytes are, where lengths fit and tags say which field has children.
    pub fn parse(bytes: &[u8]) -> Option<Node> {
        let (node, rest) = Node::parse_one(bytes)?;
        rest.is_empty().then_some(node)
    }

    fn parse_one(bytes: &[u8]) -> Option<(Node, &[u8])> {
        let [tag, high, low, rest @ ..] = bytes else { return None };
        let length = usize::from(u16::from_be_bytes([*high, *low]));
        if rest.len() < length {
            return None;
        }
        let (mut content, after) = rest.split_at(length);
        if matches!(tag, 0x20 | 0x26..=0x28 | 0x30 | 0x32) {
            return Some((leaf(*tag, content), after));
        }
        let mut children = Vec::new();
        while !content.is_empty() {
            let (child, rest) = Node::parse_one(content)?;
            children.push(child);
            content = rest;
        }
        Some((branch(*tag, children), after))
    }
}
