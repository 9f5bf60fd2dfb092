//! The Rust's syntax tree from tree bytes: document 01's layout alone, with no limit on levels.
use crate::parser::ast;

pub const MAX_TREE: usize = 32_768;

/// The bytes are no tree.
pub struct Bad;

type Read<T> = Result<T, Bad>;

/// A name or string as the Rust's String: a byte below 80 stands for itself, so that the builtins' words meet;
/// any other byte b becomes U+0100 + b. Bytes are equal exactly where these Strings are.
pub fn to_string(bytes: &[u8]) -> String {
    let character = |&b: &u8| if b < 0x80 { b as char } else { char::from_u32(0x100 + u32::from(b)).unwrap() };
    bytes.iter().map(character).collect()
}

pub fn to_bytes(text: &str) -> Vec<u8> {
    let byte = |c: char| if (c as u32) < 0x80 { c as u8 } else { (c as u32 - 0x100) as u8 };
    text.chars().map(byte).collect()
}

/// The fields that are still to be read of one content.
struct Fields<'a>(&'a [u8]);

impl<'a> Fields<'a> {
    fn ended(&self) -> bool {
        self.0.is_empty()
    }

    fn next(&mut self) -> Read<(u8, &'a [u8])> {
        let [tag, high, low, rest @ ..] = self.0 else { return Err(Bad) };
        let length = usize::from(u16::from_be_bytes([*high, *low]));
        if rest.len() < length {
            return Err(Bad);
        }
        let (content, after) = rest.split_at(length);
        self.0 = after;
        Ok((*tag, content))
    }

    fn tagged(&mut self, tag: u8) -> Read<&'a [u8]> {
        match self.next()? {
            (t, content) if t == tag => Ok(content),
            _ => Err(Bad),
        }
    }

    fn end(&self) -> Read<()> {
        if self.ended() {
            Ok(())
        } else {
            Err(Bad)
        }
    }

    fn expr(&mut self) -> Read<ast::Expr> {
        let (tag, content) = self.next()?;
        expr(tag, content)
    }

    fn boxed(&mut self) -> Read<Box<ast::Expr>> {
        Ok(Box::new(self.expr()?))
    }

    fn exprs(&mut self) -> Read<Vec<ast::Expr>> {
        let mut list = Vec::new();
        while !self.ended() {
            list.push(self.expr()?);
        }
        Ok(list)
    }

    fn block(&mut self) -> Read<ast::Block> {
        Ok(ast::Block { statements: stmts(self.tagged(0x12)?)? })
    }

    fn operator(&mut self) -> Read<ast::Operator> {
        use ast::Operator::*;
        let all = [Assign, Plus, Minus, Bang, Asterisk, Slash, Equal, NotEqual, Lt, Gt];
        match self.tagged(0x32)? {
            [n] => all.get(usize::from(*n)).cloned().ok_or(Bad),
            _ => Err(Bad),
        }
    }

    fn params(&mut self) -> Read<Vec<ast::Identifier>> {
        let mut fields = Fields(self.tagged(0x31)?);
        let mut list = Vec::new();
        while !fields.ended() {
            list.push(ast::Identifier { value: name(fields.tagged(0x30)?)? });
        }
        Ok(list)
    }
}

fn name(content: &[u8]) -> Read<String> {
    if (1..=32).contains(&content.len()) {
        Ok(to_string(content))
    } else {
        Err(Bad)
    }
}

fn stmts(content: &[u8]) -> Read<Vec<ast::Stmt>> {
    let mut fields = Fields(content);
    let mut list = Vec::new();
    while !fields.ended() {
        let (tag, content) = fields.next()?;
        list.push(stmt(tag, content)?);
    }
    Ok(list)
}

fn stmt(tag: u8, content: &[u8]) -> Read<ast::Stmt> {
    let mut fields = Fields(content);
    let stmt = match tag {
        0x11 => ast::ExprStmt { expr: fields.expr()? }.into(),
        0x12 => return Ok(ast::Block { statements: stmts(content)? }.into()),
        0x13 => {
            let name = ast::Identifier { value: name(fields.tagged(0x30)?)? };
            ast::Let { name, value: fields.expr()? }.into()
        }
        0x14 => ast::Return { return_value: fields.expr()? }.into(),
        _ => return Err(Bad),
    };
    fields.end()?;
    Ok(stmt)
}

fn literal(tag: u8, content: &[u8]) -> Read<ast::Expr> {
    Ok(match (tag, content) {
        (0x20, _) => ast::Identifier { value: name(content)? }.into(),
        (0x26, _) => ast::Integer { value: i64::from_be_bytes(content.try_into().map_err(|_| Bad)?) }.into(),
        (0x27, [b @ (0 | 1)]) => ast::Boolean { value: *b == 1 }.into(),
        (0x28, _) => ast::StringLit { value: to_string(content) }.into(),
        _ => return Err(Bad),
    })
}

fn function(fields: &mut Fields) -> Read<ast::Expr> {
    let name = match fields.tagged(0x30)? {
        [] => String::new(),
        content => name(content)?,
    };
    Ok(ast::Function { params: fields.params()?, body: fields.block()?, name }.into())
}

fn branches(fields: &mut Fields) -> Read<ast::Expr> {
    let (cond, consequence) = (fields.boxed()?, fields.block()?);
    let alternative = if fields.ended() { None } else { Some(fields.block()?) };
    Ok(ast::If { cond, consequence, alternative }.into())
}

fn hash(fields: &mut Fields) -> Read<ast::Expr> {
    let mut pairs = Vec::new();
    while !fields.ended() {
        pairs.push(ast::Pair { key: fields.expr()?, value: fields.expr()? });
    }
    Ok(ast::Hash { pairs }.into())
}

fn expr(tag: u8, content: &[u8]) -> Read<ast::Expr> {
    let mut fields = Fields(content);
    let f = &mut fields;
    let expr = match tag {
        0x21 => ast::PrefixExpr { ope: f.operator()?, right: f.boxed()? }.into(),
        0x22 => ast::InfixExpr { left: f.boxed()?, ope: f.operator()?, right: f.boxed()? }.into(),
        0x23 => branches(f)?,
        0x24 => function(f)?,
        0x25 => ast::Call { func: f.boxed()?, args: f.exprs()? }.into(),
        0x29 => ast::Array { elements: f.exprs()? }.into(),
        0x2A => ast::Index { left: f.boxed()?, index: f.boxed()? }.into(),
        0x2B => hash(f)?,
        0x2C => ast::Expr::MacroLit(ast::MacroLit { params: f.params()?, body: f.block()? }),
        _ => return literal(tag, content),
    };
    fields.end()?;
    Ok(expr)
}

/// The Rust's Program that these bytes are.
pub fn program(bytes: &[u8]) -> Read<ast::Program> {
    if bytes.len() > MAX_TREE {
        return Err(Bad);
    }
    let mut fields = Fields(bytes);
    let content = fields.tagged(0x10)?;
    fields.end()?;
    Ok(ast::Program { statements: stmts(content)? })
}
