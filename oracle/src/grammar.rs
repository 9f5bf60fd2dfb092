//! The productions of docs/GRAMMAR.md as a table.
use std::collections::HashMap;

/// The productions: the left side, then the symbols. A symbol that begins with a capital letter has productions, any other is a token.
/// Those with ' derive what stands behind a statement without `;`: it does not begin with `(`, `[` or `-`.
const PRODUCTIONS: &[&str] = &[
    "Statements",
    "Statements Row",
    "Statements Row ;",
    "Row Statement",
    "Row Row ; Statement",
    "Row Row Statement'",
    "Statement let name = Equality",
    "Statement return Equality",
    "Statement Equality",
    "Statement' let name = Equality",
    "Statement' return Equality",
    "Statement' Equality'",
    "Equality Comparison",
    "Equality Equality == Comparison",
    "Equality Equality != Comparison",
    "Equality' Comparison'",
    "Equality' Equality' == Comparison",
    "Equality' Equality' != Comparison",
    "Comparison Sum",
    "Comparison Comparison < Sum",
    "Comparison Comparison > Sum",
    "Comparison' Sum'",
    "Comparison' Comparison' < Sum",
    "Comparison' Comparison' > Sum",
    "Sum Product",
    "Sum Sum + Product",
    "Sum Sum - Product",
    "Sum' Product'",
    "Sum' Sum' + Product",
    "Sum' Sum' - Product",
    "Product Prefix",
    "Product Product * Prefix",
    "Product Product / Prefix",
    "Product' Prefix'",
    "Product' Product' * Prefix",
    "Product' Product' / Prefix",
    "Prefix Postfix",
    "Prefix ! Prefix",
    "Prefix - Prefix",
    "Prefix' Postfix'",
    "Prefix' ! Prefix",
    "Postfix Primary",
    "Postfix Postfix ( List )",
    "Postfix Postfix [ Equality ]",
    "Postfix' Primary'",
    "Postfix' Postfix' ( List )",
    "Postfix' Postfix' [ Equality ]",
    "Primary Primary'",
    "Primary ( Equality )",
    "Primary [ List ]",
    "Primary' name",
    "Primary' integer",
    "Primary' string",
    "Primary' true",
    "Primary' false",
    "Primary' { Pairs }",
    "Primary' if ( Equality ) Block",
    "Primary' if ( Equality ) Block else Block",
    "Primary' fn ( Names ) Block",
    "Block { Statements }",
    "List",
    "List Items",
    "Items Equality",
    "Items Items , Equality",
    "Pairs",
    "Pairs Entries",
    "Entries Equality : Equality",
    "Entries Entries , Equality : Equality",
    "Names",
    "Names Parameters",
    "Parameters name",
    "Parameters Parameters , name",
];

/// A production, cut into its symbols.
pub struct Rule {
    pub left: &'static str,
    pub right: Vec<&'static str>,
}

pub fn derives(symbol: &str) -> bool {
    symbol.starts_with(|c: char| c.is_ascii_uppercase())
}

/// The productions, by the symbol on the left.
pub struct Grammar {
    pub rules: Vec<Rule>,
    pub of: HashMap<&'static str, Vec<usize>>,
}

impl Default for Grammar {
    fn default() -> Self {
        let mut grammar = Grammar { rules: Vec::new(), of: HashMap::new() };
        for (number, line) in PRODUCTIONS.iter().enumerate() {
            let mut symbols = line.split(' ');
            let left = symbols.next().unwrap();
            grammar.rules.push(Rule { left, right: symbols.collect() });
            grammar.of.entry(left).or_default().push(number);
        }
        grammar
    }
}
