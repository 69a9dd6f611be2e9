//! The typed tree, as empty as parser.rs allows.

use crate::syntax::{MasmLanguage, SyntaxNode};

pub trait AstNode: Sized {
    type Language: rowan::Language;

    fn cast(node: rowan::SyntaxNode<Self::Language>) -> Option<Self>;
    fn syntax(&self) -> &rowan::SyntaxNode<Self::Language>;
}

pub struct SourceFile(SyntaxNode);

impl AstNode for SourceFile {
    type Language = MasmLanguage;

    fn cast(node: SyntaxNode) -> Option<Self> {
        Some(Self(node))
    }

    fn syntax(&self) -> &SyntaxNode {
        &self.0
    }
}
