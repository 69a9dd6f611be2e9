//! Stand-in for `miden_debug_types`: only what the reference sources name.

use std::{num::TryFromIntError, ops::Range};

#[derive(Debug, Clone, Copy, PartialEq, Eq)]
pub struct SourceId(u32);

impl SourceId {
    pub const UNKNOWN: Self = Self(u32::MAX);
}

#[derive(Debug, Clone, Copy, PartialEq, Eq)]
pub enum SourceLanguage {
    Masm,
}

#[derive(Debug, Clone, PartialEq, Eq)]
pub struct Uri(String);

impl Uri {
    pub fn new(uri: impl Into<String>) -> Self {
        Self(uri.into())
    }
}

/// A named text. Language and name are kept and never read by the parser.
#[derive(Debug)]
pub struct SourceFile {
    id: SourceId,
    content: Box<str>,
    pub language: SourceLanguage,
    pub uri: Uri,
}

impl SourceFile {
    pub fn new(id: SourceId, language: SourceLanguage, uri: Uri, content: Box<str>) -> Self {
        Self { id, content, language, uri }
    }

    pub fn id(&self) -> SourceId {
        self.id
    }

    pub fn as_str(&self) -> &str {
        &self.content
    }
}

/// A range of bytes in one source file.
#[derive(Debug, Clone, Copy, PartialEq, Eq)]
pub struct SourceSpan {
    source_id: SourceId,
    start: u32,
    end: u32,
}

impl SourceSpan {
    pub fn new(source_id: SourceId, range: Range<u32>) -> Self {
        Self { source_id, start: range.start, end: range.end }
    }

    /// The empty span at one offset: the end equals the start.
    pub fn at(source_id: SourceId, offset: u32) -> Self {
        Self::new(source_id, offset..offset)
    }

    pub fn try_from_range(
        source_id: SourceId,
        range: Range<usize>,
    ) -> Result<Self, TryFromIntError> {
        Ok(Self::new(source_id, u32::try_from(range.start)?..u32::try_from(range.end)?))
    }

    pub fn source_id(self) -> SourceId {
        self.source_id
    }

    pub fn into_slice_index(self) -> Range<usize> {
        self.start as usize..self.end as usize
    }
}

impl From<SourceSpan> for Range<u32> {
    fn from(span: SourceSpan) -> Self {
        span.start..span.end
    }
}
