//! Stand-in for `miden_utils_diagnostics`: only what the reference sources name.

pub mod miette {
    use std::ops::Range;

    #[derive(Debug, Clone, Copy, PartialEq, Eq)]
    pub enum Severity {
        Error,
    }

    /// A text that belongs to a range of bytes.
    #[derive(Debug, Clone, PartialEq, Eq)]
    pub struct LabeledSpan {
        pub range: Range<u32>,
        pub label: String,
    }

    impl LabeledSpan {
        pub fn at(span: impl Into<Range<u32>>, label: impl Into<String>) -> Self {
            Self { range: span.into(), label: label.into() }
        }
    }

    #[derive(Debug, Clone, PartialEq, Eq)]
    pub struct MietteDiagnostic {
        pub message: String,
        pub severity: Option<Severity>,
        pub labels: Option<Vec<LabeledSpan>>,
    }

    impl MietteDiagnostic {
        pub fn new(message: impl Into<String>) -> Self {
            Self { message: message.into(), severity: None, labels: None }
        }
    }
}

pub use miette::{LabeledSpan, Severity};

/// Named by the crate root only.
#[derive(Debug)]
pub struct Report;

/// Makes a diagnostic from `field = value` pairs and a message.
#[macro_export]
macro_rules! diagnostic {
    ($($field:ident = $value:expr,)* $message:literal) => {{
        let mut diagnostic = $crate::miette::MietteDiagnostic::new($message);
        $(diagnostic.$field = Some($value);)*
        diagnostic
    }};
}
