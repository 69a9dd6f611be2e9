//! What of the sources is not mutated, since no kept reading reaches it or its result is fixed outside.

/// Imports, `extern`, bounded and inline parsing, and the views of a finished parse.
const LEFT_OUT: [&str; 36] = [
    "at_import_list_recovery_boundary",
    "at_package_name_like",
    "diagnostics",
    "from",
    "has_errors",
    "kind_from_raw",
    "kind_to_raw",
    "new",
    "new_bounded",
    "parse_block_unterminated",
    "parse_extern_package",
    "parse_import",
    "parse_import_list",
    "parse_import_specifier",
    "parse_inline_masm",
    "parse_inline_masm_text",
    "parse_item_import_module_path",
    "parse_module_import",
    "parse_optional_module_alias",
    "parse_rejected_digest_import_target",
    "parse_rejected_old_import_alias",
    "parse_rejected_wildcard_import",
    "parse_source_file",
    "parse_text",
    "peek_contextual_keyword_after_non_comment_trivia",
    "root",
    "source",
    "source_file",
    "source_span_from_text_range",
    "span_for_ast_node",
    "span_for_element",
    "span_for_node",
    "span_for_range",
    "span_for_token",
    "syntax",
    "take_diagnostics",
];

pub fn kept(function: &str) -> bool {
    !LEFT_OUT.contains(&function)
}

/// Lines of kept functions that only concern `use` and `extern`.
const REFUSED: [&str; 9] = [
    "if self.at_prefixed_keyword(\"extern\", \"package\") {",
    "self.parse_extern_package();",
    "if self.at_keyword(\"use\") || self.at_prefixed_keyword(\"pub\", \"use\") {",
    "self.parse_import();",
    "\"extern\" => matches!(",
    "self.next_relevant_top_level_token(index + 1)",
    "Some(next) if next.kind() == SyntaxKind::Ident && next.text() == \"package\"",
    "let next = if prefix == \"pub\" {",
    "self.next_relevant_top_level_token(self.pos + 1)",
];

pub fn refused_line(line: &str) -> bool {
    REFUSED.contains(&line)
}

/// Words of the left out forms: no token has them in an accepted source.
pub fn refused_word(word: &str) -> bool {
    matches!(word, "use" | "extern")
}
