// The calls from C++, their slices vectors of the rooms that the macros name: each has memory, on
// an empty file too.
#include <cstdio>
#include <cstring>
#include <vector>

#include "masm_cst.h"
#include "masm_messages.h"
#include "masm_names.h"

struct reading {
    std::vector<uint8_t> source;
    std::vector<uint16_t> kinds, events, messages;
    std::vector<uint32_t> token_ends, starts, ends;
    std::vector<uint64_t> counts;

    explicit reading(size_t n)
        : source(MASM_SOURCE_ROOM(n)), kinds(MASM_TOKEN_ROOM(n)), events(MASM_EVENT_ROOM(n)),
          messages(MASM_DIAGNOSTIC_ROOM(n)), token_ends(MASM_TOKEN_ROOM(n)),
          starts(MASM_DIAGNOSTIC_ROOM(n)), ends(MASM_DIAGNOSTIC_ROOM(n)), counts(MASM_COUNTS)
    {
    }

    bool has_memory() const
    {
        return source.data() && kinds.data() && events.data() && messages.data()
            && token_ends.data() && starts.data() && ends.data() && counts.data();
    }

    uint64_t read(uint64_t limit, size_t n)
    {
        return masm_parse_text(limit, source.data(), n, kinds.data(), kinds.size(),
                               token_ends.data(), token_ends.size(), events.data(), events.size(),
                               messages.data(), messages.size(), starts.data(), starts.size(),
                               ends.data(), ends.size(), counts.data(), counts.size());
    }
};

// Whether a text is accepted with so many tokens, events and diagnostics, in an open and shut root.
static bool reads(uint64_t limit, const char *text, uint64_t tokens, uint64_t events,
                  uint64_t diagnostics)
{
    size_t n = std::strlen(text);
    reading r(n);
    if (!r.has_memory())
        return false;
    std::memcpy(r.source.data(), text, n);
    return r.read(limit, n) == MASM_ACCEPTED && r.counts[0] == tokens && r.counts[1] == events
        && r.counts[2] == diagnostics && r.events[0] == MASM_SOURCE_FILE
        && r.events[events - 1] == MASM_CLOSE;
}

// Whether the offsets of a text have these lines and columns.
static bool places(const char *text, const std::vector<uint32_t> &offsets,
                   const std::vector<uint32_t> &lines, const std::vector<uint32_t> &columns)
{
    std::vector<uint8_t> source(text, text + std::strlen(text));
    source.resize(MASM_SOURCE_ROOM(source.size()));
    std::vector<uint32_t> found_lines(offsets.size()), found_columns(offsets.size());
    uint64_t written = masm_lines(source.data(), source.size() - 1, offsets.data(), offsets.size(),
                                  found_lines.data(), found_lines.size(), found_columns.data(),
                                  found_columns.size());
    return written == offsets.size() && found_lines == lines && found_columns == columns;
}

int main()
{
    char text[MASM_MESSAGE_ROOM];
    bool passed = reads(256, "", 0, 2, 0) && reads(1, "begin add end\n", 6, 14, 0)
        && reads(64, "begin", 1, 7, 1) && reads(1, "begin if if x end", 9, 21, 1)
        && std::strcmp(masm_kind_name(MASM_BLOCK), "Block") == 0
        && std::strcmp(masm_message(64, 22, text), "unexpected top-level token") == 0
        && masm_message(64, MASM_NESTING_TOO_DEEP, text) == text
        && places("", { 0 }, { 1 }, { 1 })
        && places("a\r\nb\rc", { 5, 2, 9 }, { 3, 1, 3 }, { 1, 3, 2 });
    std::printf("vector_test: %s\n", passed ? "passed" : "failed");
    return passed ? 0 : 1;
}
