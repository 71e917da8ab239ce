/* Tunoyaket for C (C99 on) and C++ programs: linker version scripts and export lists, read, asked
 * and edited. The functions are those of crates/c_api, proved to answer what its contracts say on
 * every input. Link with the archive that `./archive c_api` makes, target/staticlib/libc_api.a
 * (x86-64).
 *
 * A slice is a pointer, then a length, which counts elements: bytes, or numbers of 32 bits.
 *
 * The book is six buffers that the caller lends to every call, always in this order: counts, nodes,
 * names, lines, pool, journal. An opening fills them, whatever they held; the caller keeps them and
 * hands them to the next call as they are. A call keeps nothing: no pointer, no memory, no state of
 * its own.
 *
 * What a caller owes, and all that it owes:
 *   - A pointer is never null and is aligned for its elements, also where its length is 0. Nothing
 *     is read or written behind a length of 0: lend the address of any variable of the element's
 *     type.
 *   - All elements are there and have been written before, with whatever values: lend what `calloc`
 *     gives, not what `malloc` does.
 *   - What a call may write (a pointer without `const`) overlaps nothing else that the call is
 *     lent. What it only reads may overlap: where a name has no demangled form, lend the raw one
 *     for both.
 *   - Nothing else reads what a call may write, or writes what it is lent, until it returns. Calls
 *     on other buffers may run at the same time.
 * Everything else is checked: bytes may be any bytes, numbers any numbers. Buffers and counts that
 * are no book are refused with 14 and left alone.
 *
 * An opening answers 0, or the refusal's number + 256 * its place, an offset in the text; every
 * other call answers 0 or the refusal's number. A refused opening leaves all six buffers zero. Any
 * other refused call leaves every byte as it was. Where a call could be refused for several
 * reasons, the order is 14, 13, 11, 12, 1, 9, 10, then the order of reading; a token's own reasons
 * come in the order 1, 5, 6, 8. An opening starts with 1, the length of the counts (8) and the room
 * for node 0 (8). */
#ifndef TUNOYAKET_H
#define TUNOYAKET_H

#include <stddef.h>
#include <stdint.h>

#ifdef __cplusplus
extern "C" {
#endif

/* ---- Refusals: the numbers that say no. 0 is done. */

/* Script, text, trimmed token or name over its limit. */
#define TUNO_TOO_LONG 1u
/* No reading rule fits, or bytes remain. */
#define TUNO_UNREADABLE 2u
/* `#` without line feed, a comment that is not closed, or an extern token up to `}` with no `}`
 * left. */
#define TUNO_UNCLOSED 3u
/* Extern of another language than "C" or "C++", or within extern. */
#define TUNO_BAD_EXTERN 4u
/* A glob that is not UTF-8. */
#define TUNO_GLOB_NOT_UTF8 5u
/* A bracket that is not closed. */
#define TUNO_BAD_PATTERN 6u
/* Unknown parent: no earlier node has this name. */
#define TUNO_UNKNOWN_PARENT 7u
/* A row, byte or journal limit or room would be passed; `out` without room. */
#define TUNO_NO_ROOM 8u
/* Raw or demangled name that is not UTF-8. */
#define TUNO_NAME_NOT_UTF8 9u
/* Unknown wanted version: no node has this name. */
#define TUNO_UNKNOWN_VERSION 10u
/* No such node, section, language or standing line; local or node not 0 in an export list. */
#define TUNO_NO_SUCH 11u
/* Undo with no edit. */
#define TUNO_NOTHING_TO_UNDO 12u
/* Export query or `add_symbol` on a version book; version, locality or count query on an export
 * list, or tuno_why with a wanted version; add or strike on the Rust kind. */
#define TUNO_WRONG_KIND 13u
/* Counts and buffers that are not laid out as a book. */
#define TUNO_NO_BOOK 14u

/* The two parts of what an opening answers. */
#define TUNO_REFUSAL(answer) ((uint32_t)((answer) % 256u))
#define TUNO_PLACE(answer) ((size_t)((answer) / 256u))

/* ---- The book in its buffers. Rows stand one behind the other, the bytes of names and of lines
 * packed in the same order; the rest of each buffer is zero. */

/* How many numbers the counts are, and where each stands: another length is refused with 14, by an
 * opening with 8. */
#define TUNO_COUNTS 6u
#define TUNO_COUNT_KIND 0u
#define TUNO_COUNT_NODES 1u
#define TUNO_COUNT_NAME_BYTES 2u
#define TUNO_COUNT_LINES 3u
#define TUNO_COUNT_POOL_BYTES 4u
#define TUNO_COUNT_EDITS 5u

/* Kinds. Rust: one body without a name, with only exact names as globals, no extern block among
 * them, and a bare `*` among its locals, as rustc writes it; whoever wrote it, it can't be edited.
 * The same body with a name is Regular. */
#define TUNO_KIND_REGULAR 0u
#define TUNO_KIND_RUST 1u
#define TUNO_KIND_EXPORT_LIST 2u

/* A row of `nodes`: where its name starts in `names`, the name's length, the parent's number or 0.
 * Node 0 is the one without a name. */
#define TUNO_NODE_WIDTH 3u
#define TUNO_NODE_START 0u
#define TUNO_NODE_LENGTH 1u
#define TUNO_NODE_PARENT 2u

/* A row of `lines`: node, code, where its bytes start in `pool`, their number, offset. Lines are
 * numbered from 0. The bytes are what is kept of the token: without quotes; of an escaped one
 * without its `\`; of a glob with each `[^` as `[!`, and then a run of `*` outside brackets as one;
 * of a lone `*` none. */
#define TUNO_LINE_WIDTH 5u
#define TUNO_LINE_NODE 0u
#define TUNO_LINE_CODE 1u
#define TUNO_LINE_START 2u
#define TUNO_LINE_LENGTH 3u
/* Where the line came from: the place of its token in the opened text, in bytes from 0, plus one; of
 * a token in quotes that of the opening quote. 0 for a line that tuno_add or tuno_add_symbol added.
 * A line keeps it through strike, undo and settle, though a settle may renumber the line. No answer
 * goes by it; tuno_why tells it. A lent book with one over TUNO_SCRIPT_LIMIT is refused with 14. */
#define TUNO_LINE_OFFSET 4u

/* A line's code is class * 4 + section * 2 + language, and 32 more where the line is struck. */
#define TUNO_CODE_CLASS(code) ((code) % 32u / 4u)
#define TUNO_CODE_SECTION(code) ((code) % 4u / 2u)
#define TUNO_CODE_LANGUAGE(code) ((code) % 2u)
#define TUNO_CODE_STRUCK(code) ((code) / 32u)

#define TUNO_CLASS_EXACT 0u
#define TUNO_CLASS_ESCAPED 1u
#define TUNO_CLASS_NON_STAR 2u
#define TUNO_CLASS_STAR 3u
#define TUNO_CLASS_ALL 4u

#define TUNO_SECTION_GLOBAL 0u
#define TUNO_SECTION_LOCAL 1u

#define TUNO_LANGUAGE_GENERAL 0u
#define TUNO_LANGUAGE_CXX 1u

/* A row of `journal`: what was done, to which line. */
#define TUNO_EDIT_WIDTH 2u
#define TUNO_EDIT_WHAT 0u
#define TUNO_EDIT_LINE 1u
#define TUNO_EDIT_ADD 1u
#define TUNO_EDIT_STRIKE 2u

/* ---- Answers into out[0]. */

/* The version index of a symbol: none, the global one, or that of a named node. Node 0 answers
 * none: TUNO_VERSION_OF_NODE(0) is the global one, and not its answer. */
#define TUNO_VERSION_NONE 0u
#define TUNO_VERSION_GLOBAL 1u
#define TUNO_VERSION_OF_NODE(node) ((node) + 1u)

#define TUNO_LOCALITY_NOTHING 0u
#define TUNO_LOCALITY_GLOBAL 1u
#define TUNO_LOCALITY_LOCAL 2u

/* ---- Answers of tuno_why into `out`. */

/* How many numbers they are, and where each stands. Those behind the first are the number of the
 * line that is named and what its row says; all six are 0 where none is named. An added line's
 * offset is 0, too. */
#define TUNO_WHY 7u
#define TUNO_WHY_WHAT 0u
#define TUNO_WHY_NUMBER 1u
#define TUNO_WHY_CLASS 2u
#define TUNO_WHY_NODE 3u
#define TUNO_WHY_SECTION 4u
#define TUNO_WHY_LANGUAGE 5u
#define TUNO_WHY_OFFSET 6u

/* The first: no line matches, a line is named, or the wanted version decides. */
#define TUNO_WHY_NO_LINE 0u
#define TUNO_WHY_LINE 1u
#define TUNO_WHY_WANTED 2u

/* ---- Limits, last accepted. One more is refused with 1, or with 8 for nodes, lines, pool and
 * edits. */
#define TUNO_SCRIPT_LIMIT 1048576u
/* A trimmed token, and the text of tuno_add_symbol. */
#define TUNO_TOKEN_LIMIT 65536u
#define TUNO_RAW_NAME_LIMIT 4096u
#define TUNO_DEMANGLED_NAME_LIMIT 65536u
#define TUNO_WANTED_VERSION_LIMIT 4096u
/* Node 0 counts. */
#define TUNO_NODE_LIMIT 1024u
#define TUNO_LINE_LIMIT 16384u
#define TUNO_POOL_LIMIT 2097152u
#define TUNO_EDIT_LIMIT 4096u

/* ---- Rooms, as lengths. Whole rows count as room; any room is allowed, one that is too short is
 * refused with 8, and what lies past a limit stays zero. Every call reads all that it is lent, so
 * it takes longer in larger rooms.
 *
 * A book may be moved to other rooms. It fills the first 3 * counts[1] numbers of `nodes`,
 * counts[2] bytes of `names`, 5 * counts[3] numbers of `lines`, counts[4] bytes of `pool` and
 * 2 * counts[5] numbers of `journal`. Copy at least these, zeros among them too, and fill what is
 * longer with zeros. */

/* Enough for every book that a text opens as, and what edits make of it. Names have no limit of
 * their own: those of a script are shorter than it. */
#define TUNO_NODES_ROOM (TUNO_NODE_WIDTH * TUNO_NODE_LIMIT)
#define TUNO_NAMES_ROOM TUNO_SCRIPT_LIMIT
#define TUNO_LINES_ROOM (TUNO_LINE_WIDTH * TUNO_LINE_LIMIT)
#define TUNO_POOL_ROOM TUNO_POOL_LIMIT
#define TUNO_JOURNAL_ROOM (TUNO_EDIT_WIDTH * TUNO_EDIT_LIMIT)

/* Enough for any text of so many bytes, so that 8 then means a limit: a named node takes four of
 * them at least, the last one's name alone one, and a line two. An opening needs no journal; each
 * edit needs a row of it, and an added line a row of `lines` and at most its token's bytes in
 * `pool`. For very short texts some of these are 0: `calloc(0, ..)` may give a null pointer, which
 * may not be lent, so ask it for one element more. */
#define TUNO_NODES_ROOM_FOR(bytes) (TUNO_NODE_WIDTH * (((bytes) + 3u) / 4u + 1u))
#define TUNO_NAMES_ROOM_FOR(bytes) (bytes)
#define TUNO_LINES_ROOM_FOR(bytes) (TUNO_LINE_WIDTH * ((bytes) / 2u))
#define TUNO_POOL_ROOM_FOR(bytes) (bytes)

/* ---- Openings. They write all six buffers, to the end: the book, or zeros. */

/* Reads a version script. Refusals: 1, 2, 3, 4, 5, 6, 7, 8, each with its place. */
uint64_t tuno_open_version_script(
    const uint8_t *text, size_t text_length,
    uint32_t *counts, size_t counts_length,
    uint32_t *nodes, size_t nodes_length,
    uint8_t *names, size_t names_length,
    uint32_t *lines, size_t lines_length,
    uint8_t *pool, size_t pool_length,
    uint32_t *journal, size_t journal_length);

/* Reads an export list. Refusals: 1, 2, 3, 4, 5, 6, 8, each with its place. */
uint64_t tuno_open_export_list(
    const uint8_t *text, size_t text_length,
    uint32_t *counts, size_t counts_length,
    uint32_t *nodes, size_t nodes_length,
    uint8_t *names, size_t names_length,
    uint32_t *lines, size_t lines_length,
    uint8_t *pool, size_t pool_length,
    uint32_t *journal, size_t journal_length);

/* ---- Questions. Where nothing is refused the answer is written to out[0], that of tuno_why to the
 * first seven numbers of `out`, and nothing else is; an `out` without room for it is refused with
 * 8, last. */

/* How many versions a script defines: 0 where it has no named node, as the Rust kind has none, else
 * the number of its nodes, node 0 included. Refusals: 14, 13 (export list), 8. */
uint32_t tuno_version_count(
    const uint32_t *counts, size_t counts_length,
    const uint32_t *nodes, size_t nodes_length,
    const uint8_t *names, size_t names_length,
    const uint32_t *lines, size_t lines_length,
    const uint8_t *pool, size_t pool_length,
    const uint32_t *journal, size_t journal_length,
    uint32_t *out, size_t out_length);

/* How many nodes have a parent. Refusals: 14, 13 (export list), 8. */
uint32_t tuno_parent_count(
    const uint32_t *counts, size_t counts_length,
    const uint32_t *nodes, size_t nodes_length,
    const uint8_t *names, size_t names_length,
    const uint32_t *lines, size_t lines_length,
    const uint8_t *pool, size_t pool_length,
    const uint32_t *journal, size_t journal_length,
    uint32_t *out, size_t out_length);

/* The version index of a symbol. Where `has_wanted` is 0, `wanted` is not looked at, and the index
 * is that of the node of the line that decides; it is 0 where no line matches and where node 0
 * decides. C++ lines see the demangled name, others the raw one. Where `has_wanted` is not 0,
 * `wanted` is the version that the symbol asks for: the index is that of the last node of this
 * name, 1 where it is empty, whichever line decides. Of the Rust kind the index is always 0, with a
 * wanted version too, and 10 is not given. Refusals: 14, 13 (export list), 1 (a name or `wanted`),
 * 9, 10, 8. */
uint32_t tuno_version_for_symbol(
    const uint32_t *counts, size_t counts_length,
    const uint32_t *nodes, size_t nodes_length,
    const uint8_t *names, size_t names_length,
    const uint32_t *lines, size_t lines_length,
    const uint8_t *pool, size_t pool_length,
    const uint32_t *journal, size_t journal_length,
    const uint8_t *raw, size_t raw_length,
    const uint8_t *demangled, size_t demangled_length,
    uint32_t has_wanted,
    const uint8_t *wanted, size_t wanted_length,
    uint32_t *out, size_t out_length);

/* The section of the line that decides on a symbol: 0 where no line matches, 1 global, 2 local; of
 * the Rust kind 1 for the names that it lists as globals, else 2. Refusals: 14, 13 (export list),
 * 1, 9, 8. */
uint32_t tuno_locality(
    const uint32_t *counts, size_t counts_length,
    const uint32_t *nodes, size_t nodes_length,
    const uint8_t *names, size_t names_length,
    const uint32_t *lines, size_t lines_length,
    const uint8_t *pool, size_t pool_length,
    const uint32_t *journal, size_t journal_length,
    const uint8_t *raw, size_t raw_length,
    const uint8_t *demangled, size_t demangled_length,
    uint32_t *out, size_t out_length);

/* 1 where a symbol is in an export list, else 0. Refusals: 14, 13 (version script), 1, 9, 8. */
uint32_t tuno_contains(
    const uint32_t *counts, size_t counts_length,
    const uint32_t *nodes, size_t nodes_length,
    const uint8_t *names, size_t names_length,
    const uint32_t *lines, size_t lines_length,
    const uint8_t *pool, size_t pool_length,
    const uint32_t *journal, size_t journal_length,
    const uint8_t *raw, size_t raw_length,
    const uint8_t *demangled, size_t demangled_length,
    uint32_t *out, size_t out_length);

/* Why a symbol has its version, is global or local, or is in an export list: the line that decides.
 * Of the lines that match it is the first in the ranking (docs/GUIDE.md, 'Classes and ranking'), at
 * equal rank the one with the lowest number. Where `has_wanted` is 0, `wanted` is not looked at.
 * Where it is not 0, `wanted` is the version that the symbol asks for. It decides, also where it is
 * empty, and no line is named; the locality still goes by the line that is named without it. Of the
 * Rust kind a line is named with a wanted version too, and 10 is not given: the first global one
 * with the bytes of the raw name, else the first local one of class All that is not C++. Refusals:
 * 14, 13 (a wanted version of an export list), 1 (a name or `wanted`), 9, 10, 8. */
uint32_t tuno_why(
    const uint32_t *counts, size_t counts_length,
    const uint32_t *nodes, size_t nodes_length,
    const uint8_t *names, size_t names_length,
    const uint32_t *lines, size_t lines_length,
    const uint8_t *pool, size_t pool_length,
    const uint32_t *journal, size_t journal_length,
    const uint8_t *raw, size_t raw_length,
    const uint8_t *demangled, size_t demangled_length,
    uint32_t has_wanted,
    const uint8_t *wanted, size_t wanted_length,
    uint32_t *out, size_t out_length);

/* ---- Edits. Where nothing is refused the counts and the buffers without `const` are those of the
 * changed book. */

/* Appends a line, whose number is the count of lines before the call, with the offset 0. The token
 * is trimmed at its end and classed as in a script; it may be any bytes or none. Refusals: 14, 13
 * (Rust kind), 11, 1, 5, 6, 8. */
uint32_t tuno_add(
    uint32_t *counts, size_t counts_length,
    const uint32_t *nodes, size_t nodes_length,
    const uint8_t *names, size_t names_length,
    uint32_t *lines, size_t lines_length,
    uint8_t *pool, size_t pool_length,
    uint32_t *journal, size_t journal_length,
    uint32_t node, uint32_t section, uint32_t language,
    const uint8_t *token, size_t token_length);

/* Strikes a line that stands: no question sees it then. Refusals: 14, 13 (Rust kind), 11, 8
 * (journal). */
uint32_t tuno_strike(
    uint32_t *counts, size_t counts_length,
    const uint32_t *nodes, size_t nodes_length,
    const uint8_t *names, size_t names_length,
    uint32_t *lines, size_t lines_length,
    const uint8_t *pool, size_t pool_length,
    uint32_t *journal, size_t journal_length,
    uint32_t line);

/* Takes back the latest edit that has not been undone. Undoing every edit since the opening, or
 * since the last settle that dropped a line, brings back every byte of that moment. Refusals: 14,
 * 12. */
uint32_t tuno_undo(
    uint32_t *counts, size_t counts_length,
    const uint32_t *nodes, size_t nodes_length,
    const uint8_t *names, size_t names_length,
    uint32_t *lines, size_t lines_length,
    uint8_t *pool, size_t pool_length,
    uint32_t *journal, size_t journal_length);

/* Drops the struck lines, packs and renumbers the rest in order, and empties the journal; with none
 * struck nothing changes. The lines that stand keep their offsets. Refusals: 14. */
uint32_t tuno_settle(
    uint32_t *counts, size_t counts_length,
    const uint32_t *nodes, size_t nodes_length,
    const uint8_t *names, size_t names_length,
    uint32_t *lines, size_t lines_length,
    uint8_t *pool, size_t pool_length,
    uint32_t *journal, size_t journal_length);

/* Reads one matcher at the start of the text, ignores what is left, and adds its lines to an export
 * list, all or none, each as one edit and with the offset 0. Nothing is skipped before the matcher:
 * a blank there belongs to the token. Behind the `};` of an extern block blanks and comments still
 * belong to the matcher: `extern "C" { g; }; #x` is refused with 3, since its comment has no line
 * feed.
 * Where `without_semicolon` is not 0, a token outside extern goes to the first `}`, a `;` included.
 * Where there is none it is all the text, and blanks and comments are skipped from the text's first
 * byte: `#x` and a text that starts with an open comment are refused with 3, `x #` is a token. In
 * an extern block a token goes to its `;` where no `};` is left, so that `extern "C" { a; b` is
 * refused with 2, and not with 3 as without the flag. Refusals: 14, 13 (version script), 1, 2, 3, 4,
 * 5, 6, 8. */
uint32_t tuno_add_symbol(
    uint32_t *counts, size_t counts_length,
    const uint32_t *nodes, size_t nodes_length,
    const uint8_t *names, size_t names_length,
    uint32_t *lines, size_t lines_length,
    uint8_t *pool, size_t pool_length,
    uint32_t *journal, size_t journal_length,
    const uint8_t *text, size_t text_length,
    uint32_t without_semicolon);

#ifdef __cplusplus
}
#endif

#endif
