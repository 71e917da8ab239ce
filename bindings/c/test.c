/* Calls every function of include/tunoyaket.h; compiled as C99 and as C++17. Its argument is the repository's examples/haze.txt. What each function is refused
 * with is tried number by number, and the last checks ask that none was left out. Ends with `N passed, 0 failed`. */
#include "tunoyaket.h"

#include <stdio.h>
#include <stdlib.h>
#include <string.h>

/* ---- counting */

static unsigned passed, failed;

static int check(int holds, const char *what, int line) {
    if (holds) {
        passed++;
    } else {
        failed++;
        printf("line %d: not so: %s\n", line, what);
    }
    return holds;
}

#define CHECK(holds) check((holds) != 0, #holds, __LINE__)

enum {
    SCRIPT, LIST, VERSIONS, PARENTS, VERSION, LOCALITY, CONTAINS, WHY, ADD, STRIKE, UNDO, SETTLE, SYMBOL, FUNCTIONS
};

/* What each function can be refused with, in the header's words, and what it was: bit n for number n, 0 for done. */
static const char *const refusals[FUNCTIONS] = {
    "1 2 3 4 5 6 7 8", "1 2 3 4 5 6 8",                                                     /* openings */
    "14 13 8", "14 13 8", "14 13 1 9 10 8", "14 13 1 9 8", "14 13 1 9 8", "14 13 1 9 10 8", /* questions */
    "14 13 11 1 5 6 8", "14 13 11 8", "14 12", "14", "14 13 1 2 3 4 5 6 8"};                /* edits */
static unsigned met[FUNCTIONS];

static unsigned declared(int function) {
    const char *rest = refusals[function];
    char *end;
    unsigned numbers = 1;
    for (; *rest != 0; rest = end) numbers |= 1u << strtoul(rest, &end, 10);
    return numbers;
}

static uint32_t noted(int function, uint32_t number) {
    met[function] |= 1u << number;
    return number;
}

/* ---- lent memory, with an element on either side of each buffer that no call may touch */

struct rooms {
    size_t counts, nodes, names, lines, pool, journal;
};

struct book {
    struct rooms rooms;
    uint32_t counts[TUNO_COUNTS + 3];
    uint32_t nodes[TUNO_NODES_ROOM + 5];
    uint32_t lines[TUNO_LINES_ROOM + 7];
    uint32_t journal[TUNO_JOURNAL_ROOM + 4];
    uint8_t names[TUNO_NAMES_ROOM + 2];
    uint8_t pool[TUNO_POOL_ROOM + 3];
};

#define NUMBER_NOISE 0xa5a5a5a5u
#define BYTE_NOISE 0xa5u

/* Static, for their size. `b` is the book of most tests, `before` what it was. */
static struct book b, before;
static uint8_t text[TUNO_SCRIPT_LIMIT + 1];

static const struct rooms all_rooms = {
    TUNO_COUNTS, TUNO_NODES_ROOM, TUNO_NAMES_ROOM, TUNO_LINES_ROOM, TUNO_POOL_ROOM, TUNO_JOURNAL_ROOM};
static const struct rooms some_rooms = {TUNO_COUNTS, 31, 64, 52, 70, 17};

static void lend(struct rooms rooms) {
    memset(&b, BYTE_NOISE, sizeof b);
    b.rooms = rooms;
}

static void lend_zeros(struct rooms rooms) {
    lend(rooms);
    memset(b.counts + 1, 0, 4 * rooms.counts);
    memset(b.nodes + 1, 0, 4 * rooms.nodes);
    memset(b.names + 1, 0, rooms.names);
    memset(b.lines + 1, 0, 4 * rooms.lines);
    memset(b.pool + 1, 0, rooms.pool);
    memset(b.journal + 1, 0, 4 * rooms.journal);
}

static int untouched_beside(void) {
    return b.counts[0] == NUMBER_NOISE && b.counts[b.rooms.counts + 1] == NUMBER_NOISE &&
        b.nodes[0] == NUMBER_NOISE && b.nodes[b.rooms.nodes + 1] == NUMBER_NOISE &&
        b.lines[0] == NUMBER_NOISE && b.lines[b.rooms.lines + 1] == NUMBER_NOISE &&
        b.journal[0] == NUMBER_NOISE && b.journal[b.rooms.journal + 1] == NUMBER_NOISE &&
        b.names[0] == BYTE_NOISE && b.names[b.rooms.names + 1] == BYTE_NOISE &&
        b.pool[0] == BYTE_NOISE && b.pool[b.rooms.pool + 1] == BYTE_NOISE;
}

static int zero(const void *memory, size_t length) {
    const unsigned char *bytes = (const unsigned char *)memory;
    size_t i;
    for (i = 0; i < length; i++) {
        if (bytes[i] != 0) return 0;
    }
    return 1;
}

static int all_zero(void) {
    return zero(b.counts + 1, 4 * b.rooms.counts) && zero(b.nodes + 1, 4 * b.rooms.nodes) &&
        zero(b.names + 1, b.rooms.names) && zero(b.lines + 1, 4 * b.rooms.lines) &&
        zero(b.pool + 1, b.rooms.pool) && zero(b.journal + 1, 4 * b.rooms.journal);
}

static void keep(void) { memcpy(&before, &b, sizeof b); }
static int as_before(void) { return memcmp(&before, &b, sizeof b) == 0; }

static uint32_t count(unsigned which) { return b.counts[1 + which]; }

static const uint8_t *bytes(const char *string) { return (const uint8_t *)string; }

/* ---- the thirteen calls, on `b` */

#define BOOK                                                                                                   \
    b.counts + 1, b.rooms.counts, b.nodes + 1, b.rooms.nodes, b.names + 1, b.rooms.names, b.lines + 1,         \
        b.rooms.lines, b.pool + 1, b.rooms.pool, b.journal + 1, b.rooms.journal

static uint64_t open_bytes(int function, const uint8_t *script, size_t length) {
    uint64_t answer = function == SCRIPT ? tuno_open_version_script(script, length, BOOK) : tuno_open_export_list(script, length, BOOK);
    noted(function, TUNO_REFUSAL(answer));
    return answer;
}

static uint64_t opened(int function, const char *script) { return open_bytes(function, bytes(script), strlen(script)); }

static uint32_t opened_fresh(int function, const char *script) {
    lend(all_rooms);
    return TUNO_REFUSAL(opened(function, script));
}

/* A question's number, with its value in `value`. An answer is written alone, and a refused one is not. */
static uint32_t value;

static uint32_t answered(int function, uint32_t number, const uint32_t *out) {
    noted(function, number);
    CHECK(out[1] == NUMBER_NOISE);
    CHECK(number == 0 || out[0] == NUMBER_NOISE);
    value = out[0];
    return number;
}

static uint32_t versions(size_t room) {
    uint32_t out[2] = {NUMBER_NOISE, NUMBER_NOISE};
    uint32_t number = tuno_version_count(BOOK, out, room);
    return answered(VERSIONS, number, out);
}

static uint32_t parents(size_t room) {
    uint32_t out[2] = {NUMBER_NOISE, NUMBER_NOISE};
    uint32_t number = tuno_parent_count(BOOK, out, room);
    return answered(PARENTS, number, out);
}

struct name {
    const uint8_t *raw;
    size_t raw_length;
    const uint8_t *demangled;
    size_t demangled_length;
};

#define NAME(n) (n).raw, (n).raw_length, (n).demangled, (n).demangled_length

static struct name both(const char *raw, const char *demangled) {
    struct name name;
    name.raw = bytes(raw);
    name.raw_length = strlen(raw);
    name.demangled = bytes(demangled);
    name.demangled_length = strlen(demangled);
    return name;
}

/* Where there is no demangled name, the raw one's memory is lent twice. */
static struct name plain(const char *raw) { return both(raw, raw); }

static uint32_t version_bytes(struct name n, uint32_t has_wanted, const uint8_t *wanted, size_t wanted_length, size_t room) {
    uint32_t out[2] = {NUMBER_NOISE, NUMBER_NOISE};
    uint32_t number = tuno_version_for_symbol(BOOK, NAME(n), has_wanted, wanted, wanted_length, out, room);
    return answered(VERSION, number, out);
}

static uint32_t version(const char *raw) { return version_bytes(plain(raw), 0, bytes(""), 0, 1); }

static uint32_t version_wanted(const char *raw, const char *wanted) {
    return version_bytes(plain(raw), 1, bytes(wanted), strlen(wanted), 1);
}

static uint32_t locality_of(struct name n, size_t room) {
    uint32_t out[2] = {NUMBER_NOISE, NUMBER_NOISE};
    uint32_t number = tuno_locality(BOOK, NAME(n), out, room);
    return answered(LOCALITY, number, out);
}

static uint32_t locality(const char *raw) { return locality_of(plain(raw), 1); }

static uint32_t contains_of(struct name n, size_t room) {
    uint32_t out[2] = {NUMBER_NOISE, NUMBER_NOISE};
    uint32_t number = tuno_contains(BOOK, NAME(n), out, room);
    return answered(CONTAINS, number, out);
}

static uint32_t contains(const char *raw) { return contains_of(plain(raw), 1); }

/* What was told by the latest `why`. Seven numbers are written alone, and of a refused one none is. */
static uint32_t told[TUNO_WHY];

static uint32_t why_bytes(
    struct name n, uint32_t has_wanted, const uint8_t *wanted, size_t wanted_length, size_t room) {
    uint32_t out[TUNO_WHY + 2], noise[TUNO_WHY + 2], number;
    memset(out, BYTE_NOISE, sizeof out);
    memset(noise, BYTE_NOISE, sizeof noise);
    number = tuno_why(BOOK, NAME(n), has_wanted, wanted, wanted_length, out, room);
    noted(WHY, number);
    CHECK(memcmp(out + TUNO_WHY, noise, 2 * sizeof out[0]) == 0);
    CHECK(number == 0 || memcmp(out, noise, sizeof out) == 0);
    memcpy(told, out, sizeof told);
    return number;
}

static uint32_t why_of(struct name n) { return why_bytes(n, 0, bytes(""), 0, TUNO_WHY); }
static uint32_t why(const char *raw) { return why_of(plain(raw)); }

static uint32_t why_wanted(const char *raw, const char *wanted) {
    return why_bytes(plain(raw), 1, bytes(wanted), strlen(wanted), TUNO_WHY);
}

static uint32_t add_bytes(uint32_t node, uint32_t section, uint32_t language, const uint8_t *token, size_t length) {
    return noted(ADD, tuno_add(BOOK, node, section, language, token, length));
}

static uint32_t add(uint32_t node, uint32_t section, uint32_t language, const char *token) {
    return add_bytes(node, section, language, bytes(token), strlen(token));
}

static uint32_t strike(uint32_t line) { return noted(STRIKE, tuno_strike(BOOK, line)); }
static uint32_t undo(void) { return noted(UNDO, tuno_undo(BOOK)); }
static uint32_t settle(void) { return noted(SETTLE, tuno_settle(BOOK)); }

static uint32_t symbol_bytes(const uint8_t *script, size_t length, uint32_t without_semicolon) {
    return noted(SYMBOL, tuno_add_symbol(BOOK, script, length, without_semicolon));
}

static uint32_t symbol(const char *script, uint32_t without_semicolon) {
    return symbol_bytes(bytes(script), strlen(script), without_semicolon);
}

/* ---- rows */

static int node_is(uint32_t node, uint32_t start, const char *name, uint32_t parent) {
    const uint32_t *row = b.nodes + 1 + TUNO_NODE_WIDTH * node;
    return row[TUNO_NODE_START] == start && row[TUNO_NODE_LENGTH] == strlen(name) && row[TUNO_NODE_PARENT] == parent &&
        memcmp(b.names + 1 + start, name, strlen(name)) == 0;
}

static int line_is(
    uint32_t line, uint32_t node, uint32_t class_number, uint32_t section, uint32_t language, uint32_t struck, uint32_t start, const char *stored) {
    const uint32_t *row = b.lines + 1 + TUNO_LINE_WIDTH * line;
    uint32_t code = row[TUNO_LINE_CODE];
    return row[TUNO_LINE_NODE] == node && TUNO_CODE_CLASS(code) == class_number && TUNO_CODE_SECTION(code) == section &&
        TUNO_CODE_LANGUAGE(code) == language && TUNO_CODE_STRUCK(code) == struck && row[TUNO_LINE_START] == start &&
        row[TUNO_LINE_LENGTH] == strlen(stored) && memcmp(b.pool + 1 + start, stored, strlen(stored)) == 0;
}

static uint32_t *offset(uint32_t line) { return b.lines + 1 + TUNO_LINE_WIDTH * line + TUNO_LINE_OFFSET; }

/* Whether the lines have these offsets, one each. */
static int offsets_are(const char *expected) {
    uint32_t line;
    char *end;
    for (line = 0; line < count(TUNO_COUNT_LINES); line++, expected = end) {
        if (strtoul(expected, &end, 10) != *offset(line) || end == expected) return 0;
    }
    return *expected == 0;
}

/* Whether a line was told of, by these numbers. */
static int told_is(
    uint32_t line, uint32_t class_number, uint32_t node, uint32_t section, uint32_t language, uint32_t place) {
    return told[TUNO_WHY_WHAT] == TUNO_WHY_LINE && told[TUNO_WHY_NUMBER] == line &&
        told[TUNO_WHY_CLASS] == class_number && told[TUNO_WHY_NODE] == node && told[TUNO_WHY_SECTION] == section &&
        told[TUNO_WHY_LANGUAGE] == language && told[TUNO_WHY_OFFSET] == place;
}

/* Whether this line was told of, by what its row says. */
static int told_line(uint32_t line) {
    const uint32_t *row = b.lines + 1 + TUNO_LINE_WIDTH * line;
    uint32_t code = row[TUNO_LINE_CODE];
    return told_is(line, TUNO_CODE_CLASS(code), row[TUNO_LINE_NODE], TUNO_CODE_SECTION(code), TUNO_CODE_LANGUAGE(code),
        row[TUNO_LINE_OFFSET]);
}

/* Whether this was told, and of no line. */
static int told_only(uint32_t what) {
    return told[TUNO_WHY_WHAT] == what && zero(told + TUNO_WHY_NUMBER, sizeof told - sizeof told[0]);
}

static int edit_is(uint32_t edit, uint32_t what, uint32_t line) {
    const uint32_t *row = b.journal + 1 + TUNO_EDIT_WIDTH * edit;
    return row[TUNO_EDIT_WHAT] == what && row[TUNO_EDIT_LINE] == line;
}

/* ---- the story: document 01's example, from the file */

static const char haze[] =
    "HAZE_1 { global: haze_*; local: *; };\n"
    "HAZE_2 { global: haze_month; } HAZE_1;\n";

static const char haze_output[] =
    "nodes 3 parents 1\n"
    "haze_month 3 G\n"
    "haze_day 2 G\n"
    "main 2 L\n";

/* Prints what verlist prints of an input without wanted versions. */
static void list_symbols(char *input, char *output, size_t room) {
    char *symbols = strstr(input, "%%\n");
    char *name;
    size_t n = 0;
    if (!CHECK(symbols != NULL)) return;
    lend(all_rooms);
    CHECK(open_bytes(SCRIPT, bytes(input), (size_t)(symbols - input)) == 0);
    CHECK(untouched_beside());
    CHECK(versions(1) == 0);
    n += (size_t)snprintf(output + n, room - n, "nodes %u", (unsigned)value);
    CHECK(parents(1) == 0);
    n += (size_t)snprintf(output + n, room - n, " parents %u\n", (unsigned)value);
    for (name = strtok(symbols + 3, "\n"); name != NULL; name = strtok(NULL, "\n")) {
        unsigned index;
        CHECK(version(name) == 0);
        index = (unsigned)value;
        CHECK(locality(name) == 0);
        n += (size_t)snprintf(output + n, room - n, "%s %u %c\n", name, index, "-GL"[value]);
    }
}

static void test_story(const char *path) {
    static char input[4096], output[4096];
    FILE *file = fopen(path, "rb");
    if (!CHECK(file != NULL)) return;
    input[fread(input, 1, sizeof input - 1, file)] = 0;
    fclose(file);
    CHECK(strncmp(input, haze, strlen(haze)) == 0);
    list_symbols(input, output, sizeof output);
    CHECK(strcmp(output, haze_output) == 0);

    CHECK(count(TUNO_COUNT_KIND) == TUNO_KIND_REGULAR);
    CHECK(count(TUNO_COUNT_NODES) == 3);
    CHECK(count(TUNO_COUNT_NAME_BYTES) == 12);
    CHECK(count(TUNO_COUNT_LINES) == 3);
    CHECK(count(TUNO_COUNT_POOL_BYTES) == 16);
    CHECK(count(TUNO_COUNT_EDITS) == 0);
    CHECK(node_is(0, 0, "", 0));
    CHECK(node_is(1, 0, "HAZE_1", 0));
    CHECK(node_is(2, 6, "HAZE_2", 1));
    CHECK(line_is(0, 1, TUNO_CLASS_STAR, TUNO_SECTION_GLOBAL, TUNO_LANGUAGE_GENERAL, 0, 0, "haze_*"));
    CHECK(line_is(1, 1, TUNO_CLASS_ALL, TUNO_SECTION_LOCAL, TUNO_LANGUAGE_GENERAL, 0, 6, ""));
    CHECK(line_is(2, 2, TUNO_CLASS_EXACT, TUNO_SECTION_GLOBAL, TUNO_LANGUAGE_GENERAL, 0, 6, "haze_month"));
    CHECK(offsets_are("18 33 56"));

    /* "With line 0 struck, haze_day is 2 L; after undo 2 G." */
    keep();
    CHECK(strike(0) == 0);
    CHECK(line_is(0, 1, TUNO_CLASS_STAR, TUNO_SECTION_GLOBAL, TUNO_LANGUAGE_GENERAL, 1, 0, "haze_*"));
    CHECK(edit_is(0, TUNO_EDIT_STRIKE, 0));
    CHECK(version("haze_day") == 0 && value == 2);
    CHECK(locality("haze_day") == 0 && value == TUNO_LOCALITY_LOCAL);
    CHECK(undo() == 0);
    CHECK(as_before());
    CHECK(version("haze_day") == 0 && value == 2);
    CHECK(locality("haze_day") == 0 && value == TUNO_LOCALITY_GLOBAL);
}

/* ---- document 01's known points, as far as a book shows them */

static int stored(const char *script, uint32_t class_number, const char *expected) {
    return opened_fresh(SCRIPT, script) == 0 && line_is(0, 0, class_number, TUNO_SECTION_GLOBAL, TUNO_LANGUAGE_GENERAL, 0, 0, expected);
}

static void test_points(void) {
    CHECK(stored("{ \"*\"; };", TUNO_CLASS_EXACT, "*"));
    CHECK(stored("{ *; };", TUNO_CLASS_ALL, ""));
    CHECK(stored("{ \\*; };", TUNO_CLASS_ESCAPED, "*"));
    CHECK(stored("{ ?*; };", TUNO_CLASS_STAR, "?*"));
    CHECK(stored("{ ?\\*; };", TUNO_CLASS_NON_STAR, "?\\*"));
    CHECK(locality("x\\yz") == 0 && value == TUNO_LOCALITY_GLOBAL);
    CHECK(stored("{ a\\; };", TUNO_CLASS_ESCAPED, "a\\"));
    CHECK(stored("{ []]; };", TUNO_CLASS_NON_STAR, "[]]"));
    CHECK(locality("]") == 0 && value == TUNO_LOCALITY_GLOBAL);
    CHECK(stored("{ [^a]b; };", TUNO_CLASS_NON_STAR, "[!a]b"));
    CHECK(locality("xb") == 0 && value == TUNO_LOCALITY_GLOBAL);
    CHECK(locality("ab") == 0 && value == TUNO_LOCALITY_NOTHING);
    CHECK(stored("{ h?; };", TUNO_CLASS_NON_STAR, "h?"));
    CHECK(locality("h\xc3\xa9") == 0 && value == TUNO_LOCALITY_GLOBAL);
    CHECK(opened_fresh(SCRIPT, "/*/{};") == 0);
    CHECK(versions(1) == 0 && value == 0);

    CHECK(opened_fresh(SCRIPT, "A {}; B {}; A {}; C {} A;") == 0);
    CHECK(node_is(4, 3, "C", 1));
    CHECK(parents(1) == 0 && value == 1);
    CHECK(version_wanted("f", "A") == 0 && value == TUNO_VERSION_OF_NODE(3u));
    CHECK(version_wanted("f", "") == 0 && value == TUNO_VERSION_GLOBAL);
    CHECK(version_wanted("f", "D") == TUNO_UNKNOWN_VERSION);
    CHECK(version("f") == 0 && value == TUNO_VERSION_NONE);
    /* a flag that is not 0 means yes, and 0 leaves `wanted` unread */
    CHECK(version_bytes(plain("f"), 2, bytes("B"), 1, 1) == 0 && value == 3);
    CHECK(version_bytes(plain("f"), 0, bytes("D"), 1, 1) == 0 && value == TUNO_VERSION_NONE);

    CHECK(opened_fresh(SCRIPT, "V { extern \"C++\" { f; }; local: f; };") == 0);
    CHECK(version("f") == 0 && value == 2);
    CHECK(locality("f") == 0 && value == TUNO_LOCALITY_LOCAL);
    CHECK(locality_of(both("_Zf", "f"), 1) == 0 && value == TUNO_LOCALITY_GLOBAL);
    CHECK(locality_of(both("f", "g"), 1) == 0 && value == TUNO_LOCALITY_LOCAL);

    CHECK(opened_fresh(SCRIPT, "A { f*; }; B { local: f?; }; C { f*; };") == 0);
    CHECK(version("fx") == 0 && value == 3);
    CHECK(locality("fx") == 0 && value == TUNO_LOCALITY_LOCAL);
    CHECK(version("fxy") == 0 && value == 4);
    CHECK(locality("fxy") == 0 && value == TUNO_LOCALITY_GLOBAL);

    CHECK(opened_fresh(SCRIPT, "{ global: f; local: *; };") == 0);
    CHECK(count(TUNO_COUNT_KIND) == TUNO_KIND_RUST);
    CHECK(versions(1) == 0 && value == 0);
    CHECK(parents(1) == 0 && value == 0);
    CHECK(version_wanted("f", "A") == 0 && value == TUNO_VERSION_NONE);
    CHECK(locality("f") == 0 && value == TUNO_LOCALITY_GLOBAL);
    CHECK(locality("g") == 0 && value == TUNO_LOCALITY_LOCAL);

    CHECK(opened_fresh(LIST, "{ f; g*; };") == 0);
    CHECK(count(TUNO_COUNT_KIND) == TUNO_KIND_EXPORT_LIST);
    CHECK(contains("f") == 0 && value == 1);
    CHECK(contains("gg") == 0 && value == 1);
    CHECK(contains("ff") == 0 && value == 0);
    CHECK(contains_of(both("f", "gg"), 1) == 0 && value == 1);
}

/* ---- openings that are refused, each with its place */

static int refuses_bytes(int function, const uint8_t *script, size_t length, uint32_t number, size_t place) {
    uint64_t answer = open_bytes(function, script, length);
    return TUNO_REFUSAL(answer) == number && TUNO_PLACE(answer) == place && answer == number + 256 * (uint64_t)place && all_zero() &&
        untouched_beside();
}

static int refuses(int function, const char *script, uint32_t number, size_t place) {
    lend(some_rooms);
    return refuses_bytes(function, bytes(script), strlen(script), number, place);
}

static int without_room(int function, const char *script, struct rooms rooms, size_t place) {
    lend(rooms);
    return refuses_bytes(function, bytes(script), strlen(script), TUNO_NO_ROOM, place);
}

static struct rooms rooms_of(size_t nodes, size_t names, size_t lines, size_t pool) {
    struct rooms rooms = some_rooms;
    rooms.nodes = nodes;
    rooms.names = names;
    rooms.lines = lines;
    rooms.pool = pool;
    return rooms;
}

static void repeat(const char *piece, size_t times, const char *front, const char *back, size_t *length) {
    size_t n = strlen(front), i;
    memcpy(text, front, n);
    for (i = 0; i < times; i++, n += strlen(piece)) memcpy(text + n, piece, strlen(piece));
    memcpy(text + n, back, strlen(back));
    *length = n + strlen(back);
}

static void test_refused_openings(void) {
    static const int functions[2] = {SCRIPT, LIST};
    size_t i, length;

    CHECK(refuses(SCRIPT, "{ f; }", TUNO_UNREADABLE, 6));
    CHECK(refuses(SCRIPT, "{ f; }; x", TUNO_UNREADABLE, 8));
    CHECK(refuses(SCRIPT, "A { f }", TUNO_UNREADABLE, 4));
    CHECK(refuses(SCRIPT, "A {} #x", TUNO_UNCLOSED, 5));
    CHECK(refuses(SCRIPT, "A {}; B {} A ;", TUNO_UNKNOWN_PARENT, 11));
    CHECK(refuses(SCRIPT, "A {} A;", TUNO_UNKNOWN_PARENT, 5));
    CHECK(refuses(LIST, "", TUNO_UNREADABLE, 0));
    CHECK(refuses(LIST, "{ f; } ;", TUNO_UNREADABLE, 8));
    for (i = 0; i < 2; i++) {
        int function = functions[i];
        CHECK(opened_fresh(function, "{ f; }; /*/") == 0);
        CHECK(refuses(function, "#x", TUNO_UNCLOSED, 0));
        CHECK(refuses(function, "{ f; /* };", TUNO_UNCLOSED, 5));
        CHECK(refuses(function, "{ extern \"C\" { f", TUNO_UNCLOSED, 15));
        CHECK(refuses(function, "{ extern \"D\" { f; }; };", TUNO_BAD_EXTERN, 2));
        CHECK(refuses(function, "{ extern \"C\" { extern \"C\" { f; }; }; };", TUNO_BAD_EXTERN, 15));
        CHECK(refuses(function, "{ \xff?; };", TUNO_GLOB_NOT_UTF8, 2));
        CHECK(refuses(function, "{ f; []; };", TUNO_BAD_PATTERN, 5));
        CHECK(refuses(function, "{ a[**; };", TUNO_BAD_PATTERN, 2));

        /* a text over its limit, also where nothing else is right */
        memset(text, ' ', sizeof text);
        lend(some_rooms);
        CHECK(refuses_bytes(function, text, sizeof text, TUNO_TOO_LONG, 0));
        b.rooms.counts = 5;
        b.counts[6] = NUMBER_NOISE;
        CHECK(refuses_bytes(function, text, sizeof text, TUNO_TOO_LONG, 0));

        /* a trimmed token over its limit; quotes count, blanks behind it do not */
        lend(all_rooms);
        repeat("a", TUNO_TOKEN_LIMIT, "{ ", " \t\n\f\r; };", &length);
        CHECK(open_bytes(function, text, length) == 0);
        CHECK(untouched_beside());
        repeat("a", TUNO_TOKEN_LIMIT + 1, "{ ", "; };", &length);
        CHECK(refuses_bytes(function, text, length, TUNO_TOO_LONG, 2));
        repeat("a", TUNO_TOKEN_LIMIT, "{ \"", "\"; };", &length);
        CHECK(refuses_bytes(function, text, length, TUNO_TOO_LONG, 2));

        /* the counts are six numbers */
        lend(some_rooms);
        b.rooms.counts = 5;
        CHECK(refuses_bytes(function, bytes("{ f; };"), 7, TUNO_NO_ROOM, 0));
        lend(some_rooms);
        b.rooms.counts = 7;
        CHECK(refuses_bytes(function, bytes("{ f; };"), 7, TUNO_NO_ROOM, 0));
        lend(some_rooms);
        b.rooms.counts = 0;
        CHECK(refuses_bytes(function, bytes("{ f; };"), 7, TUNO_NO_ROOM, 0));

        /* rooms; a row that is not whole is none */
        CHECK(without_room(function, "#", rooms_of(2, 0, 0, 0), 0));
        CHECK(without_room(function, "{ f; };", rooms_of(3, 0, 4, 1), 2));
        CHECK(without_room(function, "{ f; ab; };", rooms_of(3, 0, 9, 3), 5));
        CHECK(without_room(function, "{ f; ab; };", rooms_of(3, 0, 10, 2), 5));
        lend(rooms_of(3, 0, 10, 3));
        CHECK(opened(function, "{ f; ab; };") == 0);
        CHECK(untouched_beside());
        lend(rooms_of(3, 0, 0, 0));
        CHECK(opened(function, "{};") == 0);
        CHECK(untouched_beside());

        lend(all_rooms);
        repeat("a;", TUNO_LINE_LIMIT, "{", "};", &length);
        CHECK(open_bytes(function, text, length) == 0);
        CHECK(count(TUNO_COUNT_LINES) == TUNO_LINE_LIMIT);
        b.rooms.lines += TUNO_LINE_WIDTH;
        repeat("a;", TUNO_LINE_LIMIT + 1, "{", "};", &length);
        CHECK(refuses_bytes(function, text, length, TUNO_NO_ROOM, 1 + 2 * TUNO_LINE_LIMIT));
    }

    CHECK(without_room(SCRIPT, "A #", rooms_of(5, 1, 0, 0), 0));
    CHECK(without_room(SCRIPT, "AB #", rooms_of(6, 1, 0, 0), 0));
    CHECK(refuses(SCRIPT, "A #", TUNO_UNCLOSED, 2));
    lend(all_rooms);
    repeat("A{};", TUNO_NODE_LIMIT - 1, "", "", &length);
    CHECK(open_bytes(SCRIPT, text, length) == 0);
    CHECK(versions(1) == 0 && value == TUNO_NODE_LIMIT);
    b.rooms.nodes += TUNO_NODE_WIDTH;
    repeat("A{};", TUNO_NODE_LIMIT, "", "", &length);
    CHECK(refuses_bytes(SCRIPT, text, length, TUNO_NO_ROOM, length - 4));
    repeat(" ", TUNO_SCRIPT_LIMIT - 4, "A{};", "", &length);
    CHECK(open_bytes(SCRIPT, text, length) == 0);
}

/* ---- rooms that are enough for any text of a length: every text of up to eight of the signs that make nodes and lines, and some longer ones */

static uint64_t answer_in(int function, const uint8_t *script, size_t length, struct rooms rooms) {
    b.rooms = rooms;
    return open_bytes(function, script, length);
}

static struct rooms rooms_for(size_t length) {
    return rooms_of(TUNO_NODES_ROOM_FOR(length), TUNO_NAMES_ROOM_FOR(length), TUNO_LINES_ROOM_FOR(length), TUNO_POOL_ROOM_FOR(length));
}

static int enough(int function, const uint8_t *script, size_t length) {
    uint64_t answer = answer_in(function, script, length, rooms_for(length));
    return answer == answer_in(function, script, length, rooms_of(300, 100, 500, 100));
}

static void test_rooms(void) {
    static const char *const longer[] = {
        "{extern \"C\"{a;b;c};};", "{extern \"C\"{a};};", "{extern \"C\"{a;};extern \"C++\"{b};};", "{extern \"C\"{a;b;c;};};", "A{a;b;};B{c;}A;",
        "A{global:a;local:b;};", "{a;/**/b;};", "{global:*;};", haze};
    static const char signs[] = "{};a";
    uint8_t script[8];
    size_t length, place, i;
    unsigned enough_room = 0, tried = 0;

    lend(some_rooms);
    for (length = 0; length <= sizeof script; length++) {
        size_t texts = (size_t)1 << (2 * length);
        for (i = 0; i < texts; i++) {
            for (place = 0; place < length; place++) script[place] = (uint8_t)signs[(i >> (2 * place)) & 3];
            tried += 2;
            enough_room += (unsigned)enough(SCRIPT, script, length) + (unsigned)enough(LIST, script, length);
        }
    }
    CHECK(enough_room == tried);
    for (i = 0; i < sizeof longer / sizeof longer[0]; i++) {
        CHECK(enough(SCRIPT, bytes(longer[i]), strlen(longer[i])));
        CHECK(enough(LIST, bytes(longer[i]), strlen(longer[i])));
    }
}

/* ---- questions that are refused */

static void test_refused_questions(void) {
    struct name name = plain("f");
    int kind;

    /* names, of a version script (0) and of an export list (1) */
    for (kind = 0; kind < 2; kind++) {
        CHECK(opened_fresh(kind == 0 ? SCRIPT : LIST, "{ f*; };") == 0);
        keep();
        memset(text, 'f', sizeof text);
        name.raw = name.demangled = text;
        name.raw_length = TUNO_RAW_NAME_LIMIT;
        name.demangled_length = TUNO_DEMANGLED_NAME_LIMIT;
        if (kind == 0) {
            CHECK(version_bytes(name, 0, text, 0, 1) == 0 && value == TUNO_VERSION_NONE);
            CHECK(locality_of(name, 1) == 0 && value == TUNO_LOCALITY_GLOBAL);
            CHECK(version_bytes(name, 1, text, TUNO_WANTED_VERSION_LIMIT, 1) == TUNO_UNKNOWN_VERSION);
            CHECK(version_bytes(name, 1, text, TUNO_WANTED_VERSION_LIMIT + 1, 1) == TUNO_TOO_LONG);
            CHECK(contains_of(name, 1) == TUNO_WRONG_KIND);
            CHECK(versions(0) == TUNO_NO_ROOM);
            CHECK(parents(0) == TUNO_NO_ROOM);
            CHECK(version_bytes(name, 0, text, 0, 0) == TUNO_NO_ROOM);
            CHECK(version_bytes(name, 1, text, 1, 0) == TUNO_UNKNOWN_VERSION);
            CHECK(locality_of(name, 0) == TUNO_NO_ROOM);
        } else {
            CHECK(contains_of(name, 1) == 0 && value == 1);
            CHECK(versions(1) == TUNO_WRONG_KIND);
            CHECK(parents(0) == TUNO_WRONG_KIND);
            CHECK(version_bytes(name, 1, text, 1, 1) == TUNO_WRONG_KIND);
            CHECK(locality_of(name, 1) == TUNO_WRONG_KIND);
            CHECK(contains_of(name, 0) == TUNO_NO_ROOM);
        }
        name.raw_length = TUNO_RAW_NAME_LIMIT + 1;
        CHECK((kind == 0 ? version_bytes(name, 0, text, 0, 1) : contains_of(name, 1)) == TUNO_TOO_LONG);
        CHECK((kind == 0 ? locality_of(name, 1) : contains_of(name, 0)) == TUNO_TOO_LONG);
        name.raw_length = 1;
        name.demangled_length = TUNO_DEMANGLED_NAME_LIMIT + 1;
        CHECK((kind == 0 ? version_bytes(name, 0, text, 0, 1) : contains_of(name, 1)) == TUNO_TOO_LONG);
        CHECK((kind == 0 ? locality_of(name, 1) : contains_of(name, 0)) == TUNO_TOO_LONG);
        name = both("f", "\xff");
        CHECK((kind == 0 ? version_bytes(name, 0, text, 0, 1) : contains_of(name, 1)) == TUNO_NAME_NOT_UTF8);
        name = both("\xc3", "f");
        CHECK((kind == 0 ? locality_of(name, 1) : contains_of(name, 1)) == TUNO_NAME_NOT_UTF8);
        CHECK(as_before());
    }
}

/* ---- what is no book: 14, and nothing is written */

static int no_book(void) {
    int refused;
    keep();
    refused = versions(1) == TUNO_NO_BOOK && parents(0) == TUNO_NO_BOOK && version("f") == TUNO_NO_BOOK && locality("\xff") == TUNO_NO_BOOK &&
        contains("f") == TUNO_NO_BOOK && why("f") == TUNO_NO_BOOK &&
        why_bytes(plain("\xff"), 1, bytes("V"), 1, 0) == TUNO_NO_BOOK && add(9, 9, 9, "[") == TUNO_NO_BOOK &&
        strike(0) == TUNO_NO_BOOK && undo() == TUNO_NO_BOOK && settle() == TUNO_NO_BOOK &&
        symbol("[;", 0) == TUNO_NO_BOOK;
    return refused && as_before();
}

static void test_no_book(void) {
    size_t i;
    lend(all_rooms);
    CHECK(TUNO_REFUSAL(opened(SCRIPT, "{")) != 0);
    CHECK(all_zero());
    CHECK(no_book());
    for (i = 0; i < 2; i++) {
        CHECK(opened_fresh(i == 0 ? SCRIPT : LIST, "{ f; };") == 0);
        b.rooms.counts = 5;
        CHECK(no_book());
        b.rooms.counts = 7;
        CHECK(no_book());
        b.rooms.counts = 6;
        b.pool[1 + 1] = 'x';
        CHECK(no_book());
        b.pool[1 + 1] = 0;
        b.counts[1 + TUNO_COUNT_KIND] = 3;
        CHECK(no_book());
        b.counts[1 + TUNO_COUNT_KIND] = i == 0 ? TUNO_KIND_REGULAR : TUNO_KIND_EXPORT_LIST;
        b.counts[1 + TUNO_COUNT_LINES] = 0xffffffffu;
        CHECK(no_book());
        b.counts[1 + TUNO_COUNT_LINES] = 1;
        CHECK(strike(0) == 0);
        b.journal[1 + TUNO_EDIT_LINE] = 1;
        CHECK(no_book());
    }
}

/* Names that no script has room for: a script `A{};`, or `A{};N{}A;` where there is a second name, of names with so many bytes; and the same book by hand. */

static size_t long_script(size_t first, size_t second) {
    size_t n = first + 3;
    memset(text, 'A', first);
    memcpy(text + first, "{};", 3);
    if (second == 0) return n;
    memset(text + n, 'N', second);
    memcpy(text + n + second, "{}", 2);
    n += second + 2;
    memset(text + n, 'A', first);
    text[n + first] = ';';
    return n + first + 1;
}

static void lay_names(size_t first, size_t second) {
    uint32_t *named = b.nodes + 1 + TUNO_NODE_WIDTH;
    lend_zeros(all_rooms);
    b.counts[1 + TUNO_COUNT_NODES] = second == 0 ? 2 : 3;
    b.counts[1 + TUNO_COUNT_NAME_BYTES] = (uint32_t)(first + second);
    memset(b.names + 1, 'A', first);
    memset(b.names + 1 + first, 'N', second);
    named[TUNO_NODE_LENGTH] = (uint32_t)first;
    if (second == 0) return;
    named[TUNO_NODE_WIDTH + TUNO_NODE_START] = (uint32_t)first;
    named[TUNO_NODE_WIDTH + TUNO_NODE_LENGTH] = (uint32_t)second;
    named[TUNO_NODE_WIDTH + TUNO_NODE_PARENT] = 1;
}

static void test_long_names(void) {
    static const size_t names[][2] = {{1048573, 0}, {1048574, 0}, {524284, 1}, {524285, 1}, {524284, 2}, {524284, 3}};
    size_t i, length;
    for (i = 0; i < sizeof names / sizeof names[0]; i++) {
        length = long_script(names[i][0], names[i][1]);
        lend(all_rooms);
        if (length <= TUNO_SCRIPT_LIMIT) {
            CHECK(open_bytes(SCRIPT, text, length) == 0);
            keep();
            lay_names(names[i][0], names[i][1]);
            CHECK(as_before());
            CHECK(parents(1) == 0 && value == (names[i][1] == 0 ? 0u : 1u));
        } else {
            CHECK(TUNO_REFUSAL(open_bytes(SCRIPT, text, length)) == TUNO_TOO_LONG);
            lay_names(names[i][0], names[i][1]);
            CHECK(no_book());
        }
    }
}

/* ---- edits that are refused */

static int refused_edit(uint32_t number, uint32_t expected) { return number == expected && as_before() && untouched_beside(); }

static void test_refused_edits(void) {
    size_t i;
    memset(text, 'a', sizeof text);

    CHECK(opened_fresh(SCRIPT, haze) == 0);
    keep();
    CHECK(refused_edit(add(3, 0, 0, "["), TUNO_NO_SUCH));
    CHECK(refused_edit(add(0, 2, 0, "f"), TUNO_NO_SUCH));
    CHECK(refused_edit(add(0, 0, 2, "f"), TUNO_NO_SUCH));
    CHECK(refused_edit(add_bytes(0, 0, 0, text, TUNO_TOKEN_LIMIT + 1), TUNO_TOO_LONG));
    CHECK(refused_edit(add(0, 0, 0, "\xff*"), TUNO_GLOB_NOT_UTF8));
    CHECK(refused_edit(add(0, 0, 0, "[a"), TUNO_BAD_PATTERN));
    CHECK(refused_edit(strike(3), TUNO_NO_SUCH));
    CHECK(refused_edit(strike(0xffffffffu), TUNO_NO_SUCH));
    CHECK(refused_edit(undo(), TUNO_NOTHING_TO_UNDO));
    CHECK(refused_edit(symbol("f;", 0), TUNO_WRONG_KIND));
    CHECK(refused_edit(settle(), 0));

    /* the Rust kind */
    CHECK(opened_fresh(SCRIPT, "{ f; local: *; };") == 0);
    keep();
    CHECK(refused_edit(add(9, 0, 0, "f"), TUNO_WRONG_KIND));
    CHECK(refused_edit(strike(9), TUNO_WRONG_KIND));
    CHECK(refused_edit(undo(), TUNO_NOTHING_TO_UNDO));
    CHECK(refused_edit(settle(), 0));
    CHECK(refused_edit(symbol("f;", 0), TUNO_WRONG_KIND));

    /* an export list */
    CHECK(opened_fresh(LIST, "{ f; };") == 0);
    keep();
    CHECK(refused_edit(add(0, TUNO_SECTION_LOCAL, 0, "f"), TUNO_NO_SUCH));
    CHECK(refused_edit(add(1, 0, 0, "f"), TUNO_NO_SUCH));
    CHECK(refused_edit(symbol_bytes(text, TUNO_TOKEN_LIMIT + 1, 1), TUNO_TOO_LONG));
    CHECK(refused_edit(symbol("f", 0), TUNO_UNREADABLE));
    CHECK(refused_edit(symbol("", 0), TUNO_UNREADABLE));
    CHECK(refused_edit(symbol("extern \"C\" { a; b", 1), TUNO_UNREADABLE));
    CHECK(refused_edit(symbol("extern \"C\" { a; b", 0), TUNO_UNCLOSED));
    CHECK(refused_edit(symbol("#x", 1), TUNO_UNCLOSED));
    CHECK(refused_edit(symbol("extern \"D\"", 0), TUNO_BAD_EXTERN));
    CHECK(refused_edit(symbol("extern \"C\" { a; \xff?; };", 0), TUNO_GLOB_NOT_UTF8));
    CHECK(refused_edit(symbol("extern \"C\" { a; [; };", 0), TUNO_BAD_PATTERN));

    /* rooms: a row of lines, a byte of the pool, a row of the journal */
    lend(rooms_of(3, 0, 14, 8));
    b.rooms.journal = 4;
    CHECK(opened(LIST, "{ f; };") == 0);
    keep();
    CHECK(refused_edit(symbol("extern \"C\" { a; b; [ };", 0), TUNO_NO_ROOM));
    CHECK(refused_edit(add(0, 0, 0, "12345678"), TUNO_NO_ROOM));
    CHECK(add(0, 0, 0, "1234567") == 0);
    keep();
    CHECK(refused_edit(add(0, 0, 0, ""), TUNO_NO_ROOM));
    CHECK(refused_edit(add(0, 0, 0, "[a"), TUNO_BAD_PATTERN));
    CHECK(strike(0) == 0);
    keep();
    CHECK(refused_edit(strike(0), TUNO_NO_SUCH));
    CHECK(refused_edit(strike(1), TUNO_NO_ROOM));
    CHECK(symbol("extern \"C\" {};", 0) == 0);
    CHECK(as_before());

    /* limits: the pool's, with room behind it, then the edits' */
    lend(all_rooms);
    b.rooms.pool = TUNO_POOL_LIMIT + 1;
    CHECK(opened(SCRIPT, "") == 0);
    for (i = 0; i < TUNO_POOL_LIMIT / TUNO_TOKEN_LIMIT; i++) CHECK(add_bytes(0, 0, 0, text, TUNO_TOKEN_LIMIT) == 0);
    CHECK(count(TUNO_COUNT_POOL_BYTES) == TUNO_POOL_LIMIT);
    keep();
    CHECK(refused_edit(add(0, 0, 0, "a"), TUNO_NO_ROOM));
    CHECK(add(0, 0, 0, "*") == 0);

    lend(all_rooms);
    b.rooms.pool = 0;
    b.rooms.journal = TUNO_JOURNAL_ROOM + 2;
    CHECK(opened(SCRIPT, "") == 0);
    for (i = 0; i < TUNO_EDIT_LIMIT && add(0, 0, 0, "*") == 0; i++) {
    }
    CHECK(count(TUNO_COUNT_EDITS) == TUNO_EDIT_LIMIT);
    keep();
    CHECK(refused_edit(add(0, 0, 0, "*"), TUNO_NO_ROOM));
    CHECK(refused_edit(strike(0), TUNO_NO_ROOM));
}

/* ---- a trial: what the edits do, and every byte back */

static void test_trial(void) {
    static struct book opening;
    size_t undone = 0;

    lend(some_rooms);
    CHECK(opened(SCRIPT, haze) == 0);
    memcpy(&opening, &b, sizeof b);
    CHECK(add(2, TUNO_SECTION_LOCAL, TUNO_LANGUAGE_CXX, "\"haze::day()\" \n") == 0);
    CHECK(line_is(3, 2, TUNO_CLASS_EXACT, TUNO_SECTION_LOCAL, TUNO_LANGUAGE_CXX, 0, 16, "haze::day()"));
    CHECK(edit_is(0, TUNO_EDIT_ADD, 3));
    CHECK(count(TUNO_COUNT_LINES) == 4 && count(TUNO_COUNT_POOL_BYTES) == 27 && count(TUNO_COUNT_EDITS) == 1);
    CHECK(locality_of(both("_Zday", "haze::day()"), 1) == 0 && value == TUNO_LOCALITY_LOCAL);
    CHECK(strike(2) == 0);
    CHECK(version("haze_month") == 0 && value == 2);
    CHECK(add(1, 0, 0, "[") == TUNO_BAD_PATTERN);
    CHECK(strike(0) == 0);
    CHECK(locality("haze_month") == 0 && value == TUNO_LOCALITY_LOCAL);
    CHECK(add(2, 0, 0, "ha[^a-y]e_*") == 0);
    CHECK(line_is(4, 2, TUNO_CLASS_STAR, TUNO_SECTION_GLOBAL, TUNO_LANGUAGE_GENERAL, 0, 27, "ha[!a-y]e_*"));
    CHECK(version("haze_month") == 0 && value == 3);
    CHECK(strike(4) == 0);
    CHECK(strike(4) == TUNO_NO_SUCH);
    CHECK(strike(1) == 0);
    CHECK(version("main") == 0 && value == TUNO_VERSION_NONE);
    CHECK(locality("main") == 0 && value == TUNO_LOCALITY_NOTHING);
    CHECK(count(TUNO_COUNT_EDITS) == 6);
    CHECK(untouched_beside());
    while (undo() == 0) undone++;
    CHECK(undone == 6);
    CHECK(memcmp(&opening, &b, sizeof b) == 0);

    /* with nothing struck a settle changes nothing, and undo still works */
    CHECK(add(0, 0, 0, "f") == 0);
    keep();
    CHECK(settle() == 0);
    CHECK(as_before());
    CHECK(undo() == 0);
    CHECK(memcmp(&opening, &b, sizeof b) == 0);

    /* a settle that drops lines: packed, renumbered, and that moment is what undoing leads back to */
    CHECK(strike(0) == 0 && add(1, 0, 0, "haze_d*") == 0 && strike(1) == 0);
    CHECK(settle() == 0);
    CHECK(untouched_beside());
    CHECK(count(TUNO_COUNT_LINES) == 2 && count(TUNO_COUNT_POOL_BYTES) == 17 && count(TUNO_COUNT_EDITS) == 0);
    CHECK(line_is(0, 2, TUNO_CLASS_EXACT, TUNO_SECTION_GLOBAL, TUNO_LANGUAGE_GENERAL, 0, 0, "haze_month"));
    CHECK(line_is(1, 1, TUNO_CLASS_STAR, TUNO_SECTION_GLOBAL, TUNO_LANGUAGE_GENERAL, 0, 10, "haze_d*"));
    CHECK(zero(b.lines + 1 + 10, 4 * (b.rooms.lines - 10)) && zero(b.pool + 1 + 17, b.rooms.pool - 17) && zero(b.journal + 1, 4 * b.rooms.journal));
    CHECK(version("haze_day") == 0 && value == 2);
    CHECK(version("main") == 0 && value == TUNO_VERSION_NONE);
    keep();
    CHECK(undo() == TUNO_NOTHING_TO_UNDO);
    CHECK(as_before());
    CHECK(strike(1) == 0 && add(0, 1, 1, "x") == 0);
    CHECK(undo() == 0 && undo() == 0);
    CHECK(as_before());

    /* a settle frees room: a book that is full takes a line again */
    lend(rooms_of(3, 0, 10, 2));
    CHECK(opened(LIST, "{ f; g; };") == 0);
    CHECK(add(0, 0, 0, "h") == TUNO_NO_ROOM);
    CHECK(strike(0) == 0 && settle() == 0 && add(0, 0, 0, "h") == 0);
    CHECK(contains("f") == 0 && value == 0);
    CHECK(contains("h") == 0 && value == 1);
    CHECK(untouched_beside());
}

static void test_add_symbol(void) {
    lend(some_rooms);
    CHECK(opened(LIST, "{ f; };") == 0);
    keep();
    CHECK(symbol("g; ignored", 0) == 0);
    CHECK(line_is(1, 0, TUNO_CLASS_EXACT, 0, 0, 0, 1, "g"));
    CHECK(undo() == 0);
    CHECK(as_before());
    CHECK(symbol("extern \"C++\" { a::*; \"b()\"; };", 0) == 0);
    CHECK(line_is(1, 0, TUNO_CLASS_STAR, 0, TUNO_LANGUAGE_CXX, 0, 1, "a::*"));
    CHECK(line_is(2, 0, TUNO_CLASS_EXACT, 0, TUNO_LANGUAGE_CXX, 0, 5, "b()"));
    CHECK(count(TUNO_COUNT_EDITS) == 2);
    CHECK(contains_of(both("_Zb", "b()"), 1) == 0 && value == 1);
    CHECK(undo() == 0);
    CHECK(contains_of(both("_Zb", "b()"), 1) == 0 && value == 0);
    CHECK(contains_of(both("_Za", "a::c"), 1) == 0 && value == 1);
    CHECK(undo() == 0);
    CHECK(as_before());
    /* a flag that is not 0 means yes */
    CHECK(symbol("a;b}c", 7) == 0);
    CHECK(line_is(1, 0, TUNO_CLASS_EXACT, 0, 0, 0, 1, "a;b"));
    CHECK(undo() == 0 && symbol("", 1) == 0);
    CHECK(line_is(1, 0, TUNO_CLASS_EXACT, 0, 0, 0, 1, ""));
    CHECK(undo() == 0);
    CHECK(as_before());
    CHECK(untouched_beside());
}

/* ---- runs of stars: outside brackets a run is kept as one star */

static void test_runs(void) {
    size_t length;

    CHECK(stored("{ a**; };", TUNO_CLASS_STAR, "a*"));
    CHECK(locality("abc") == 0 && value == TUNO_LOCALITY_GLOBAL);
    CHECK(locality("b") == 0 && value == TUNO_LOCALITY_NOTHING);
    CHECK(stored("{ **; };", TUNO_CLASS_STAR, "*"));
    CHECK(locality("") == 0 && value == TUNO_LOCALITY_GLOBAL);
    CHECK(stored("{ ?**?; };", TUNO_CLASS_STAR, "?*?"));
    CHECK(stored("{ [**]; };", TUNO_CLASS_STAR, "[**]"));
    CHECK(stored("{ a[^**]**; };", TUNO_CLASS_STAR, "a[!**]*"));
    CHECK(locality("a*") == 0 && value == TUNO_LOCALITY_NOTHING);
    CHECK(stored("{ [^]**]**; };", TUNO_CLASS_STAR, "[!]**]*"));
    CHECK(stored("{ \\**; };", TUNO_CLASS_STAR, "\\*"));
    CHECK(stored("{ \"**\"; };", TUNO_CLASS_EXACT, "**"));
    CHECK(opened_fresh(SCRIPT, "{ f; local: **; };") == 0);
    CHECK(count(TUNO_COUNT_KIND) == TUNO_KIND_REGULAR);

    /* room is asked of what is kept, the limit of the token */
    lend(rooms_of(3, 0, 5, 2));
    CHECK(opened(LIST, "{ a**; };") == 0);
    CHECK(untouched_beside());
    CHECK(without_room(LIST, "{ a**; };", rooms_of(3, 0, 5, 1), 2));
    lend(all_rooms);
    repeat("*", TUNO_TOKEN_LIMIT, "{ ", "; };", &length);
    CHECK(open_bytes(SCRIPT, text, length) == 0);
    CHECK(line_is(0, 0, TUNO_CLASS_STAR, 0, 0, 0, 0, "*"));
    repeat("*", TUNO_TOKEN_LIMIT + 1, "{ ", "; };", &length);
    CHECK(refuses_bytes(SCRIPT, text, length, TUNO_TOO_LONG, 2));

    /* an added token, and texts of symbols */
    CHECK(opened_fresh(LIST, "{ f; };") == 0);
    keep();
    CHECK(add(0, 0, 0, "g** ") == 0);
    CHECK(line_is(1, 0, TUNO_CLASS_STAR, 0, 0, 0, 1, "g*"));
    CHECK(undo() == 0);
    CHECK(as_before());
    CHECK(symbol("extern \"C\" { g**; ***; };", 0) == 0);
    CHECK(line_is(1, 0, TUNO_CLASS_STAR, 0, 0, 0, 1, "g*"));
    CHECK(line_is(2, 0, TUNO_CLASS_STAR, 0, 0, 0, 3, "*"));
    CHECK(undo() == 0 && undo() == 0);
    CHECK(symbol("g**", 1) == 0);
    CHECK(line_is(1, 0, TUNO_CLASS_STAR, 0, 0, 0, 1, "g*"));
    CHECK(undo() == 0);
    CHECK(symbol("[**", 1) == TUNO_BAD_PATTERN);
    CHECK(as_before());

    /* in a lent book a run is one that storing would change; in a bracket it is not */
    CHECK(opened_fresh(SCRIPT, "{ a*b; };") == 0);
    b.pool[1 + 2] = '*';
    CHECK(no_book());
    CHECK(opened_fresh(SCRIPT, "{ [*b]; };") == 0);
    b.pool[1 + 2] = '*';
    CHECK(line_is(0, 0, TUNO_CLASS_STAR, 0, 0, 0, 0, "[**]"));
    CHECK(versions(1) == 0);
}

/* ---- offsets: where a line came from */

/* What the offsets of `{..;};` are, told without the library, where there are only tokens, quotes and blanks within: a token stands behind blanks and goes to
 * its `;`. Without a byte there it is refused, and there are no lines. */
static size_t read_offsets(const uint8_t *script, uint32_t *offsets) {
    size_t lines = 0, place;
    for (place = 1;; place++) {
        while (script[place] == ' ') place++;
        if (script[place] == '}') return lines;
        if (script[place] == ';') return 0;
        offsets[lines++] = (uint32_t)place + 1;
        while (script[place] != ';') place++;
    }
}

static int offsets_as_read(int function, const uint8_t *script, size_t length) {
    uint32_t offsets[4];
    size_t lines = read_offsets(script, offsets), i;
    if ((TUNO_REFUSAL(open_bytes(function, script, length)) == 0) != (lines != 0) || count(TUNO_COUNT_LINES) != lines) return 0;
    for (i = 0; i < lines; i++) {
        if (*offset((uint32_t)i) != offsets[i]) return 0;
    }
    return 1;
}

static void test_opened_offsets(void) {
    static const char signs[] = "a ;\"";
    uint8_t script[11];
    size_t length, place, i;
    unsigned as_read = 0, tried = 0;

    CHECK(opened_fresh(SCRIPT, "V { a; \\f; };") == 0 && offsets_are("5 8"));
    CHECK(opened_fresh(SCRIPT, "V { a; b; };W { c; }V;") == 0 && offsets_are("5 8 17"));
    CHECK(opened_fresh(SCRIPT, "{ f; local: *; };") == 0 && offsets_are("3 13"));
    CHECK(count(TUNO_COUNT_KIND) == TUNO_KIND_RUST);
    CHECK(opened_fresh(LIST, "{ f; extern \"C\" { g; \"h\"; }; };") == 0 && offsets_are("3 19 22"));
    /* the quote's place; behind comments, and to the `}` of an extern block */
    CHECK(opened_fresh(SCRIPT, "{ \"a b\" ; *; };") == 0 && offsets_are("3 11"));
    CHECK(opened_fresh(SCRIPT, "# c\n{\r\n\tlocal: /* d */ a; extern \"C++\" { \"b()\"; c }; };") == 0 && offsets_are("24 42 49"));
    /* a form feed is a token, and nothing is kept of it */
    CHECK(opened_fresh(SCRIPT, "V { a; \f; };") == 0 && offsets_are("5 8"));
    CHECK(line_is(1, 1, TUNO_CLASS_EXACT, 0, 0, 0, 1, ""));

    /* every text with up to six of these signs before the last token's `z` */
    lend(some_rooms);
    for (length = 0; length <= 6; length++) {
        size_t texts = (size_t)1 << (2 * length);
        script[0] = '{';
        memcpy(script + 1 + length, "z;};", 4);
        for (i = 0; i < texts; i++) {
            for (place = 0; place < length; place++) script[1 + place] = (uint8_t)signs[(i >> (2 * place)) & 3];
            tried += 2;
            as_read += (unsigned)offsets_as_read(SCRIPT, script, length + 5) + (unsigned)offsets_as_read(LIST, script, length + 5);
        }
    }
    CHECK(as_read == tried);

    /* the greatest: in the longest text, with `;};` alone behind the token's byte */
    for (i = 0; i < 2; i++) {
        lend(all_rooms);
        repeat(" ", TUNO_SCRIPT_LIMIT - 5, "{", "a;};", &length);
        CHECK(length == TUNO_SCRIPT_LIMIT);
        CHECK(open_bytes(i == 0 ? SCRIPT : LIST, text, length) == 0 && offsets_are("1048573"));
        CHECK(untouched_beside());
    }
}

static void test_edited_offsets(void) {
    CHECK(opened_fresh(SCRIPT, haze) == 0);
    CHECK(add(2, TUNO_SECTION_LOCAL, 0, "\"f\"") == 0 && offsets_are("18 33 56 0"));
    CHECK(strike(1) == 0 && strike(3) == 0 && offsets_are("18 33 56 0"));
    CHECK(undo() == 0 && offsets_are("18 33 56 0"));
    /* a settle renumbers the lines that stand, each with its offset */
    CHECK(settle() == 0 && offsets_are("18 56 0"));
    CHECK(line_is(1, 2, TUNO_CLASS_EXACT, 0, 0, 0, 6, "haze_month"));
    keep();
    CHECK(strike(1) == 0 && add(1, 0, 0, "g") == 0 && offsets_are("18 56 0 0"));
    CHECK(undo() == 0 && undo() == 0 && as_before());
    CHECK(strike(0) == 0 && settle() == 0 && offsets_are("56 0"));
    CHECK(strike(0) == 0 && settle() == 0 && offsets_are("0"));

    CHECK(opened_fresh(LIST, "{ f; \"g\"; };") == 0 && offsets_are("3 6"));
    CHECK(symbol("extern \"C++\" { a; \"b()\"; };", 0) == 0 && offsets_are("3 6 0 0"));
    CHECK(symbol("c; d;", 0) == 0 && symbol("e", 1) == 0 && offsets_are("3 6 0 0 0 0"));
    CHECK(undo() == 0 && offsets_are("3 6 0 0 0"));
    CHECK(strike(0) == 0 && strike(2) == 0 && settle() == 0 && offsets_are("6 0 0"));
}

/* Lent rows with other offsets: the last that is accepted is the longest text's length. */
static void test_lent_offsets(void) {
    uint32_t line;
    int function;
    for (function = SCRIPT; function <= LIST; function++) {
        for (line = 0; line < 2; line++) {
            CHECK(opened_fresh(function, "{ f; g; };") == 0);
            *offset(line) = TUNO_SCRIPT_LIMIT;
            CHECK((function == SCRIPT ? locality("f") : contains("f")) == 0 && value == 1);
            CHECK(strike(line) == 0 && undo() == 0 && settle() == 0 && *offset(line) == TUNO_SCRIPT_LIMIT);
            *offset(line) = TUNO_SCRIPT_LIMIT + 1;
            CHECK(no_book());
            *offset(line) = 0xffffffffu;
            CHECK(no_book());
            *offset(line) = 0;
            CHECK((function == SCRIPT ? locality("f") : contains("f")) == 0 && value == 1);
        }
    }

    /* an added line's need not be 0, and its undo clears the row */
    CHECK(opened_fresh(SCRIPT, haze) == 0);
    keep();
    CHECK(add(1, 0, 0, "f") == 0);
    *offset(3) = 7;
    CHECK(strike(3) == 0 && undo() == 0 && offsets_are("18 33 56 7"));
    CHECK(undo() == 0 && as_before());
    CHECK(add(1, 0, 0, "f") == 0);
    *offset(3) = 7;
    CHECK(strike(0) == 0 && settle() == 0 && offsets_are("33 56 7"));
    *offset(2) = TUNO_SCRIPT_LIMIT + 1;
    CHECK(no_book());

    /* no question looks at it; it is only told */
    CHECK(opened_fresh(SCRIPT, haze) == 0);
    *offset(0) = 56;
    *offset(1) = 0;
    *offset(2) = 56;
    keep();
    CHECK(versions(1) == 0 && value == 3);
    CHECK(parents(1) == 0 && value == 1);
    CHECK(version("haze_month") == 0 && value == 3);
    CHECK(version("haze_day") == 0 && value == 2);
    CHECK(locality("haze_day") == 0 && value == TUNO_LOCALITY_GLOBAL);
    CHECK(locality("main") == 0 && value == TUNO_LOCALITY_LOCAL);
    CHECK(why("haze_day") == 0 && told_is(0, TUNO_CLASS_STAR, 1, TUNO_SECTION_GLOBAL, TUNO_LANGUAGE_GENERAL, 56));
    CHECK(why("main") == 0 && told_is(1, TUNO_CLASS_ALL, 1, TUNO_SECTION_LOCAL, TUNO_LANGUAGE_GENERAL, 0));
    CHECK(as_before());
}

/* ---- why: the line that decides */

static void test_ranked_why(void) {
    CHECK(opened_fresh(SCRIPT, haze) == 0);
    keep();
    CHECK(why("haze_month") == 0 && told_is(2, TUNO_CLASS_EXACT, 2, TUNO_SECTION_GLOBAL, TUNO_LANGUAGE_GENERAL, 56));
    CHECK(why("haze_day") == 0 && told_is(0, TUNO_CLASS_STAR, 1, TUNO_SECTION_GLOBAL, TUNO_LANGUAGE_GENERAL, 18));
    CHECK(why("main") == 0 && told_is(1, TUNO_CLASS_ALL, 1, TUNO_SECTION_LOCAL, TUNO_LANGUAGE_GENERAL, 33));
    CHECK(as_before());

    /* at equal rank the lowest number; exact and escaped lines are of one rank */
    CHECK(opened_fresh(SCRIPT, "A { f; f; };") == 0);
    CHECK(why("f") == 0 && told_is(0, TUNO_CLASS_EXACT, 1, 0, 0, 5));
    CHECK(opened_fresh(SCRIPT, "V { foo*; foo_b*; };") == 0);
    CHECK(why("foo_bar") == 0 && told_is(0, TUNO_CLASS_STAR, 1, 0, 0, 5));
    CHECK(opened_fresh(SCRIPT, "A { \\f; f; };") == 0);
    CHECK(why("f") == 0 && told_is(0, TUNO_CLASS_ESCAPED, 1, 0, 0, 5));
    CHECK(opened_fresh(SCRIPT, "A { local: f; global: f; f; };") == 0);
    CHECK(why("f") == 0 && told_is(1, TUNO_CLASS_EXACT, 1, 0, 0, 23));

    /* nodes upward of names, downward of patterns; patterns without a star first, a lone star last */
    CHECK(opened_fresh(SCRIPT, "A { local: *; }; B { f; };") == 0);
    CHECK(why("f") == 0 && told_is(1, TUNO_CLASS_EXACT, 2, TUNO_SECTION_GLOBAL, 0, 22));
    CHECK(why("g") == 0 && told_is(0, TUNO_CLASS_ALL, 1, TUNO_SECTION_LOCAL, 0, 12));
    CHECK(opened_fresh(SCRIPT, "A { local: f; }; B { f; };") == 0);
    CHECK(why("f") == 0 && told_is(0, TUNO_CLASS_EXACT, 1, TUNO_SECTION_LOCAL, 0, 12));
    CHECK(opened_fresh(SCRIPT, "A { f*; }; B { local: f?; }; C { f*; };") == 0);
    CHECK(why("fx") == 0 && told_is(1, TUNO_CLASS_NON_STAR, 2, TUNO_SECTION_LOCAL, 0, 23));
    CHECK(why("fxy") == 0 && told_is(2, TUNO_CLASS_STAR, 3, TUNO_SECTION_GLOBAL, 0, 34));
    CHECK(opened_fresh(SCRIPT, "A { *; }; B { local: *; }; C { extern \"C++\" { *; }; };") == 0);
    CHECK(why("f") == 0 && told_is(2, TUNO_CLASS_ALL, 3, TUNO_SECTION_GLOBAL, TUNO_LANGUAGE_CXX, 47));

    /* C++ lines see the demangled name; among names they come behind the others of their node, among patterns not */
    CHECK(opened_fresh(SCRIPT, "V { extern \"C++\" { f; }; local: f; };") == 0);
    CHECK(why("f") == 0 && told_is(1, TUNO_CLASS_EXACT, 1, TUNO_SECTION_LOCAL, TUNO_LANGUAGE_GENERAL, 33));
    CHECK(why_of(both("_Zf", "f")) == 0 && told_is(0, TUNO_CLASS_EXACT, 1, TUNO_SECTION_GLOBAL, TUNO_LANGUAGE_CXX, 20));
    CHECK(why_of(both("f", "g")) == 0 && told_line(1));
    CHECK(why_of(both("_Zf", "g")) == 0 && told_only(TUNO_WHY_NO_LINE));
    CHECK(opened_fresh(SCRIPT, "V { extern \"C++\" { f*; }; f*; };") == 0);
    CHECK(why("fx") == 0 && told_line(0));
    CHECK(why_of(both("fx", "g")) == 0 && told_line(1));
    CHECK(why_of(both("_Z", "f()")) == 0 && told_is(0, TUNO_CLASS_STAR, 1, TUNO_SECTION_GLOBAL, TUNO_LANGUAGE_CXX, 20));

    /* node 0 of one body; no line */
    CHECK(opened_fresh(SCRIPT, "{ \"a b\"; f*; };") == 0);
    CHECK(why("a b") == 0 && told_is(0, TUNO_CLASS_EXACT, 0, 0, 0, 3));
    CHECK(why("f") == 0 && told_is(1, TUNO_CLASS_STAR, 0, 0, 0, 10));
    CHECK(why("g") == 0 && told_only(TUNO_WHY_NO_LINE));
    CHECK(why("") == 0 && told_only(TUNO_WHY_NO_LINE));
    CHECK(opened_fresh(SCRIPT, "") == 0);
    CHECK(why("f") == 0 && told_only(TUNO_WHY_NO_LINE));
}

static void test_wanted_why(void) {
    CHECK(opened_fresh(SCRIPT, "A {}; B { f; }; A {}; C {} A;") == 0);
    keep();
    CHECK(why_wanted("f", "A") == 0 && told_only(TUNO_WHY_WANTED));
    CHECK(why_wanted("f", "B") == 0 && told_only(TUNO_WHY_WANTED));
    CHECK(why_wanted("f", "") == 0 && told_only(TUNO_WHY_WANTED));
    CHECK(why_wanted("g", "C") == 0 && told_only(TUNO_WHY_WANTED));
    CHECK(why_wanted("f", "D") == TUNO_UNKNOWN_VERSION);
    CHECK(why("f") == 0 && told_line(0));
    /* a flag that is not 0 means yes, and 0 leaves `wanted` unread */
    CHECK(why_bytes(plain("f"), 2, bytes("B"), 1, TUNO_WHY) == 0 && told_only(TUNO_WHY_WANTED));
    CHECK(why_bytes(plain("f"), 0xffffffffu, bytes("D"), 1, TUNO_WHY) == TUNO_UNKNOWN_VERSION);
    CHECK(why_bytes(plain("f"), 0, bytes("D"), 1, TUNO_WHY) == 0 && told_line(0));
    memset(text, 'D', sizeof text);
    CHECK(why_bytes(plain("f"), 0, text, sizeof text, TUNO_WHY) == 0 && told_line(0));
    CHECK(as_before());

    /* one body has no version to ask for but the empty one */
    CHECK(opened_fresh(SCRIPT, "{ f*; };") == 0);
    CHECK(why_wanted("f", "") == 0 && told_only(TUNO_WHY_WANTED));
    CHECK(why_wanted("f", "A") == TUNO_UNKNOWN_VERSION);
}

/* The first global line that is the raw name, else the first general `*` of the locals. */
static void test_rust_why(void) {
    static const char *const wanted[] = {"", "V"};
    size_t i;
    CHECK(opened_fresh(SCRIPT, "{ f; local: extern \"C++\" { *; }; *; };") == 0);
    CHECK(count(TUNO_COUNT_KIND) == TUNO_KIND_RUST);
    keep();
    CHECK(why("f") == 0 && told_is(0, TUNO_CLASS_EXACT, 0, TUNO_SECTION_GLOBAL, TUNO_LANGUAGE_GENERAL, 3));
    CHECK(why("g") == 0 && told_is(2, TUNO_CLASS_ALL, 0, TUNO_SECTION_LOCAL, TUNO_LANGUAGE_GENERAL, 34));
    /* a wanted version decides nothing */
    for (i = 0; i < 2; i++) {
        CHECK(why_wanted("f", wanted[i]) == 0 && told_line(0));
        CHECK(why_wanted("g", wanted[i]) == 0 && told_line(2));
    }
    CHECK(why_of(both("f", "g")) == 0 && told_line(0));
    CHECK(why_of(both("g", "f")) == 0 && told_line(2));
    CHECK(as_before());

    CHECK(opened_fresh(SCRIPT, "{ g; \"f\"; f; local: f; f*; *; *; };") == 0);
    CHECK(count(TUNO_COUNT_KIND) == TUNO_KIND_RUST);
    CHECK(why("f") == 0 && told_is(1, TUNO_CLASS_EXACT, 0, TUNO_SECTION_GLOBAL, TUNO_LANGUAGE_GENERAL, 6));
    CHECK(why("fx") == 0 && told_is(5, TUNO_CLASS_ALL, 0, TUNO_SECTION_LOCAL, TUNO_LANGUAGE_GENERAL, 28));

    /* a local name is not listed, and `*` of an extern "C" block is as general as one outside */
    CHECK(opened_fresh(SCRIPT, "{ local: f; extern \"C\" { *; }; *; };") == 0);
    CHECK(count(TUNO_COUNT_KIND) == TUNO_KIND_RUST);
    CHECK(why("f") == 0 && told_is(1, TUNO_CLASS_ALL, 0, TUNO_SECTION_LOCAL, TUNO_LANGUAGE_GENERAL, 26));

    /* the same body with a name is Regular */
    CHECK(opened_fresh(SCRIPT, "V { f; local: extern \"C++\" { *; }; *; };") == 0);
    CHECK(why("g") == 0 && told_is(1, TUNO_CLASS_ALL, 1, TUNO_SECTION_LOCAL, TUNO_LANGUAGE_CXX, 30));
    CHECK(why_wanted("g", "V") == 0 && told_only(TUNO_WHY_WANTED));
    CHECK(why_wanted("g", "W") == TUNO_UNKNOWN_VERSION);
}

static void test_list_why(void) {
    CHECK(opened_fresh(LIST, "{ *_b; foo*; extern \"C++\" { \"f()\"; }; foo; foo_?; };") == 0);
    keep();
    CHECK(why("foo") == 0 && told_is(3, TUNO_CLASS_EXACT, 0, TUNO_SECTION_GLOBAL, TUNO_LANGUAGE_GENERAL, 39));
    CHECK(why("foo_b") == 0 && told_is(4, TUNO_CLASS_NON_STAR, 0, TUNO_SECTION_GLOBAL, TUNO_LANGUAGE_GENERAL, 44));
    CHECK(why("foo_bar_b") == 0 && told_is(0, TUNO_CLASS_STAR, 0, TUNO_SECTION_GLOBAL, TUNO_LANGUAGE_GENERAL, 3));
    CHECK(why("foo_bar") == 0 && told_line(1));
    CHECK(why_of(both("_Zf", "f()")) == 0 && told_is(2, TUNO_CLASS_EXACT, 0, 0, TUNO_LANGUAGE_CXX, 29));
    CHECK(why_of(both("f()", "f")) == 0 && told_only(TUNO_WHY_NO_LINE));
    CHECK(why_wanted("foo", "") == TUNO_WRONG_KIND);
    CHECK(why_wanted("foo", "V") == TUNO_WRONG_KIND);
    CHECK(as_before());
    CHECK(symbol("extern \"C++\" { g; };", 0) == 0);
    CHECK(why("g") == 0 && told_is(5, TUNO_CLASS_EXACT, 0, TUNO_SECTION_GLOBAL, TUNO_LANGUAGE_CXX, 0));
    CHECK(undo() == 0 && why("g") == 0 && told_only(TUNO_WHY_NO_LINE));
}

/* Struck lines match nothing, added ones have no offset, and a settle renumbers. */
static void test_edited_why(void) {
    CHECK(opened_fresh(SCRIPT, "A { f; f; };") == 0);
    CHECK(why("f") == 0 && told_line(0));
    CHECK(strike(0) == 0 && why("f") == 0 && told_is(1, TUNO_CLASS_EXACT, 1, 0, 0, 8));
    CHECK(strike(1) == 0 && why("f") == 0 && told_only(TUNO_WHY_NO_LINE));
    CHECK(undo() == 0 && why("f") == 0 && told_line(1));
    CHECK(undo() == 0 && why("f") == 0 && told_line(0));

    CHECK(opened_fresh(SCRIPT, haze) == 0);
    CHECK(add(2, TUNO_SECTION_LOCAL, TUNO_LANGUAGE_CXX, "\"haze::day()\"") == 0);
    CHECK(why_of(both("haze_d", "haze::day()")) == 0);
    CHECK(told_is(3, TUNO_CLASS_EXACT, 2, TUNO_SECTION_LOCAL, TUNO_LANGUAGE_CXX, 0));
    CHECK(add(0, 0, 0, "haze_month") == 0);
    CHECK(why("haze_month") == 0 && told_is(4, TUNO_CLASS_EXACT, 0, TUNO_SECTION_GLOBAL, TUNO_LANGUAGE_GENERAL, 0));
    CHECK(strike(4) == 0 && strike(0) == 0);
    CHECK(why("haze_month") == 0 && told_is(2, TUNO_CLASS_EXACT, 2, TUNO_SECTION_GLOBAL, TUNO_LANGUAGE_GENERAL, 56));
    CHECK(why("haze_day") == 0 && told_is(1, TUNO_CLASS_ALL, 1, TUNO_SECTION_LOCAL, TUNO_LANGUAGE_GENERAL, 33));
    CHECK(settle() == 0);
    CHECK(why("haze_month") == 0 && told_is(1, TUNO_CLASS_EXACT, 2, TUNO_SECTION_GLOBAL, TUNO_LANGUAGE_GENERAL, 56));
    CHECK(why("haze_day") == 0 && told_is(0, TUNO_CLASS_ALL, 1, TUNO_SECTION_LOCAL, TUNO_LANGUAGE_GENERAL, 33));
}

/* An `out` that is too short is refused last. */
static void test_refused_why(void) {
    static const char *const scripts[] = {"{ f*; };", "{ f; local: *; };", "{ f*; };"};
    struct name name;
    size_t room, length;
    uint32_t kind;

    for (kind = TUNO_KIND_REGULAR; kind <= TUNO_KIND_EXPORT_LIST; kind++) {
        int list = kind == TUNO_KIND_EXPORT_LIST;
        CHECK(opened_fresh(list ? LIST : SCRIPT, scripts[kind]) == 0);
        CHECK(count(TUNO_COUNT_KIND) == kind);
        keep();
        for (room = 0; room < TUNO_WHY; room++) {
            CHECK(why_bytes(plain("f"), 0, bytes(""), 0, room) == TUNO_NO_ROOM);
            CHECK(why_bytes(plain("g"), 0, bytes(""), 0, room) == TUNO_NO_ROOM);
            CHECK(why_bytes(plain("f"), 1, bytes(""), 0, room) == (list ? TUNO_WRONG_KIND : TUNO_NO_ROOM));
        }
        for (; room <= TUNO_WHY + 2; room++) CHECK(why_bytes(plain("f"), 0, bytes(""), 0, room) == 0 && told_line(0));

        memset(text, 'f', sizeof text);
        for (room = TUNO_WHY - 1; room <= TUNO_WHY; room++) {
            uint32_t done = room < TUNO_WHY ? TUNO_NO_ROOM : 0;
            name.raw = name.demangled = text;
            name.raw_length = TUNO_RAW_NAME_LIMIT;
            name.demangled_length = TUNO_DEMANGLED_NAME_LIMIT;
            CHECK(why_bytes(name, 0, text, 0, room) == done);
            name.raw_length++;
            CHECK(why_bytes(name, 0, text, 0, room) == TUNO_TOO_LONG);
            name.raw_length = 1;
            name.demangled_length++;
            CHECK(why_bytes(name, 0, text, 0, room) == TUNO_TOO_LONG);
            CHECK(why_bytes(both("f", "\xff"), 0, text, 0, room) == TUNO_NAME_NOT_UTF8);
            CHECK(why_bytes(both("\xc3", "f"), 0, text, 0, room) == TUNO_NAME_NOT_UTF8);

            /* with a wanted version 13 comes before 1, 1 before 9, 9 before 10 and 10 before 8 */
            CHECK(why_bytes(name, 1, text, 1, room) == (list ? TUNO_WRONG_KIND : TUNO_TOO_LONG));
            name = plain("\xff");
            CHECK(why_bytes(name, 1, text, sizeof text, room) == (list ? TUNO_WRONG_KIND : TUNO_TOO_LONG));
            CHECK(why_bytes(name, 1, text, 1, room) == (list ? TUNO_WRONG_KIND : TUNO_NAME_NOT_UTF8));
            name = plain("f");
            length = TUNO_WANTED_VERSION_LIMIT;
            CHECK(why_bytes(name, 1, text, length + 1, room) == (list ? TUNO_WRONG_KIND : TUNO_TOO_LONG));
            if (kind == TUNO_KIND_REGULAR) done = TUNO_UNKNOWN_VERSION;
            if (list) done = TUNO_WRONG_KIND;
            CHECK(why_bytes(name, 1, text, length, room) == done);
        }
        CHECK(as_before());
    }
}

/* The line that decides, told without the library: of every two lines of these tokens in every place, and of scripts of
 * the Rust kind. The other questions answer what this line's node and section give. */

struct placed {
    const char *token;
    uint32_t class_number, node, section, language;
};

static const char *const tokens[] = {"a", "\\a", "?", "a*", "*", "b"};
static const uint32_t classes[] = {
    TUNO_CLASS_EXACT, TUNO_CLASS_ESCAPED, TUNO_CLASS_NON_STAR, TUNO_CLASS_STAR, TUNO_CLASS_ALL, TUNO_CLASS_EXACT};
static const char *const asked[][2] = {{"a", "a"}, {"a", "b"}, {"b", "a"}, {"ab", "c"}, {"bc", "ab"}, {"", "bc"}};

#define TOKENS ((unsigned)(sizeof tokens / sizeof tokens[0]))
#define ASKED ((unsigned)(sizeof asked / sizeof asked[0]))
#define LAST_NODE 2u
#define PLACES (TOKENS * 2 * 2 * (LAST_NODE + 1))
#define LIST_PLACES (TOKENS * 2)

/* Those of an export list are the first ones. */
static struct placed place_of(unsigned i) {
    struct placed x;
    x.token = tokens[i % TOKENS];
    x.class_number = classes[i % TOKENS];
    x.language = i / TOKENS % 2;
    x.section = i / TOKENS / 2 % 2;
    x.node = i / TOKENS / 2 / 2;
    return x;
}

static int matches(const struct placed *x, const char *raw, const char *demangled) {
    const char *name = x->language == TUNO_LANGUAGE_CXX ? demangled : raw;
    switch (x->class_number) {
    case TUNO_CLASS_EXACT: return strcmp(name, x->token) == 0;
    case TUNO_CLASS_ESCAPED: return strcmp(name, x->token + 1) == 0;
    case TUNO_CLASS_NON_STAR: return strlen(name) == 1;
    case TUNO_CLASS_STAR: return name[0] == 'a';
    default: return 1;
    }
}

/* Names: nodes upward, in a node general global, general local, C++ global, C++ local. Then NonStar, Star and All, of
 * each nodes downward, in a node global, local. */
static unsigned rank(const struct placed *x) {
    if (x->class_number <= TUNO_CLASS_ESCAPED) return 4 * x->node + 2 * x->language + x->section;
    return 4 * (LAST_NODE + 1) * x->class_number + 2 * (LAST_NODE - x->node) + x->section;
}

/* Whether this line is named, none where it is the number of lines, and the other questions answer what it gives. */
static unsigned explained(const char *raw, const char *demangled, uint32_t line) {
    struct name n = both(raw, demangled);
    int none = line == count(TUNO_COUNT_LINES);
    uint32_t index = TUNO_VERSION_NONE, section = TUNO_LOCALITY_NOTHING;
    if (tuno_why(BOOK, NAME(n), 0, n.raw, 0, told, TUNO_WHY) != 0) return 0;
    if (!(none ? told_only(TUNO_WHY_NO_LINE) : told_line(line))) return 0;
    if (count(TUNO_COUNT_KIND) == TUNO_KIND_EXPORT_LIST) {
        return tuno_contains(BOOK, NAME(n), &value, 1) == 0 && value == (none ? 0u : 1u);
    }
    if (!none) {
        section = told[TUNO_WHY_SECTION] == TUNO_SECTION_GLOBAL ? TUNO_LOCALITY_GLOBAL : TUNO_LOCALITY_LOCAL;
        if (told[TUNO_WHY_NODE] != 0) index = TUNO_VERSION_OF_NODE(told[TUNO_WHY_NODE]);
    }
    return tuno_version_for_symbol(BOOK, NAME(n), 0, n.raw, 0, &value, 1) == 0 && value == index &&
        tuno_locality(BOOK, NAME(n), &value, 1) == 0 && value == section;
}

static unsigned explained_by_two(unsigned first, unsigned second) {
    struct placed x = place_of(first), y = place_of(second);
    unsigned i, names = 0;
    if (add(x.node, x.section, x.language, x.token) != 0 || add(y.node, y.section, y.language, y.token) != 0) return 0;
    for (i = 0; i < ASKED; i++) {
        uint32_t line = 2;
        if (matches(&y, asked[i][0], asked[i][1])) line = 1;
        if (matches(&x, asked[i][0], asked[i][1]) && (line == 2 || rank(&x) <= rank(&y))) line = 0;
        names += explained(asked[i][0], asked[i][1], line);
    }
    return undo() == 0 && undo() == 0 ? names : 0;
}

/* The globals are names of one byte. */
static unsigned explained_by_rust(const char *globals, const char *first, const char *second) {
    static const uint32_t star = 4 * TUNO_CLASS_ALL + 2 * TUNO_SECTION_LOCAL + TUNO_LANGUAGE_GENERAL;
    char script[128];
    unsigned i, names = 0;
    snprintf(script, sizeof script, "{%slocal:%s%s*;};", globals, first, second);
    if (opened(SCRIPT, script) != 0 || count(TUNO_COUNT_KIND) != TUNO_KIND_RUST) return 0;
    for (i = 0; i < ASKED; i++) {
        const char *name = asked[i][0], *listed = globals;
        uint32_t line;
        while (*listed != 0 && (name[0] != *listed || name[1] != 0)) listed += strlen("a;");
        line = (uint32_t)((listed - globals) / 2);
        if (*listed == 0) {
            while (b.lines[1 + TUNO_LINE_WIDTH * line + TUNO_LINE_CODE] != star) line++;
        }
        names += explained(asked[i][0], asked[i][1], line);
    }
    return names;
}

static void test_every_why(void) {
    static const char *const globals[] = {"", "a;", "b;", "a;a;", "b;a;", "a;b;a;"};
    static const char *const locals[] = {"", "a;", "a*;", "*;", "extern \"C++\"{*;};", "extern \"C\"{*;};"};
    unsigned names = 0, tried = 0, i, j, k;

    lend(some_rooms);
    CHECK(opened(SCRIPT, "A{};B{};") == 0);
    for (i = 0; i < PLACES; i++) {
        for (j = 0; j < PLACES; j++, tried += ASKED) names += explained_by_two(i, j);
    }
    CHECK(names == tried);
    CHECK(opened(LIST, "{};") == 0);
    for (i = 0; i < LIST_PLACES; i++) {
        for (j = 0; j < LIST_PLACES; j++, tried += ASKED) names += explained_by_two(i, j);
    }
    CHECK(names == tried);
    for (i = 0; i < sizeof globals / sizeof globals[0]; i++) {
        for (j = 0; j < sizeof locals / sizeof locals[0]; j++) {
            for (k = 0; k < sizeof locals / sizeof locals[0]; k++, tried += ASKED) {
                names += explained_by_rust(globals[i], locals[j], locals[k]);
            }
        }
    }
    CHECK(names == tried);
    CHECK(untouched_beside());
}

/* ---- a book in larger rooms: the same contents with zeros behind */

static void test_larger_rooms(void) {
    lend(rooms_of(9, 12, 15, 16));
    b.rooms.journal = 0;
    CHECK(opened(SCRIPT, haze) == 0);
    CHECK(strike(0) == TUNO_NO_ROOM);
    keep();
    lend_zeros(all_rooms);
    memcpy(b.counts + 1, before.counts + 1, 4 * before.rooms.counts);
    memcpy(b.nodes + 1, before.nodes + 1, 4 * before.rooms.nodes);
    memcpy(b.names + 1, before.names + 1, before.rooms.names);
    memcpy(b.lines + 1, before.lines + 1, 4 * before.rooms.lines);
    memcpy(b.pool + 1, before.pool + 1, before.rooms.pool);
    keep();
    CHECK(opened_fresh(SCRIPT, haze) == 0);
    CHECK(as_before());
    CHECK(strike(0) == 0);
}

int main(int argc, char **argv) {
    int function;
    if (argc != 2) {
        fprintf(stderr, "usage: %s examples/haze.txt\n", argv[0]);
        return 2;
    }
    test_story(argv[1]);
    test_points();
    test_refused_openings();
    test_rooms();
    test_refused_questions();
    test_no_book();
    test_long_names();
    test_refused_edits();
    test_trial();
    test_add_symbol();
    test_runs();
    test_opened_offsets();
    test_edited_offsets();
    test_lent_offsets();
    test_ranked_why();
    test_wanted_why();
    test_rust_why();
    test_list_why();
    test_edited_why();
    test_refused_why();
    test_every_why();
    test_larger_rooms();
    for (function = 0; function < FUNCTIONS; function++) CHECK(met[function] == declared(function));
    printf("%u passed, %u failed\n", passed, failed);
    return failed != 0;
}
