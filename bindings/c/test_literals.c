/* Tests literals as C calls them: test_literals FILE MORE.., where FILE is the record of examples/command-strings.txt; the strings of each come
 * back from the rows of its listing. Prints `test_literals: N passed`, or what failed. */
#include "lent.h"

#define MOST CAKIROTU_LITERAL_BYTES
#define MARK "\xe2\x80\xa6"

/* The first record's command, and its literal. */
static const uint8_t COMMAND[] = {'P', 'O', 'R', 'T', '\\', '1', '\r', 0};
static const char LITERAL[] = "\"PORT\\\\1\\r\\0\"";

/* A call in memory of just the lengths, each byte 0xee before it: this answer, and with 0 these bytes and values. */
static void reads_kind(uint8_t kind, const uint8_t *text, size_t len, size_t room, uint8_t answer, const uint8_t *bytes, size_t count,
                       uint64_t wide, uint64_t cut) {
    const size_t lent[LISTS] = {room};
    struct lists l = lend(lent);
    uint8_t *own = copied(text, len);
    uint64_t values[CAKIROTU_VALUES] = {7, 7, 7};
    CHECK(cakirotu_read_literal(kind, own, len, l.at[0], room, values, CAKIROTU_VALUES) == answer);
    size_t filled[LISTS] = {answer == CAKIROTU_LISTED ? count : 0};
    CHECK(values[CAKIROTU_STRING_BYTES] == filled[0]);
    CHECK(values[CAKIROTU_WIDE] == (answer == CAKIROTU_LISTED ? wide : 0));
    CHECK(values[CAKIROTU_CUT] == (answer == CAKIROTU_LISTED ? cut : 0));
    CHECK(filled[0] == 0 || memcmp(l.at[0], bytes, filled[0]) == 0);
    CHECK(unchanged(&l, filled));
    free(own);
}

/* A literal with these bytes, in lists that fit, that are longer, one byte too short and empty. */
static void reads(const uint8_t *text, size_t len, const uint8_t *bytes, size_t count, uint64_t wide, uint64_t cut) {
    reads_kind(CAKIROTU_ADDRESS, text, len, count, CAKIROTU_LISTED, bytes, count, wide, cut);
    reads_kind(CAKIROTU_ADDRESS, text, len, count + 3, CAKIROTU_LISTED, bytes, count, wide, cut);
    if (count > 0) {
        reads_kind(CAKIROTU_ADDRESS, text, len, count - 1, CAKIROTU_NO_TEXT_ROOM, bytes, count, wide, cut);
        reads_kind(CAKIROTU_ADDRESS, text, len, 0, CAKIROTU_NO_TEXT_ROOM, bytes, count, wide, cut);
    }
}

/* No literal, whatever room there is for its string. */
static void refused(const uint8_t *text, size_t len) {
    reads_kind(CAKIROTU_ADDRESS, text, len, 0, CAKIROTU_NO_LITERAL, NULL, 0, 0, 0);
    reads_kind(CAKIROTU_ADDRESS, text, len, MOST + 1, CAKIROTU_NO_LITERAL, NULL, 0, 0, 0);
}

/* The literal of a string, as document 01 has it: at most 80 characters, escaped once, and the mark if there are more. Answers its length. */
static size_t literal(const uint8_t *string, size_t count, int wide, uint8_t text[6 * MOST + 8]) {
    static const char escaped[] = "\0\t\r\n'\"\\", letters[] = "0trn'\"\\";
    size_t len = 0;
    if (wide) {
        text[len++] = 'L';
    }
    text[len++] = '"';
    for (size_t i = 0; i < count && i < MOST; i++) {
        const char *at = memchr(escaped, string[i], sizeof escaped - 1);
        if (at != NULL) {
            text[len++] = '\\';
            text[len++] = (uint8_t)letters[at - escaped];
        } else if (string[i] < 0x20 || string[i] == 0x7f) {
            len += (size_t)sprintf((char *)text + len, "\\u{%x}", string[i]);
        } else {
            text[len++] = string[i];
        }
    }
    if (count > MOST) {
        memcpy(text + len, MARK, 3);
        len += 3;
    }
    text[len++] = '"';
    return len;
}

/* A string goes to its literal and back, wide and not. */
static void comes_back(const uint8_t *string, size_t count) {
    uint8_t text[6 * MOST + 8];
    for (int wide = 0; wide < 2; wide++) {
        size_t len = literal(string, count, wide, text);
        reads(text, len, string, count < MOST ? count : MOST, (uint64_t)wide, count > MOST);
    }
}

/* Nothing at all: NULL for everything. */
static void test_null(void) {
    uint64_t values[CAKIROTU_VALUES] = {7, 7, 7};
    const uint8_t *empty = (const uint8_t *)"\"\"", *text = (const uint8_t *)LITERAL;
    CHECK(cakirotu_read_literal(CAKIROTU_ADDRESS, NULL, 0, NULL, 0, NULL, 0) == CAKIROTU_NO_LITERAL);
    CHECK(cakirotu_read_literal(CAKIROTU_ADDRESS, NULL, 0, NULL, 0, values, CAKIROTU_VALUES) == CAKIROTU_NO_LITERAL);
    CHECK(values[0] == 0 && values[1] == 0 && values[2] == 0);
    CHECK(cakirotu_read_literal(CAKIROTU_ADDRESS, empty, 2, NULL, 0, NULL, 0) == CAKIROTU_LISTED);
    CHECK(cakirotu_read_literal(CAKIROTU_ADDRESS, text, sizeof LITERAL - 1, NULL, 0, NULL, 0) == CAKIROTU_NO_TEXT_ROOM);
    CHECK(cakirotu_read_literal(CAKIROTU_SYMBOL, text, sizeof LITERAL - 1, NULL, 0, NULL, 0) == CAKIROTU_NO_LITERAL);
}

/* A list of values of any length gets the first ones. */
static void test_values(void) {
    static const uint64_t want[CAKIROTU_VALUES] = {3, 1, 0};
    for (size_t n = 0; n <= CAKIROTU_VALUES + 1; n++) {
        uint64_t values[CAKIROTU_VALUES + 1] = {7, 7, 7, 7}, none[CAKIROTU_VALUES + 1] = {7, 7, 7, 7};
        uint8_t out[3];
        CHECK(cakirotu_read_literal(CAKIROTU_ADDRESS, (const uint8_t *)"L\"a\\0b\"", 7, out, 3, values, n) == CAKIROTU_LISTED);
        CHECK(memcmp(out, "a\0b", 3) == 0);
        CHECK(cakirotu_read_literal(CAKIROTU_ADDRESS, (const uint8_t *)"L\"a\\0b\"", 7, out, 2, none, n) == CAKIROTU_NO_TEXT_ROOM);
        for (size_t i = 0; i <= CAKIROTU_VALUES; i++) {
            int given = i < n && i < CAKIROTU_VALUES;
            CHECK(values[i] == (given ? want[i] : 7));
            CHECK(none[i] == (given ? 0 : 7));
        }
    }
}

/* Every byte that a string may have, alone and all together, and every length from 0 to 90. */
static void test_strings(void) {
    uint8_t string[128];
    for (int i = 0; i < 128; i++) {
        string[i] = (uint8_t)i;
        comes_back(&string[i], 1);
    }
    for (size_t count = 0; count <= 90; count++) {
        comes_back(string, count);
        comes_back(string + 128 - count, count);
    }
    reads((const uint8_t *)LITERAL, sizeof LITERAL - 1, COMMAND, sizeof COMMAND, 0, 0);
}

/* Spellings that no listing has. */
static void test_refused(void) {
    static const char *const inside[] = {
        "\\u{0}",  "\\u{0d}", "\\u{d}",  "\\u{a}", "\\u{9}", "\\u{7F}", "\\u{1F}", "\\u{01}", "\\u{41}",  "\\u{20}", "\\u{22}",
        "\\u{27}", "\\u{5c}", "\\u{80}", "\\u{}",  "\\u",    "\\u{",    "\\u{1",   "\\u1",    "\\u{101}", "\\a",     "\\x01",
        "\\U{1}",  "\\",      "\"",      "'",      "\r",     "\x01",    "\x7f",    "\x80",    "\xe2",     "\xff",    MARK,
    };
    static const char *const whole[] = {
        "\"", "L", "L\"", "a", "\"a", "a\"", "l\"a\"", "LL\"a\"", "L \"a\"", " \"a\"", "\"a\" ", "\"a\";", "'a'", "\"a\"b\"", "sub_401000",
    };
    uint8_t text[3 * MOST];
    for (size_t i = 0; i < sizeof inside / sizeof *inside; i++) {
        int len = sprintf((char *)text, "\"%s\"", inside[i]);
        refused(text, (size_t)len);
        len = sprintf((char *)text, "L\"PORT%s1\"", inside[i]);
        refused(text, (size_t)len);
    }
    for (size_t i = 0; i < sizeof whole / sizeof *whole; i++) {
        refused((const uint8_t *)whole[i], strlen(whole[i]));
    }
    refused((const uint8_t *)"\"\0\"", 3);
    for (int kind = 0; kind < 256; kind++) {
        if (kind != CAKIROTU_ADDRESS) {
            reads_kind((uint8_t)kind, (const uint8_t *)LITERAL, sizeof LITERAL - 1, 0, CAKIROTU_NO_LITERAL, NULL, 0, 0, 0);
            reads_kind((uint8_t)kind, (const uint8_t *)LITERAL, sizeof LITERAL - 1, MOST, CAKIROTU_NO_LITERAL, NULL, 0, 0, 0);
        }
    }
}

/* So many characters, then these bytes before the last quote: read only if at most 80 and nothing, or 80 and the mark. */
static void test_lengths(void) {
    static const char *const marks[] = {"", MARK, "\xe2", "\xe2\x80", "\x80\xa6", "...", MARK MARK, MARK "a", MARK "\\"};
    uint8_t text[3 * MOST], string[3 * MOST];
    memset(string, 'a', sizeof string);
    for (size_t count = 0; count < 2 * MOST; count++) {
        for (size_t i = 0; i < sizeof marks / sizeof *marks; i++) {
            size_t len = count + 1;
            text[0] = '"';
            memset(text + 1, 'a', count);
            len += (size_t)sprintf((char *)text + len, "%s\"", marks[i]);
            if ((i == 0 && count <= MOST) || (i == 1 && count == MOST)) {
                reads(text, len, string, count, 0, i == 1);
            } else if (i != 5 || count + 3 > MOST) {
                refused(text, len);
            }
        }
    }
}

/* This text is refused and changes nothing, or its string has it as its literal. */
static int accepted(const uint8_t *text, size_t len) {
    uint8_t out[MOST + 1], again[6 * MOST + 8];
    uint64_t values[CAKIROTU_VALUES] = {7, 7, 7};
    memset(out, 0xee, sizeof out);
    uint8_t no = cakirotu_read_literal(CAKIROTU_ADDRESS, text, len, out, MOST, values, CAKIROTU_VALUES);
    if (no != CAKIROTU_LISTED) {
        CHECK(no == CAKIROTU_NO_LITERAL);
        refused(text, len);
        return 0;
    }
    size_t count = (size_t)values[CAKIROTU_STRING_BYTES];
    CHECK(count <= MOST && out[count] == 0xee);
    /* A string that was cut has one character more, whatever it is. */
    CHECK(values[CAKIROTU_CUT] == 0 || count == MOST);
    CHECK(literal(out, count + (size_t)values[CAKIROTU_CUT], (int)values[CAKIROTU_WIDE], again) == len);
    CHECK(memcmp(again, text, len) == 0);
    return 1;
}

/* Every shorter text, which is never a literal, and every change of every byte, of a plain literal and of a cut and wide one. */
static void test_damaged(void) {
    uint8_t texts[2][6 * MOST + 8], string[MOST + 1];
    size_t lens[2], strings = 0;
    for (size_t i = 0; i < sizeof string; i++) {
        string[i] = (uint8_t)("PORT\\1\r\x01"[i % 8]);
    }
    lens[0] = literal(COMMAND, sizeof COMMAND, 0, texts[0]);
    lens[1] = literal(string, sizeof string, 1, texts[1]);
    for (int i = 0; i < 2; i++) {
        CHECK(accepted(texts[i], lens[i]));
        for (size_t n = 0; n < lens[i]; n++) {
            CHECK(!accepted(texts[i], n));
            for (int byte = 0; byte < 256; byte++) {
                uint8_t own = texts[i][n];
                texts[i][n] = (uint8_t)byte;
                strings += (size_t)accepted(texts[i], lens[i]);
                texts[i][n] = own;
            }
        }
    }
    CHECK(strings > 1000 && strings < 20000);
}

/* A record's atlas, by the header's counts. */
struct atlas {
    size_t entries;
    const uint8_t *marks, *text;
};

static struct atlas atlas_of(const uint8_t *rec) {
    size_t blocks = u16_at(rec, 4), insns = u16_at(rec, 6), edges = u16_at(rec, 8), entries = u16_at(rec, 10), spans = u16_at(rec, 12);
    const uint8_t *marks = rec + 24 + 12 * blocks + 9 * edges + 100 * insns + 8 * entries;
    return (struct atlas){entries, marks, marks + 2 * entries + 16 * spans};
}

/* Which string of the atlas this is, as its literal gives it: 1 plain, 2 wide. The number of the entry, or that of entries if there is none. */
static size_t found(const struct atlas *a, const uint8_t *bytes, const uint64_t values[CAKIROTU_VALUES]) {
    const uint8_t *text = a->text;
    for (size_t i = 0; i < a->entries; i++) {
        size_t len = a->marks[2 * i + 1], kept = len < MOST ? len : MOST;
        if (a->marks[2 * i] == 1 + values[CAKIROTU_WIDE] && kept == values[CAKIROTU_STRING_BYTES] && (len > MOST) == values[CAKIROTU_CUT] &&
            memcmp(text, bytes, kept) == 0) {
            return i;
        }
        text += len;
    }
    return a->entries;
}

/* The listing of a record goes into rows and back. Then each literal is a string of the record's atlas, and each other token is none. Answers
 * how many there are, and marks the entries that were found. */
static size_t from_rows(const uint8_t *rec, size_t len, uint8_t seen[256]) {
    uint64_t sizes[CAKIROTU_SIZES], size, values[CAKIROTU_VALUES];
    size_t blocks = len < 24 ? 0 : u16_at(rec, 4), fit[LISTS], strings = 0, begin = 0;
    if (cakirotu_size(rec, len, 0, blocks, sizes, CAKIROTU_SIZES) != CAKIROTU_LISTED) {
        return 0;
    }
    exact(sizes, fit);
    struct lists l = lend(fit), back = lend(fit);
    CHECK(list(rec, len, 0, blocks, &l, sizes, CAKIROTU_SIZES) == CAKIROTU_LISTED);
    size_t most = (size_t)CAKIROTU_ROWS_BYTES(sizes[0], sizes[1], sizes[2]);
    uint8_t *rows = malloc(most > 0 ? most : 1);
    CHECK(rows != NULL);
    CHECK(write_rows(&l, sizes, CAKIROTU_SIZES, rows, most, &size, 1) == CAKIROTU_LISTED);
    CHECK(read_rows(rows, (size_t)size, &back, sizes, CAKIROTU_SIZES) == CAKIROTU_LISTED);
    struct atlas atlas = atlas_of(rec);
    for (size_t i = 0; i < sizes[CAKIROTU_TOKENS]; i++) {
        const uint8_t *text = (const uint8_t *)back.at[0] + begin;
        size_t end = ((const uint32_t *)back.at[1])[i];
        uint8_t kind = ((const uint8_t *)back.at[2])[i], bytes[MOST];
        uint8_t no = cakirotu_read_literal(kind, text, end - begin, bytes, MOST, values, CAKIROTU_VALUES);
        CHECK(no == (kind == CAKIROTU_ADDRESS ? CAKIROTU_LISTED : CAKIROTU_NO_LITERAL));
        if (no == CAKIROTU_LISTED) {
            size_t entry = found(&atlas, bytes, values);
            CHECK(entry < atlas.entries);
            seen[entry] = 1;
            strings++;
        }
        begin = end;
    }
    free(rows);
    CHECK(unchanged(&l, fit) && unchanged(&back, fit));
    return strings;
}

/* The strings of a record's listing. Of the first one there are three: the command plain and wide, and a string that was cut. */
static size_t test_record(const char *name, int first) {
    static uint8_t rec[MOST_RECORD];
    uint8_t seen[256] = {0};
    size_t len = read_record(name, rec), strings = from_rows(rec, len, seen);
    if (first) {
        static const uint64_t plain[CAKIROTU_VALUES] = {sizeof COMMAND, 0, 0}, wide[CAKIROTU_VALUES] = {sizeof COMMAND, 1, 0};
        struct atlas atlas = atlas_of(rec);
        CHECK(strings == 3 && atlas.entries == 5);
        CHECK(seen[found(&atlas, COMMAND, plain)] && seen[found(&atlas, COMMAND, wide)]);
        CHECK(seen[4] && atlas.marks[2 * 4 + 1] > MOST);
    }
    return strings;
}

int main(int argc, char **argv) {
    size_t strings = 0;
    test_null();
    test_values();
    test_strings();
    test_refused();
    test_lengths();
    test_damaged();
    CHECK(argc > 1);
    for (int i = 1; i < argc; i++) {
        strings += test_record(argv[i], i == 1);
    }
    printf("test_literals: %d passed, %zu strings from rows\n", passed, strings);
    return 0;
}
