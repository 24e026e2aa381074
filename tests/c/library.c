/* The static library from C: each function with tables of every size around the edge, filled with garbage first. Rows, zeros after
   them, all zeros after every refusal, and the words past a table untouched. Each expectation is written out here, from 01.
   The kit's clang has no headers of the C library, so what is called is declared. */
#include "../../include/kawhiluhe.h"

int printf(const char *, ...);

typedef kawhiluhe_word word;

enum { ROOM = 24600, GUARD = 4 };

static word elements[ROOM + GUARD], second[ROOM + GUARD];
static char long_text[70000];
static long passed, failed;

static void test(int holds, const char *label, word size, word other)
{
    if (holds) {
        passed++;
        return;
    }
    failed++;
    printf("FAILED: %s, with tables of %lu and %lu words\n", label, size, other);
}

static word length(const char *text)
{
    word n = 0;
    while (text[n]) n++;
    return n;
}

static const kawhiluhe_byte *bytes(const char *text) { return (const kawhiluhe_byte *)text; }

static word garbage(word i) { return 0x9e3779b97f4a7c15UL * (i + 1) | 1; }

static void fill(word *table)
{
    for (word i = 0; i < ROOM + GUARD; i++) table[i] = garbage(i);
}

/* The table of so many words holds these, then zeros, and nothing past it was touched. */
static int holds(const word *table, word size, const word *row, word count)
{
    for (word i = 0; i < size; i++)
        if (table[i] != (i < count ? row[i] : 0)) return 0;
    for (word i = size; i < size + GUARD; i++)
        if (table[i] != garbage(i)) return 0;
    return 1;
}

static void try_elements(const char *label, const char *text, word text_length, const word *row, word rows, word refusal, word place)
{
    for (word size = 0; size <= 3 * rows + 7; size++) {
        word short_of = !refusal && size / 3 < rows;
        fill(elements);
        struct kawhiluhe_elements r = kawhiluhe_elements(bytes(text), text_length, elements, size);
        word no = refusal ? refusal : short_of ? KAWHILUHE_ELEMENT_TABLE_SHORT : 0;
        test(r.refusal == no && r.place == (refusal ? place : short_of ? size / 3 : 0) && r.elements == (no ? 0 : rows), label, size, 0);
        test(holds(elements, size, row, no ? 0 : 3 * rows), label, size, 0);
    }
}

/* Both tables at and around their edges, each size once: refusal 4 before all others of the strict reading and the survey. */
enum { SIZES = 12 };

struct sizes {
    word count, size[SIZES];
};

static void add_size(struct sizes *s, word size)
{
    for (word i = 0; i < s->count; i++)
        if (s->size[i] == size) return;
    if (s->count < SIZES) s->size[s->count++] = size;
}

static struct sizes sizes_of(word rows, word width)
{
    struct sizes s = { 0 };
    word full = rows * width;
    add_size(&s, ROOM);
    add_size(&s, 0);
    add_size(&s, 1);
    add_size(&s, width);
    if (full >= width) add_size(&s, full - width);
    if (full) add_size(&s, full - 1);
    for (word more = 0; more <= width; more += width > 3 ? 2 : 1) add_size(&s, full + more);
    add_size(&s, full + 5 * width - 1);
    return s;
}

struct strict_case {
    const char *label, *text;
    word count;             /* elements */
    word rows, passes, row; /* and rows of the tree */
    word refusal, place;    /* or 2, 5, 6, 7 */
    const word *tree;
};

/* The elements of a text as its own reader leaves them, for what the others must leave. */
static word alone[ROOM + GUARD];

static void read_alone(const char *text, word text_length)
{
    fill(alone);
    kawhiluhe_elements(bytes(text), text_length, alone, ROOM);
}

static void try_strict(const struct strict_case *c, word text_length)
{
    struct sizes wide = sizes_of(c->count, 3), high = sizes_of(c->rows, 5);
    read_alone(c->text, text_length);
    for (word i = 0; i < wide.count; i++)
        for (word j = 0; j < high.count; j++) {
            word size = wide.size[i], other = high.size[j];
            fill(elements);
            fill(second);
            struct kawhiluhe_judged r = kawhiluhe_strict(bytes(c->text), text_length, elements, size, second, other);
            word no = c->refusal, place = c->place;
            if (size / 3 < c->count) no = KAWHILUHE_ELEMENT_TABLE_SHORT, place = size / 3;
            else if (!no && other / 5 < c->rows) no = KAWHILUHE_TREE_TABLE_SHORT, place = other / 5;
            test(r.refusal == no && r.place == (no ? place : 0), c->label, size, other);
            test(r.rows == (no ? 0 : c->rows) && r.passes == (no ? 0 : c->passes) && r.row == (no ? 0 : c->row), c->label, size, other);
            test(holds(elements, size, alone, no ? 0 : 3 * c->count), c->label, size, other);
            test(holds(second, other, c->tree, no ? 0 : 5 * c->rows), c->label, size, other);
        }
}

struct survey_case {
    const char *label, *text;
    word count, pieces;
    word frame, whole, pair, earlier, later;
    word tally[KAWHILUHE_STATES];
    const word *items;
};

static int same_tally(const word *a, const word *b)
{
    for (int i = 0; i < KAWHILUHE_STATES; i++)
        if (a[i] != (b ? b[i] : 0)) return 0;
    return 1;
}

static void try_survey(const struct survey_case *c)
{
    struct sizes wide = sizes_of(c->count, 3), high = sizes_of(c->pieces, 8);
    read_alone(c->text, length(c->text));
    for (word i = 0; i < wide.count; i++)
        for (word j = 0; j < high.count; j++) {
            word size = wide.size[i], other = high.size[j], no = 0, place = 0;
            fill(elements);
            fill(second);
            struct kawhiluhe_surveyed r = kawhiluhe_survey(bytes(c->text), length(c->text), elements, size, second, other);
            if (size / 3 < c->count) no = KAWHILUHE_ELEMENT_TABLE_SHORT, place = size / 3;
            else if (other / 8 < c->pieces) no = KAWHILUHE_ITEM_TABLE_SHORT, place = other / 8;
            test(r.refusal == no && r.place == place && r.pieces == (no ? 0 : c->pieces), c->label, size, other);
            test(r.frame == (no ? 0 : c->frame) && r.whole == (no ? 0 : c->whole), c->label, size, other);
            test(r.pair == (no ? 0 : c->pair) && r.earlier == (no ? 0 : c->earlier) && r.later == (no ? 0 : c->later), c->label, size, other);
            test(same_tally(r.tally, no ? 0 : c->tally), c->label, size, other);
            test(holds(elements, size, alone, no ? 0 : 3 * c->count), c->label, size, other);
            test(holds(second, other, c->items, no ? 0 : 8 * c->pieces), c->label, size, other);
        }
}

static void refuses(const char *label, const char *text, word n, word no, word place)
{
    fill(elements);
    fill(second);
    struct kawhiluhe_surveyed r = kawhiluhe_survey(bytes(text), n, elements, ROOM, second, ROOM);
    test(r.refusal == no && r.place == place && !r.pieces && !r.frame && !r.whole && !r.pair && same_tally(r.tally, 0), label, ROOM, ROOM);
    test(holds(elements, ROOM, 0, 0) && holds(second, ROOM, 0, 0), label, ROOM, ROOM);
    if (no == KAWHILUHE_TOO_MANY_PIECES) return;
    fill(elements);
    fill(second);
    struct kawhiluhe_judged s = kawhiluhe_strict(bytes(text), n, elements, ROOM, second, ROOM);
    test(s.refusal == no && s.place == place && !s.rows && !s.passes && !s.row, label, ROOM, ROOM);
    test(holds(elements, ROOM, 0, 0) && holds(second, ROOM, 0, 0), label, ROOM, ROOM);
    try_elements(label, text, n, 0, 0, no, place);
}

static const char *repeated(char c, word n)
{
    for (word i = 0; i < n; i++) long_text[i] = c;
    long_text[n] = 0;
    return long_text;
}

/* Over the words of the records, and over as many structs as they are: one answer. */
static word looked_up(const char *text, word text_length, const word *table, word words, const char *name, word name_length, const word *items,
                      word item_words)
{
    word r = kawhiluhe_lookup(bytes(text), text_length, table, words, bytes(name), name_length, items, item_words);
    if (item_words % 8) return r;
    word s = kawhiluhe_lookup_items(bytes(text), text_length, table, words, bytes(name), name_length, (const struct kawhiluhe_item *)items,
                                    item_words / 8);
    test(r == s, "lookup over structs", words, item_words);
    return r;
}

static word found(const char *text, const char *name, word item_words)
{
    return looked_up(text, length(text), elements, ROOM, name, length(name), second, item_words);
}

/* 01's own example, the incident's package. */
static const char gas[] = "package gas is\n"
                          "  constant ch4 : natural := 5800;\n"
                          "  constant co2 : natural := ;\n"
                          "  constant total : natural := ch4 + co2;\n"
                          "  constant idle : natural := ch4 / 4;\n"
                          "end package gas;\n";
static const word gas_items[] = {
    1, 0,  3, 1,  0, 0, 0,    0, /* package gas is */
    3, 3,  7, 4,  0, 1, 5800, 0, /* ch4 */
    3, 10, 6, 11, 1, 0, 0,    0, /* co2, broken */
    3, 16, 9, 17, 5, 0, 0,    0, /* total, leans */
    3, 25, 9, 26, 0, 1, 1450, 0, /* idle */
    2, 34, 4, 36, 0, 0, 0,    0, /* end package gas; */
};
static const struct survey_case incident = { "the incident", gas, 38, 6, 1, 0, 0, 0, 0, { 2, 1, 0, 0, 0, 1 }, gas_items };

static const char doubled[] = "package p is constant c : integer := -2; constant d : boolean := true; subtype s is integer range 1 to 5; "
                              "constant C : natural := 2; constant e : integer := -7; end;";
static const word doubled_items[] = {
    1, 0,  3, 1,  0, 0, 0,       0,
    3, 3,  8, 4,  2, 0, 0,       0,
    3, 11, 7, 12, 0, 2, 1,       0,
    4, 18, 9, 19, 0, 1, 1,       5,
    3, 27, 7, 28, 2, 0, 0,       0,
    3, 34, 8, 35, 0, 1, -7UL, 0,
    2, 42, 2, 0,  0, 0, 0,       0,
};
static const struct survey_case shared = { "a shared name", doubled, 44, 7, 1, 0, 1, 1, 4, { 3, 0, 2 }, doubled_items };

/* Names that are claimed again, in another case, as an extended identifier, by a broken piece: the first piece that claims just that name. */
static const char names[] = "package p is constant \\a\\ : integer := 1; constant A : integer := 2; constant \\A\\ : integer := 3; "
                            "constant a : integer := 4; subtype \\a\\\\b\\ is integer; constant broken : ; constant BROKEN : integer := 5; "
                            "subtype \\constant\\ is natural; constant \\a\\ : integer := 6; end;";

static const struct {
    const char *name;
    word piece;
} named[] = {
    { "a", 2 },           { "A", 2 },           { "\\a\\", 1 },     { "\\A\\", 3 },      { "\\a\\\\b\\", 5 },
    { "\\A\\\\b\\", 11 }, { "\\a\\b\\", 11 },   { "a\\b", 11 },       { "broken", 6 },       { "Broken", 6 },
    { "\\broken\\", 11 }, { "\\constant\\", 8 }, { "constant", 11 },   { "\\Constant\\", 11 }, { "p", 11 },
    { "\\p\\", 11 },      { "integer", 11 },    { "\\a", 11 },       { "a\\", 11 },        { "\\\\", 11 },
};

static void lookups_of_names(void)
{
    struct kawhiluhe_surveyed r = kawhiluhe_survey(bytes(names), length(names), elements, ROOM, second, 88);
    test(!r.refusal && r.pieces == 11 && r.pair && r.earlier == 1 && r.later == 9 && r.tally[2] == 5, "the survey of names", ROOM, 88);
    for (word i = 0; i < sizeof named / sizeof named[0]; i++)
        test(found(names, named[i].name, 88) == named[i].piece, named[i].name, ROOM, 88);
    /* the later of two where the earlier is left out */
    test(looked_up(names, length(names), elements, ROOM, "a", 1, second + 24, 64) == 1, "a later claim of a", ROOM, 64);
    test(looked_up(names, length(names), elements, ROOM, "\\a\\", 3, second + 16, 72) == 7, "a later claim of \\a\\", ROOM, 72);
}

static void lookups(void)
{
    kawhiluhe_survey(bytes(gas), length(gas), elements, ROOM, second, 48);
    test(found(gas, "ch4", 48) == 1 && found(gas, "CH4", 48) == 1 && found(gas, "Idle", 48) == 4, "lookup", ROOM, 48);
    test(found(gas, "gas", 48) == 6 && found(gas, "ch", 48) == 6 && found(gas, "ch44", 48) == 6, "lookup of no claim", ROOM, 48);
    test(found(gas, "", 48) == 6 && found(gas, "idle", 39) == 4 && found(gas, "idle", 40) == 4, "lookup in part", ROOM, 48);
    for (word size = 0; size <= 48; size++) {
        test(found(gas, "co2", size) == (size / 8 > 2 ? 2 : size / 8), "lookup in fewer records", ROOM, size);
        test(looked_up(gas, length(gas), elements, size, "ch4", 3, second, 48) == (size / 3 > 4 ? 1 : 6),
             "lookup with fewer elements", size, 48);
    }
    for (word n = 0; n <= length(gas); n++)
        test(looked_up(gas, n, elements, ROOM, "ch4", 3, second, 48) == (n >= 29 ? 1 : 6), "lookup in less text", n, 48);
    const struct kawhiluhe_item *item = (const struct kawhiluhe_item *)second;
    test(item[4].sort == 3 && item[4].name == 26 && item[4].low == 1450, "the record as a struct", ROOM, 48);
    fill(second);
    test(found(gas, "ch4", ROOM) == ROOM / 8, "lookup in garbage", ROOM, ROOM);
    second[8] = 3;
    second[11] = -1UL;
    second[16] = 4;
    second[19] = ROOM / 3;
    test(found(gas, "ch4", ROOM) == ROOM / 8, "records that point outside", ROOM, ROOM);
    second[24] = 3;
    second[27] = 4;
    test(found(gas, "ch4", ROOM) == 3, "the first that points inside", ROOM, ROOM);
    fill(elements);
    test(found(gas, "ch4", ROOM) == ROOM / 8, "elements that are garbage", ROOM, ROOM);
    test(looked_up(0, 0, 0, 0, 0, 0, 0, 0) == 0, "lookup in nothing", 0, 0);
    test(looked_up(gas, length(gas), 0, 0, "ch4", 3, gas_items, 48) == 6, "lookup without elements", 0, 48);
    test(looked_up(0, 0, elements, ROOM, "ch4", 3, gas_items, 48) == 6, "lookup without a text", ROOM, 48);
}

/* Storing, and reading what was stored. The bytes and rows are written out here, from 02. */
enum { OUT = 60000 };

static kawhiluhe_byte output[OUT + GUARD];
static word records[ROOM + GUARD];

static void fill_output(void)
{
    for (word i = 0; i < OUT + GUARD; i++) output[i] = (kawhiluhe_byte)(garbage(i) >> 8 | 1);
}

/* The output of so many bytes holds these, then zeros, and nothing past it was touched. */
static int writes(word size, const kawhiluhe_byte *wanted, word count)
{
    for (word i = 0; i < size; i++)
        if (output[i] != (i < count ? wanted[i] : 0)) return 0;
    for (word i = size; i < size + GUARD; i++)
        if (output[i] != (kawhiluhe_byte)(garbage(i) >> 8 | 1)) return 0;
    return 1;
}

/* An output at and around its edge. */
static struct sizes rooms_of(word count)
{
    struct sizes s = { 0 };
    add_size(&s, OUT);
    add_size(&s, 0);
    add_size(&s, 1);
    if (count > 1) add_size(&s, count - 2);
    if (count) add_size(&s, count - 1);
    for (word more = 0; more <= 3; more++) add_size(&s, count + more);
    return s;
}

static const char kept_text[] = "package P is constant A : integer := -2; subtype \\Sub\\ is boolean; constant t : boolean := true; "
                                "subtype R is natural range 1 to 5; end;";
static const kawhiluhe_byte kept[] = {
    1, 0, 1,  'p',
    2, 0, 5,  0xff, 0xff, 0xff, 0xfe, 'a',
    4, 0, 14, 1, 0, 0, 0, 0, 0, 0, 0, 1, '\\', 'S', 'u', 'b', '\\',
    3, 0, 2,  1, 't',
    4, 0, 10, 0, 0, 0, 0, 1, 0, 0, 0, 5, 'r',
    0, 0, 0,
};
static const word kept_rows[] = {
    3, 11, 1, 1, -2UL, 0,
    4, 24, 5, 2, 0,    1,
    3, 33, 1, 2, 1,    0,
    4, 46, 1, 1, 1,    5,
};

static void try_store(const char *label, const char *text, word text_length, word no, word place, const kawhiluhe_byte *wanted, word count)
{
    fill(alone), fill(records);
    struct kawhiluhe_surveyed s = kawhiluhe_survey(bytes(text), text_length, alone, ROOM, records, ROOM);
    struct kawhiluhe_elements e = kawhiluhe_elements(bytes(text), text_length, alone, ROOM);
    struct sizes wide = sizes_of(e.elements, 3), high = sizes_of(s.pieces, 8), far = rooms_of(count);
    for (word i = 0; i < wide.count; i++)
        for (word j = 0; j < high.count; j++)
            for (word k = 0; k < far.count; k++) {
                word size = wide.size[i], other = high.size[j], room = far.size[k], refusal = no, at = place;
                if (size / 3 < e.elements) refusal = KAWHILUHE_ELEMENT_TABLE_SHORT, at = size / 3;
                else if (!s.refusal && other / 8 < s.pieces) refusal = KAWHILUHE_ITEM_TABLE_SHORT, at = other / 8;
                else if (!refusal && room < count) refusal = KAWHILUHE_OUTPUT_SHORT, at = room;
                fill(elements), fill(second), fill_output();
                struct kawhiluhe_kept r = kawhiluhe_store(bytes(text), text_length, elements, size, second, other, output, room);
                test(r.refusal == refusal && r.place == (refusal ? at : 0) && r.bytes == (refusal ? 0 : count), label, size, other);
                test(holds(elements, size, alone, refusal ? 0 : 3 * e.elements), label, size, other);
                test(holds(second, other, records, refusal ? 0 : 8 * s.pieces), label, size, other);
                test(writes(room, wanted, refusal ? 0 : count), label, size, room);
            }
}

/* A table and its rows, or a refusal; where it is read it is stored again as it was. */
static void try_unstore(const char *label, const kawhiluhe_byte *table, word table_length, word no, const word *rows, word items, word name_length)
{
    struct sizes high = sizes_of(items, 6), far = rooms_of(table_length);
    for (word i = 0; i < high.count; i++) {
        word size = high.size[i], refusal = no, place = 0;
        if (!no && size / 6 < items) refusal = KAWHILUHE_ITEM_TABLE_SHORT, place = size / 6;
        fill(second);
        struct kawhiluhe_unstored u = kawhiluhe_read_stored(table, table_length, second, size);
        test(u.refusal == refusal && u.place == place && u.items == (refusal ? 0 : items), label, size, 0);
        test(u.name == (refusal ? 0 : 3) && u.length == (refusal ? 0 : name_length), label, size, 0);
        test(holds(second, size, rows, refusal ? 0 : 6 * items), label, size, 0);
        for (word k = 0; k < far.count; k++) {
            word room = far.size[k], short_of = !refusal && room < table_length;
            fill(second), fill_output();
            struct kawhiluhe_kept r = kawhiluhe_store_again(table, table_length, second, size, output, room);
            test(r.refusal == (short_of ? KAWHILUHE_OUTPUT_SHORT : refusal) && r.place == (short_of ? room : place), label, size, room);
            test(r.bytes == (refusal || short_of ? 0 : table_length), label, size, room);
            test(holds(second, size, rows, refusal || short_of ? 0 : 6 * items), label, size, room);
            test(writes(room, table, refusal || short_of ? 0 : table_length), label, size, room);
        }
    }
}

/* A table of so many constants, whose names are four letters, and its rows. */
static kawhiluhe_byte many[20000];
static word many_rows[6 * 1025];

static word make_many(word items)
{
    word n = 0;
    for (word i = 0; i < 4; i++) many[n++] = kept[i];
    for (word i = 0; i < items; i++) {
        const word row[] = { 3, n + 7, 4, 1, i, 0 };
        const kawhiluhe_byte field[] = { 2, 0, 8, 0, 0, (kawhiluhe_byte)(i >> 8), (kawhiluhe_byte)i };
        for (word j = 0; j < 6; j++) many_rows[6 * i + j] = row[j];
        for (word j = 0; j < 7; j++) many[n++] = field[j];
        for (word j = 0, k = i; j < 4; j++, k /= 26) many[n++] = (kawhiluhe_byte)('a' + k % 26);
    }
    for (word i = 0; i < 3; i++) many[n++] = 0;
    return n;
}

/* Bytes that are no stored table. */
static void damaged_tables(void)
{
    static kawhiluhe_byte table[sizeof kept + 1];
    static const struct {
        const char *label;
        word place;
        kawhiluhe_byte byte;
    } changes[] = {
        { "another first tag", 0, 2 },       { "a length too short", 2, 0 },        { "an upper-case package", 3, 'P' },   { "no tag", 4, 5 },
        { "tag 1 again", 4, 1 },             { "the end too early", 4, 0 },         { "an upper-case name", 11, 'A' },     { "a digit for a name", 11, '1' },
        { "a name twice", 11, 't' },         { "a length too long", 6, 6 },         { "a kind that is none", 15, 2 },      { "a boolean's low end", 19, 1 },
        { "a boolean's high end", 23, 2 },   { "no backslash", 24, 'a' },           { "a quote for a backslash", 28, '"' }, { "a byte not allowed", 26, 127 },
        { "a truth that is none", 32, 2 },   { "an end with a length", 49, 1 },     { "an end of another tag", 47, 3 },
    };
    for (word i = 0; i < sizeof changes / sizeof changes[0]; i++) {
        for (word j = 0; j < sizeof kept; j++) table[j] = kept[j];
        table[changes[i].place] = changes[i].byte;
        try_unstore(changes[i].label, table, sizeof kept, KAWHILUHE_NOT_STORED, 0, 0, 0);
    }
    for (word n = 0; n < sizeof kept; n++) try_unstore("a part of a table", kept, n, KAWHILUHE_NOT_STORED, 0, 0, 0);
    for (word j = 0; j < sizeof kept; j++) table[j] = kept[j];
    table[sizeof kept] = 0;
    try_unstore("a byte after the end", table, sizeof kept + 1, KAWHILUHE_NOT_STORED, 0, 0, 0);
    static const kawhiluhe_byte least[] = { 1, 0, 1, 'p', 2, 0, 5, 0x80, 0, 0, 0, 'a', 0, 0, 0 };
    try_unstore("a number below all", least, sizeof least, KAWHILUHE_NOT_STORED, 0, 0, 0);
    static const kawhiluhe_byte language[] = { 1, 0, 1, 'p', 3, 0, 5, 1, 't', 'r', 'u', 'e', 0, 0, 0 };
    try_unstore("a name of the language", language, sizeof language, KAWHILUHE_NOT_STORED, 0, 0, 0);
    static const kawhiluhe_byte reserved[] = { 1, 0, 2, 'i', 's', 0, 0, 0 };
    try_unstore("a reserved word", reserved, sizeof reserved, KAWHILUHE_NOT_STORED, 0, 0, 0);
}

static void stored_tables(void)
{
    static const kawhiluhe_byte none[] = { 1, 0, 7, 'i', 'n', 't', 'e', 'g', 'e', 'r', 0, 0, 0 };
    try_store("a whole survey", kept_text, length(kept_text), 0, 0, kept, sizeof kept);
    try_store("a package without items", "package Integer is end;", 23, 0, 0, none, sizeof none);
    try_store("a survey that is not whole", gas, length(gas), KAWHILUHE_NOT_WHOLE, 0, 0, 0);
    try_store("no text", "", 0, KAWHILUHE_NOT_WHOLE, 0, 0, 0);
    try_store("65,537 bytes", repeated(';', 65537), 65537, KAWHILUHE_TEXT_TOO_LONG, 65536, 0, 0);
    try_store("8,193 elements", repeated(';', 8193), 8193, KAWHILUHE_TOO_MANY_ELEMENTS, 8192, 0, 0);
    try_store("1,025 pieces", repeated(';', 1025), 1025, KAWHILUHE_TOO_MANY_PIECES, 1024, 0, 0);
    try_unstore("a table", kept, sizeof kept, 0, kept_rows, 4, 1);
    try_unstore("a table without items", none, sizeof none, 0, 0, 0, 7);
    word n = make_many(1024);
    try_unstore("1,024 items", many, n, 0, many_rows, 1024, 1);
    n = make_many(1025);
    try_unstore("1,025 items", many, n, KAWHILUHE_NOT_STORED, 0, 0, 0);
    damaged_tables();
}

/* The lines of a listing through a buffer of every size: whole lines as many as fit with a byte to spare, zeros after them, the bytes after
   the buffer untouched; and what is written part after part is the listing, or the first line that has no room stops it. */
enum { LINES = 400 };

static kawhiluhe_byte lines[LINES + GUARD], written[LINES];

typedef struct kawhiluhe_filled filler(word from, kawhiluhe_byte *out, word size);

static const char *listed_text;
static struct kawhiluhe_elements listed_elements;
static struct kawhiluhe_judged listed_judged;
static struct kawhiluhe_surveyed listed_surveyed;
static struct kawhiluhe_unstored listed_stored;

static struct kawhiluhe_filled fill_elements(word from, kawhiluhe_byte *out, word size)
{
    return kawhiluhe_element_lines(elements, ROOM, &listed_elements, KAWHILUHE_ELEMENTS_WORDS, from, out, size);
}

static struct kawhiluhe_filled fill_tree(word from, kawhiluhe_byte *out, word size)
{
    return kawhiluhe_tree_lines(second, ROOM, &listed_judged, KAWHILUHE_JUDGED_WORDS, from, out, size);
}

static struct kawhiluhe_filled fill_survey(word from, kawhiluhe_byte *out, word size)
{
    return kawhiluhe_survey_lines(bytes(listed_text), length(listed_text), elements, ROOM, second, ROOM, &listed_surveyed, KAWHILUHE_SURVEYED_WORDS,
                                  from, out, size);
}

static struct kawhiluhe_filled fill_records(word from, kawhiluhe_byte *out, word size)
{
    return kawhiluhe_record_lines(second, ROOM, &listed_surveyed, KAWHILUHE_SURVEYED_WORDS, from, out, size);
}

static struct kawhiluhe_filled fill_stored(word from, kawhiluhe_byte *out, word size)
{
    return kawhiluhe_stored_lines(kept, sizeof kept, second, ROOM, &listed_stored, KAWHILUHE_UNSTORED_WORDS, from, out, size);
}

/* One part: it ends after a line, or holds nothing; all after it is zeros, and the next line would not fit. */
static int whole_part(const char *listing, word at, struct kawhiluhe_filled f, word size)
{
    word next = at + f.used, end = next;
    if (size == 0 ? f.used != 0 : f.used >= size) return 0;
    if (f.used && listing[next - 1] != '\n') return 0;
    for (word i = 0; i < f.used; i++)
        if (lines[i] != (kawhiluhe_byte)listing[at + i]) return 0;
    for (word i = f.used; i < size; i++)
        if (lines[i]) return 0;
    for (word i = size; i < size + GUARD; i++)
        if (lines[i] != 0xa5) return 0;
    if (!f.left) return !listing[next];
    while (listing[end] && listing[end] != '\n') end++;
    return f.used + (end + 1 - next) >= size || listing[next] == 0;
}

static void try_lines(const char *label, filler *fills, const char *listing)
{
    for (word size = 0; size < LINES; size++) {
        word from = 0, at = 0, turns = 0;
        struct kawhiluhe_filled f;
        do {
            for (word i = 0; i < LINES + GUARD; i++) lines[i] = 0xa5;
            f = fills(from, lines, size);
            int whole = whole_part(listing, at, f, size);
            test(whole, label, size, from);
            if (!whole) return;
            for (word i = 0; i < f.used; i++) written[at + i] = lines[i];
            at += f.used;
            if (f.left && f.next == from) break;
            from = f.next;
        } while (f.left && ++turns < LINES);
        if (f.left) continue;
        test(at == length(listing), label, size, at);
        f = fills(from + 7, lines, size);
        test(f.next == from + 7 && !f.used && !f.left, label, size, 7);
    }
}

/* The tally's line of an answer of which fewer words are lent: the counts that are among them. */
static void try_tally(word tally_line, word before)
{
    static const char tally[] = "tally 3 2 0 0 0 0 0 0 0 0 0";
    for (word counts = 0; counts <= KAWHILUHE_STATES; counts++) {
        word size = 5 + 2 * counts, good = 1;
        kawhiluhe_record_lines(second, ROOM, &listed_surveyed, before + counts, tally_line, lines, LINES);
        for (word i = 0; i < size; i++) good &= lines[i] == (kawhiluhe_byte)tally[i];
        test(good && lines[size] == '\n', "the tally of an answer's first words", before + counts, counts);
    }
}

static void listings(void)
{
    static const char gas[] = "package g is constant ch4 : natural := 5; constant x : natural := ; subtype s is integer range -3 to 7; "
                              "constant t : boolean := true; y; end g;";
    listed_text = gas;
    fill(elements), fill(second);
    listed_surveyed = kawhiluhe_survey(bytes(gas), length(gas), elements, ROOM, second, ROOM);
    try_lines("the lines of a survey", fill_survey,
              "pieces 7 whole no\n1 constant ch4 value 5\n2 constant x broken\n3 subtype s value -3 to 7\n4 constant t value true\n5 piece - broken\n");
    try_lines("the lines of its records", fill_records,
              "pieces 7 frame good whole no\n0 1 0 3 1 0 0 0 0\n1 3 3 7 4 0 1 5 0\n2 3 10 6 11 1 0 0 0\n3 4 16 10 17 0 1 -3 7\n4 3 26 7 27 0 2 1 0\n"
              "5 5 33 2 0 1 0 0 0\n6 2 35 3 36 0 0 0 0\ntally 3 2 0 0 0 0 0 0 0 0 0\npair none\n");
    try_tally(8, KAWHILUHE_SURVEYED_WORDS - KAWHILUHE_STATES);
    static const char loop[] = "entity e is end;";
    listed_text = loop;
    fill(elements), fill(second);
    listed_judged = kawhiluhe_strict(bytes(loop), length(loop), elements, ROOM, second, ROOM);
    try_lines("the lines of a tree", fill_tree, "rows 1 passes yes\n0 2 0 5 1 0\n");
    listed_judged.passes = 0, listed_judged.row = 12;
    try_lines("the lines of one that does not pass", fill_tree, "rows 1 passes no at 12\n0 2 0 5 1 0\n");
    listed_elements = kawhiluhe_elements(bytes("\\x\\ 1.5 'a' \"s\" 5 b ; _"), 24, elements, ROOM);
    try_lines("the lines of elements", fill_elements,
              "elements 8\n0 extended 0 3\n1 real 4 3\n2 character 8 3\n3 string 12 3\n4 integer 16 1\n5 identifier 18 1\n6 delimiter 20 1\n7 unreadable 22 2\n");
    listed_elements.refusal = KAWHILUHE_ELEMENT_TABLE_SHORT, listed_elements.place = 7;
    try_lines("the line of a refusal", fill_elements, "refused 4 at 7\n");
    listed_surveyed.refusal = KAWHILUHE_TOO_MANY_PIECES, listed_surveyed.place = 1024;
    try_lines("a survey that is refused", fill_survey, "refused 9 at 1024\n");
    try_lines("records of one", fill_records, "refused 9 at 1024\n");
    fill(second);
    listed_stored = kawhiluhe_read_stored(kept, sizeof kept, second, ROOM);
    try_lines("the lines of a stored table", fill_stored,
              "package p items 4\n0 constant a value -2\n1 subtype \\Sub\\ value false to true\n2 constant t value true\n3 subtype r value 1 to 5\n");
    listed_stored.items = 2;
    try_lines("those of fewer items", fill_stored, "package p items 2\n0 constant a value -2\n1 subtype \\Sub\\ value false to true\n");
    listed_stored.refusal = KAWHILUHE_NOT_STORED;
    try_lines("a stored table that is refused", fill_stored, "refused 24 at 0\n");
    struct kawhiluhe_filled g = kawhiluhe_stored_lines(0, 0, 0, 0, 0, 0, 0, lines, LINES);
    test(g.used == 17 && g.next == 1 && !g.left, "a stored table's answer of no words", LINES, 0);
    /* any answer and any table: garbage has lines too, and ends */
    fill(elements), fill(second);
    for (word i = 0; i < KAWHILUHE_SURVEYED_WORDS; i++) ((word *)&listed_surveyed)[i] = garbage(i);
    listed_surveyed.refusal = 0;
    word from = 0, turns = 0;
    struct kawhiluhe_filled f;
    do f = fill_survey(from, lines, LINES), from = f.next; while (f.left && f.used && ++turns < ROOM);
    test(f.used < LINES, "an answer that is garbage", LINES, turns);
    f = kawhiluhe_survey_lines(0, 0, 0, 0, 0, 0, 0, 0, 0, lines, LINES);
    test(f.used == 18 && f.next == 1 && !f.left, "an answer of no words", LINES, 0);
    f = kawhiluhe_survey_lines(0, 0, 0, 0, 0, 0, 0, 0, 0, 0, 0);
    test(!f.used && !f.next && f.left == 1, "no buffer", 0, 0);
}

static void nothing_lent(void)
{
    struct kawhiluhe_elements e = kawhiluhe_elements(0, 0, 0, 0);
    test(!e.refusal && !e.place && !e.elements, "the elements of nothing", 0, 0);
    struct kawhiluhe_judged j = kawhiluhe_strict(0, 0, 0, 0, 0, 0);
    test(j.refusal == KAWHILUHE_NO_FILE && !j.place && !j.rows && !j.passes && !j.row, "the strict reading of nothing", 0, 0);
    struct kawhiluhe_surveyed s = kawhiluhe_survey(0, 0, 0, 0, 0, 0);
    test(!s.refusal && !s.place && !s.pieces && !s.frame && !s.whole && !s.pair && same_tally(s.tally, 0), "the survey of nothing", 0, 0);
    e = kawhiluhe_elements(bytes("a"), 1, 0, 0);
    test(e.refusal == KAWHILUHE_ELEMENT_TABLE_SHORT && !e.place && !e.elements, "no element table", 0, 0);
    j = kawhiluhe_strict(bytes("package p is end;"), 17, elements, 15, 0, 0);
    test(j.refusal == KAWHILUHE_TREE_TABLE_SHORT && !j.place, "no tree table", 15, 0);
    s = kawhiluhe_survey(bytes("package p is end;"), 17, elements, 15, 0, 0);
    test(s.refusal == KAWHILUHE_ITEM_TABLE_SHORT && !s.place, "no item table", 15, 0);
    struct kawhiluhe_kept k = kawhiluhe_store(0, 0, 0, 0, 0, 0, 0, 0);
    test(k.refusal == KAWHILUHE_NOT_WHOLE && !k.place && !k.bytes, "nothing stored", 0, 0);
    struct kawhiluhe_unstored u = kawhiluhe_read_stored(0, 0, 0, 0);
    test(u.refusal == KAWHILUHE_NOT_STORED && !u.place && !u.items && !u.name && !u.length, "a stored table of nothing", 0, 0);
    k = kawhiluhe_store_again(0, 0, 0, 0, 0, 0);
    test(k.refusal == KAWHILUHE_NOT_STORED && !k.place && !k.bytes, "nothing stored again", 0, 0);
}

int main(void)
{
    static const word three[] = { 1, 0, 1, 13, 2, 2, 3, 5, 1 };
    static const word odd[] = { 2, 0, 3, 7, 4, 3, 37, 8, 3, 5, 12, 3 };
    try_elements("three elements", "a <= 5", 6, three, 3, 0, 0);
    try_elements("each on its line", "\\x\\ _ab\nAll 'q' -- no\n", 22, odd, 4, 0, 0);
    try_elements("an empty text", "", 0, 0, 0, 0, 0);

    static const char package[] = "package p is constant c : natural := 1; end;";
    static const word package_elements[] = { 98, 0, 7,  1, 8, 1,   78, 10, 2, 53, 13, 8, 1, 22, 1, 25, 24, 1,
                                             1,  26, 7, 10, 34, 2, 3, 37, 1,  26, 38, 1, 61, 40, 3, 26, 43, 1 };
    static const word package_tree[] = { 1, 0, 12, 4, 0, 4, 3, 7, 3, 3, 31, 6, 1, 1, 6, 27, 8, 1, 1, 8 };
    static const word loop_tree[] = { 2, 0, 5, 1, 0, 3, 5, 19, 4, 5, 13, 11, 11, 3, 11, 19, 13, 6, 2, 13, 24, 14, 1, 1, 14 };
    try_elements("a package", package, length(package), package_elements, 12, 0, 0);
    static const struct strict_case cases[] = {
        { "a package", package, 12, 4, 1, 0, 0, 0, package_tree },
        { "a while loop", "entity e is end; architecture a of e is begin process begin while true loop end loop; end process; end;", 24, 5, 0, 3, 0, 0, loop_tree },
        { "an unreadable element", "package p is _ \nend;", 6, 0, 0, 0, KAWHILUHE_UNREADABLE, 3, 0 },
        { "no file", "package is end;", 4, 0, 0, 0, KAWHILUHE_NO_FILE, 1, 0 },
        { "half a file", "package p is", 3, 0, 0, 0, KAWHILUHE_NO_FILE, 3, 0 },
        { "another closing name", "package p is end q;", 6, 0, 0, 0, KAWHILUHE_NAME_DIFFERS, 4, 0 },
        { "33 parentheses", "package p is constant c : natural := (((((((((((((((((((((((((((((((((1)))))))))))))))))))))))))))))))));end;", 78, 0, 0, 0,
          KAWHILUHE_TOO_DEEP, 40, 0 },
    };
    for (word i = 0; i < sizeof cases / sizeof cases[0]; i++) try_strict(&cases[i], length(cases[i].text));

    try_survey(&incident);
    try_survey(&shared);
    refuses("65,537 bytes", repeated(';', 65537), 65537, KAWHILUHE_TEXT_TOO_LONG, 65536);
    refuses("8,193 elements", repeated(';', 8193), 8193, KAWHILUHE_TOO_MANY_ELEMENTS, 8192);
    refuses("1,025 pieces", repeated(';', 1025), 1025, KAWHILUHE_TOO_MANY_PIECES, 1024);
    stored_tables();
    lookups();
    lookups_of_names();
    nothing_lent();
    listings();
    printf("%ld passed, %ld failed\n", passed, failed);
    return failed != 0;
}
