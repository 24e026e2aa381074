/* fuzz SECONDS SEED: the static library on texts that nobody wrote. A text is one of a pool, changed by chance; it joins the pool where an
   answer comes that none before it gave. Every buffer stands between two pages that may not be touched, flush with the one or with the
   other, and what is left on the other side must stay as it was. Each answer must be one that 01 knows, with rows that hold together and
   zeros after them; the strict reading and the survey must leave the elements that the reader of elements leaves. What a whole survey is stored as must
   be read back, item by item, and stored again as the same bytes; the bytes of a table, changed by chance, and every text are read as tables too.
   The kit's clang has no headers of the C library, so what is called is declared. */
#include "../../include/kawhiluhe.h"

int printf(const char *, ...);
void *mmap(void *, unsigned long, int, int, int, long);
int mprotect(void *, unsigned long, int);
long time(long *);
long atol(const char *);

typedef kawhiluhe_word word;
typedef kawhiluhe_byte byte;

enum { PAGE = 65536, LONGEST = 66000, POOL = 512, SEEN = 1 << 20, CANARY = 64 };

/* ---- chance: splitmix64 */

static word state;

static word chance(void)
{
    word z = state += 0x9e3779b97f4a7c15UL;
    z = (z ^ z >> 30) * 0xbf58476d1ce4e5b9UL;
    z = (z ^ z >> 27) * 0x94d049bb133111ebUL;
    return z ^ z >> 31;
}

static word below(word limit) { return limit ? chance() % limit : 0; }

/* ---- buffers between guards */

struct room {
    byte *start; /* of the part that may be touched */
    word size;
    byte *at; /* where the buffer stands, and its bytes */
    word bytes;
};

static int broken;

static void make_room(struct room *r, word most)
{
    r->size = (most + PAGE - 1) / PAGE * PAGE;
    byte *all = mmap(0, r->size + 2 * PAGE, 0, 0x22, -1, 0); /* nothing allowed; private and of no file */
    r->start = all + PAGE;
    if (all == (byte *)-1 || mprotect(r->start, r->size, 3)) {
        printf("there is no memory\n");
        broken = 1;
    }
}

static byte canary(word i) { return (byte)(i * 37 + 11); }

/* A buffer of so many bytes, flush with one of the guards, garbage in it and on its other side. */
static void *place(struct room *r, word bytes, int right)
{
    r->bytes = bytes;
    r->at = right ? r->start + r->size - bytes : r->start;
    for (word i = 0; i < bytes; i++) r->at[i] = (byte)(0x5a + i * 7);
    byte *side = right ? r->at - CANARY : r->at + bytes;
    if (bytes + CANARY <= r->size)
        for (word i = 0; i < CANARY; i++) side[i] = canary(i);
    return r->at;
}

static int untouched(const struct room *r, int right)
{
    const byte *side = right ? r->at - CANARY : r->at + r->bytes;
    if (r->bytes + CANARY > r->size) return 1;
    for (word i = 0; i < CANARY; i++)
        if (side[i] != canary(i)) return 0;
    return 1;
}

/* ---- texts */

static const char *const first_texts[] = {
    "package gas is\n  constant ch4 : natural := 5800;\n  constant co2 : natural := ;\n  constant total : natural := ch4 + co2;\n"
    "  constant idle : natural := ch4 / 4;\nend package gas;\n",
    "package p is subtype s is integer range -4 to 5; subtype t is s range 3 downto 5; constant b : boolean := not true and 1 / 0 = 1;\n"
    "constant c : t := (-5) mod 3 ** 2; constant \\a\\\\b\\ : natural := 16#F#E1; constant C : natural := 2147483648; end p;\n",
    "entity e is port ( a : in bit; b : out vector ( 7 downto 0 ); c : inout t ); end entity e;\n"
    "architecture a of e is signal s : bit; alias x is y; begin s <= a and b ( 1 ) ; l : block ( g = '1' ) is begin end block l; end a;\n",
    "architecture a of e is begin p : process ( clk, r ) is variable v : vector ( 3 downto 0 ); begin\n"
    "if clk'event and clk = '1' then v := v + 1; elsif a'b ( 2 ) then null; else l : for i in 0 to 7 loop next l when a; exit; end loop l; end if;\n"
    "while a < b loop q <= \"ab\"\"c\" & 'x'; end loop; loop end loop; end process p; end;\n",
    "-- nothing\n\t\xa0 1.5e-3 2#1010#e3 \"\" '''' \\x\\ _ /* => ** := /= >= <= <> & ' ( ) * + , - . / : ; < = > | [ ]\n",
};
static const char *const words[] = {
    "package", "is", "end", "constant", "subtype", "range", "to", "downto", "entity", "port", "in", "out", "inout", "architecture", "of", "begin",
    "signal", "variable", "alias", "block", "process", "if", "then", "elsif", "else", "for", "while", "loop", "next", "exit", "when", "null", "and",
    "or", "xor", "xnor", "nand", "nor", "not", "abs", "mod", "rem", "sll", "a", "p", "e", "l", "natural", "integer", "boolean", "true", "false",
    "\\a\\", "\\A\\", "1", "0", "2147483647", "2147483648", "16#FF#", "1.5", "'1'", "\"s\"", "(", ")", "((((((((", "))))))))", ";", ":", ":=", "<=",
    "=>", "**", "*", "/", "/=", "+", "-", "--", "&", "'", ",", ".", "=", "<", ">", ">=", "<>", "|", "[", "]", "\n", "\r", "\t", "\xa0", "?", "_", "#",
    "end if;", "end loop;", "end process;", "end block;", "if a then", "l : loop", "b : block begin", "constant c : natural := 1;",
};

static byte pool[POOL][LONGEST];
static word pool_length[POOL], pooled;
static byte text[LONGEST];
static word length;
static byte seen[SEEN];

static word put(word at, const byte *from, word count)
{
    if (length + count > LONGEST) return at;
    for (word i = length; i > at; i--) text[i - 1 + count] = text[i - 1];
    for (word i = 0; i < count; i++) text[at + i] = from[i];
    length += count;
    return at + count;
}

static void cut(word at, word count)
{
    if (at + count > length) count = length - at;
    for (word i = at; i + count < length; i++) text[i] = text[i + count];
    length -= count;
}

static void put_word(void)
{
    const char *w = words[below(sizeof words / sizeof words[0])];
    word n = 0, at = below(length + 1);
    while (w[n]) n++;
    at = put(at, (const byte *)w, n);
    if (below(2)) put(at, (const byte *)" ", 1);
}

static void change(void)
{
    word at = below(length + 1), other = below(pooled);
    byte any = (byte)chance();
    switch (below(10)) {
    case 0: put(at, &any, 1); break;
    case 1: if (at < length) text[at] = any; break;
    case 2: cut(at, 1 + below(3)); break;
    case 3: cut(at, below(length / 4 + 2)); break;
    case 4: if (at < length) text[at] ^= (byte)(1 << below(8)); break;
    case 5: { /* a part of another text */
        word from = below(pool_length[other]);
        put(at, pool[other] + from, below(pool_length[other] - from < 400 ? pool_length[other] - from : 400));
        break;
    }
    case 6: { /* a part again, perhaps often */
        static byte part[256];
        word n = below(length - at < 256 ? length - at : 256), times = below(40) ? 1 : 1 + below(1200);
        for (word i = 0; i < n; i++) part[i] = text[at + i];
        while (times-- && n) at = put(at, part, n);
        break;
    }
    default: put_word();
    }
}

static void join_pool(void)
{
    if (length > 4000 && below(8)) return; /* long texts are slow */
    word at = pooled < POOL ? pooled++ : below(POOL);
    for (word i = 0; i < length; i++) pool[at][i] = text[i];
    pool_length[at] = length;
}

/* ---- what must hold */

static long faults;

static void must(int holds, const char *what)
{
    if (holds || faults++ > 20) return;
    printf("FAILED: %s, on a text of %lu bytes:\n", what, length);
    for (word i = 0; i < length && i < 3000; i++)
        printf(text[i] < 32 || text[i] > 126 || text[i] == '\\' ? "\\x%02x" : "%c", text[i]);
    printf("\n");
}

static int zeros(const word *table, word from, word size)
{
    for (word i = from; i < size; i++)
        if (table[i]) return 0;
    return 1;
}

static int is_one_of(word refusal, const char *known)
{
    for (; *known; known++)
        if (refusal == (word)(*known - 'a')) return 1;
    return 0;
}

static word fresh; /* a sum of what was answered */

static void mix(word x) { fresh = (fresh ^ x) * 0x100000001b3UL + (fresh >> 29); }

static struct room text_room, element_room, tree_room, item_room, alone_room, name_room, table_room, row_room, out_room;

static word near(word rows, word width, word most)
{
    word full = rows * width, size = below(8) ? full + width * below(20) : most;
    switch (below(6)) {
    case 0: size = below(full + width + 1); break;
    case 1: size = full ? full - 1 : 0; break;
    case 2: size = full;
    }
    return size < most ? size : most;
}

static int in_order(const word *row, word count, word bytes)
{
    word end = 0;
    for (word i = 0; i < count; i++, row += 3) {
        if (row[0] < 1 || row[0] > 147 || row[1] < end || !row[2] || row[1] + row[2] > bytes) return 0;
        end = row[1] + row[2];
    }
    return 1;
}

static int nested(const word *row, word rows, word elements)
{
    for (word i = 0; i < rows; i++) {
        const word *r = row + 5 * i;
        if (r[0] < 1 || r[0] > 33 || !r[2] || r[1] + r[2] > elements || !r[3] || i + r[3] > rows) return 0;
        if (r[4] < r[1] || r[4] >= r[1] + r[2]) return 0;
        word last = r[1];
        for (word j = i + 1; j < i + r[3]; j += row[5 * j + 3]) {
            const word *c = row + 5 * j;
            if (!c[3] || c[1] < last || c[1] + c[2] > r[1] + r[2] || j + c[3] > i + r[3]) return 0;
            last = c[1] + c[2];
        }
    }
    return 1;
}

static int same(const word *a, const word *b, word count)
{
    for (word i = 0; i < count; i++)
        if (a[i] != b[i]) return 0;
    return 1;
}

/* ---- stored tables */

enum { MOST_STORED = 131072, ROW = 6 };

static int empty(const byte *bytes, word from, word size)
{
    for (word i = from; i < size; i++)
        if (bytes[i]) return 0;
    return 1;
}

static int rows_hold(const word *row, word items, word bytes)
{
    for (word i = 0; i < items; i++, row += ROW)
        if (row[0] < 3 || row[0] > 4 || !row[2] || row[1] + row[2] > bytes || row[3] < 1 || row[3] > 2) return 0;
    return 1;
}

/* Some bytes as a stored table: read, and where they are one, stored again into a room at and around their size. */
static word try_table(const byte *from, word bytes, int side)
{
    byte *table = place(&table_room, bytes, !side);
    for (word i = 0; i < bytes; i++) table[i] = from[i];
    word room = below(3) ? ROW * 1024 : below(ROW * 40);
    word *rows = place(&row_room, 8 * room, side);
    struct kawhiluhe_unstored u = kawhiluhe_read_stored(table, bytes, rows, room);
    must(u.refusal == 0 || u.refusal == 10 || u.refusal == 24, "a refusal of a stored table that 02 does not know");
    must(zeros(rows, u.refusal ? 0 : ROW * u.items, room) && (u.refusal || rows_hold(rows, u.items, bytes)), "the rows of a stored table");
    must(u.refusal || (u.name == 3 && u.length && u.name + u.length < bytes), "the name of a stored table's package");
    word size = below(4) ? bytes + below(3) : below(bytes + 1);
    if (size && !below(3)) size--;
    byte *out = place(&out_room, size, side);
    struct kawhiluhe_kept k = kawhiluhe_store_again(table, bytes, rows, room, out, size);
    must(k.refusal == u.refusal || (k.refusal == 22 && !u.refusal && size < bytes && k.place == size), "the refusal of storing again");
    must(k.refusal ? empty(out, 0, size) && zeros(rows, 0, room) : k.bytes == bytes && empty(out, bytes, size), "what storing again leaves");
    for (word i = 0; !k.refusal && i < bytes; i++) must(out[i] == from[i], "the bytes of a table that is stored again");
    must(untouched(&table_room, !side) && untouched(&row_room, side) && untouched(&out_room, side), "what stands beside a stored table");
    mix(u.refusal * 64 + k.refusal);
    return u.refusal ? u.refusal : u.items + 1000;
}

/* A text's survey, stored: its items are those with a value, in order. */
static void try_storing(const byte *t, word whole, word own, word elements, int side)
{
    static byte stored[MOST_STORED];
    word n = 3 * (elements + below(3)), high = 8 * 1024;
    word *table = place(&element_room, 8 * n, side), *items = place(&item_room, 8 * high, !side);
    word size = below(4) ? MOST_STORED : below(4 * length + 1);
    byte *out = place(&out_room, size, side);
    struct kawhiluhe_kept k = kawhiluhe_store(t, length, table, n, items, high, out, size);
    must(k.refusal ? zeros(table, 0, n) && zeros(items, 0, high) && empty(out, 0, size) : whole && empty(out, k.bytes, size), "what storing leaves");
    must(whole ? k.refusal == 0 || (k.refusal == 22 && k.place == size) : k.refusal == 21, "the refusal of storing");
    must(untouched(&element_room, side) && untouched(&item_room, !side) && untouched(&out_room, side), "what stands beside what is stored");
    mix(k.refusal);
    if (k.refusal || k.bytes > MOST_STORED) return;
    word bytes = k.bytes;
    for (word i = 0; i < bytes; i++) stored[i] = out[i];
    word read = try_table(stored, bytes, side);
    must(read == 10 || read == own + 1000, "a stored table read back");
    for (word times = 1 + below(3); times; times--) stored[below(bytes)] = (byte)(below(2) ? chance() : below(5));
    try_table(stored, below(4) ? bytes : below(bytes + 1), side);
}

static void try_text(void)
{
    int right = (int)below(2), side = (int)below(2);
    byte *t = place(&text_room, length, right);
    for (word i = 0; i < length; i++) t[i] = text[i];
    word room = 3 * (length < 8192 ? length : 8192); /* an element has a byte at least */
    word *alone = place(&alone_room, 8 * room, side);
    struct kawhiluhe_elements e = kawhiluhe_elements(t, length, alone, room);
    must(is_one_of(e.refusal, "abd"), "a refusal of the elements that 01 does not know"); /* 0, 1, 3 */
    must(zeros(alone, 3 * e.elements, room), "zeros after the elements");
    must(in_order(alone, e.elements, length), "elements in order");
    fresh = 0;
    mix(e.refusal);

    word rows = near(e.elements, 3, 3 * 8192 + below(3)), n = rows;
    word *table = place(&element_room, 8 * n, side);
    word high = near(e.elements + e.elements / 2, 5, 5 * 8192);
    word *tree = place(&tree_room, 8 * high, right);
    struct kawhiluhe_judged j = kawhiluhe_strict(t, length, table, n, tree, high);
    must(is_one_of(j.refusal, "abcdefghi"), "a refusal of the strict reading that 01 does not know");
    must(j.refusal ? zeros(table, 0, n) && zeros(tree, 0, high) : same(table, alone, 3 * e.elements) && zeros(table, 3 * e.elements, n) && zeros(tree, 5 * j.rows, high),
         "the tables of the strict reading");
    must(nested(tree, j.rows, e.elements), "rows that nest");
    must(j.refusal || j.passes || j.row < j.rows, "a row not supported");
    must(untouched(&element_room, side) && untouched(&tree_room, right), "what stands beside the tables of the strict reading");
    mix(j.refusal * 16 + j.passes);
    for (word i = 0; i < j.rows && i < 40; i++) mix(tree[5 * i]);

    n = near(e.elements, 3, 3 * 8192);
    table = place(&element_room, 8 * n, right);
    high = near(1 + below(20), 8, 8 * 1024 + below(8));
    word *items = place(&item_room, 8 * high, side);
    struct kawhiluhe_surveyed s = kawhiluhe_survey(t, length, table, n, items, high);
    must(is_one_of(s.refusal, "abdejk"), "a refusal of the survey that 01 does not know"); /* 0, 1, 3, 4, 9, 10 */
    must(s.refusal ? zeros(table, 0, n) && zeros(items, 0, high) : same(table, alone, 3 * e.elements) && zeros(table, 3 * e.elements, n) && zeros(items, 8 * s.pieces, high),
         "the tables of the survey");
    word counted = 0, own = 0, cut_at = 0;
    for (int i = 0; i < KAWHILUHE_STATES; i++) counted += s.tally[i];
    for (word i = 0; i < s.pieces; i++) {
        const word *r = items + 8 * i;
        own += r[0] > 2;
        must(r[0] >= 1 && r[0] <= 5 && r[1] == cut_at && r[2] && r[4] < KAWHILUHE_STATES && (r[4] == 0 || (!r[5] && !r[6] && !r[7])), "a record");
        cut_at += r[2];
        mix(r[0] * 16 + r[4]);
    }
    must(counted == own && (s.refusal || cut_at == e.elements), "each piece in the tally, each element in a piece");
    must(!s.whole || (s.frame && s.tally[0] == own), "whole");
    must(untouched(&element_room, right) && untouched(&item_room, side) && untouched(&text_room, right), "what stands beside the tables of the survey");
    mix(s.refusal * 4 + s.frame * 2 + s.pair);
    word surveyed = !s.refusal, whole = s.whole;

    word from = below(length + 1), name_length = below(length - from < 12 ? length - from + 1 : 12);
    byte *name = place(&name_room, name_length, side);
    for (word i = 0; i < name_length; i++) name[i] = text[from + i];
    word found = kawhiluhe_lookup(t, length, table, n, name, name_length, items, high);
    must(found <= high / 8, "a lookup");
    must(kawhiluhe_lookup_items(t, length, table, n, name, name_length, (const struct kawhiluhe_item *)items, high / 8) == found, "a lookup over structs");
    mix(found < high / 8);
    if (surveyed) try_storing(t, whole, own, e.elements, side);
    try_table(text, length, side);
}

int main(int count, char **arguments)
{
    long seconds = count > 1 ? atol(arguments[1]) : 20, began = time(0), texts = 0;
    state = (word)(count > 2 ? atol(arguments[2]) : 1);
    make_room(&text_room, LONGEST + CANARY);
    make_room(&element_room, 8 * (3 * 8192 + 3) + CANARY);
    make_room(&alone_room, 8 * 3 * 8192 + CANARY);
    make_room(&tree_room, 8 * 5 * 8192 + CANARY);
    make_room(&item_room, 8 * (8 * 1024 + 8) + CANARY);
    make_room(&name_room, 16 + CANARY);
    make_room(&table_room, MOST_STORED + CANARY);
    make_room(&row_room, 8 * 6 * 1024 + CANARY);
    make_room(&out_room, MOST_STORED + CANARY);
    if (broken) return 1;
    for (; pooled < sizeof first_texts / sizeof first_texts[0]; pooled++)
        for (word n = 0; first_texts[pooled][n]; n++) pool[pooled][n] = (byte)first_texts[pooled][n], pool_length[pooled] = n + 1;
    long joined = 0;
    while (time(0) - began < seconds && !faults) {
        word from = below(pooled);
        length = pool_length[from];
        for (word i = 0; i < length; i++) text[i] = pool[from][i];
        for (word times = 1 + below(6); times; times--) change();
        try_text();
        texts++;
        if (!seen[fresh % SEEN]) {
            seen[fresh % SEEN] = 1;
            joined++;
            join_pool();
        }
    }
    long took = time(0) - began;
    printf("%ld texts in %ld s, %ld a second; %ld answers that none before gave\n", texts, took, texts / (took ? took : 1), joined);
    return faults != 0;
}
