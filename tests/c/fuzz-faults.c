/* The driver of fuzz.c over a library that is wrong, now and then, in the way that is defined: it must notice. The library knows no text: it
   refuses all of them. */
#include "fuzz.c"

static int now(word n) { return n % 100 == 7; }

static void clear(word *table, word size)
{
    for (word i = 0; i < size; i++) table[i] = 0;
}

struct kawhiluhe_elements kawhiluhe_elements(const byte *t, word n, word *e, word size)
{
    struct kawhiluhe_elements r = { 0 };
    clear(e, size);
#ifdef WRITES_BEHIND
    if (now(n)) e[size] = 1;
#endif
#ifdef WRITES_BEFORE
    if (now(n)) e[-1] = 1;
#endif
    (void)t;
    return r;
}

struct kawhiluhe_judged kawhiluhe_strict(const byte *t, word n, word *e, word size, word *tree, word other)
{
    struct kawhiluhe_judged r = { KAWHILUHE_NO_FILE, 0, 0, 0, 0 };
    clear(e, size);
    clear(tree, other);
#ifdef LEAVES_A_ROW
    if (now(n) && other) tree[other - 1] = 1;
#endif
#ifdef REFUSES_BY_11
    if (now(n)) r.refusal = 11;
#endif
    (void)t;
    return r;
}

struct kawhiluhe_surveyed kawhiluhe_survey(const byte *t, word n, word *e, word size, word *items, word other)
{
    struct kawhiluhe_surveyed r = { KAWHILUHE_TOO_MANY_PIECES };
    clear(e, size);
    clear(items, other);
#ifdef READS_BEHIND
    if (now(n)) r.place = *(const volatile byte *)(t + n);
#endif
#ifdef READS_BEFORE
    if (now(n)) r.place = *(const volatile byte *)(t - 1);
#endif
#ifdef WRITES_BESIDE
    if (now(n)) ((byte *)(items + other))[3] = 1;
#endif
    (void)t;
    return r;
}

word kawhiluhe_lookup(const byte *t, word n, const word *e, word size, const byte *name, word length, const word *items, word other)
{
    (void)t, (void)e, (void)size, (void)name, (void)length, (void)items;
#ifdef FINDS_NOTHING_THERE
    if (now(n)) return other;
#endif
    return (void)n, other / 8;
}

word kawhiluhe_lookup_items(const byte *t, word n, const word *e, word size, const byte *name, word length, const struct kawhiluhe_item *items,
                            word count)
{
    (void)t, (void)n, (void)e, (void)size, (void)name, (void)length, (void)items;
    return count;
}

static void blank(byte *bytes, word size)
{
    for (word i = 0; i < size; i++) bytes[i] = 0;
}

struct kawhiluhe_kept kawhiluhe_store(const byte *t, word n, word *e, word size, word *items, word other, byte *out, word room)
{
    struct kawhiluhe_kept r = { KAWHILUHE_NOT_WHOLE, 0, 0 };
    clear(e, size);
    clear(items, other);
    blank(out, room);
    (void)t, (void)n;
    return r;
}

struct kawhiluhe_unstored kawhiluhe_read_stored(const byte *t, word n, word *rows, word size)
{
    struct kawhiluhe_unstored r = { KAWHILUHE_NOT_STORED, 0, 0, 0, 0 };
    clear(rows, size);
#ifdef READS_TEXTS
    if (now(n)) r.refusal = 0;
#endif
    (void)t, (void)n;
    return r;
}

struct kawhiluhe_kept kawhiluhe_store_again(const byte *t, word n, word *rows, word size, byte *out, word room)
{
    struct kawhiluhe_kept r = { KAWHILUHE_NOT_STORED, 0, 0 };
    clear(rows, size);
    blank(out, room);
#ifdef LEAVES_A_BYTE
    if (now(n) && room) out[room - 1] = 1;
#endif
    (void)t, (void)n;
    return r;
}
