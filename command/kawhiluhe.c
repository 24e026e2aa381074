/* The command for a build: reads VHDL files with the proved library, prints what the library says of each, line by line, and ends with a
   status that stops the build where a file is not whole or does not pass; and it stores a whole survey, and reads it back.

   What is printed is what the library's proved functions put into the buffer; what is decided is decided by the numbers that they answer.
   No text is searched here, so no name in a file can look like a verdict. Not proved: this file, which reads, chooses and writes.

   The kit's clang has no headers of the C library, so what is called is declared: POSIX, for x86-64 Linux. */
#include "../include/kawhiluhe.h"

typedef kawhiluhe_word word;

long read(int, void *, word);
long write(int, const void *, word);
int open(const char *, int, ...);
int close(int);
int *__errno_location(void);
char *strerror(int);
void (*signal(int, void (*)(int)))(int);

enum {
    WHOLE = 0,  /* every file is whole, passes, or was read or stored */
    HOLE = 1,   /* some file is not, or is refused */
    FAILED = 2, /* a wrong call, a file that can't be read, output that can't be written */

    INPUT = 0,
    OUTPUT = 1,
    ERRORS = 2,
    INTERRUPTED = 4,            /* EINTR */
    BROKEN_PIPE = 13,           /* SIGPIPE */
    CLOSED_ON_EXEC = 02000000,  /* O_CLOEXEC, and O_RDONLY, which is 0 */

    TEXT_ROOM = KAWHILUHE_MOST_BYTES + 1, /* a byte more than a text may have: the library refuses what fills it */
    STORED_ROOM = 131072,                 /* the most bytes of a stored table that the command reads and writes: the library knows no such limit */
    OUT_ROOM = 262144                     /* more than the longest line, which is a name of a whole text and some 100 bytes */
};

static const char help[] =
    "usage: kawhiluhe survey [--records] [--] [FILE ..]\n"
    "       kawhiluhe strict [--] [FILE ..]\n"
    "       kawhiluhe elements [--] [FILE ..]\n"
    "       kawhiluhe store [--] [FILE]\n"
    "       kawhiluhe unstore [--] [FILE ..]\n"
    "       kawhiluhe unstore --again [--] [FILE]\n"
    "       kawhiluhe --help | --version\n"
    "\n"
    "  survey     the items of a package: each constant with its number, or the reason it has none\n"
    "  strict     the tree of packages, entities and architectures, and whether it passes for synthesis\n"
    "  elements   the elements of a text\n"
    "  store      the stored table of a package whose survey is whole, as bytes\n"
    "  unstore    the items of a stored table\n"
    "  --again    the bytes that storing what was read gives\n"
    "  --records  the records of all pieces, the tally of states and the first pair of items that share a name\n"
    "\n"
    "FILE may be -, standard input, which is read too where no FILE is given. Of several files each is named by a line\n"
    "'file NAME' before its listing.\n"
    "\n"
    "status 0: every file is whole (survey), passes (strict), was read (elements, unstore) or stored (store)\n"
    "status 1: some file is not, or is refused: 'refused NO at PLACE', on standard error where bytes are written\n"
    "status 2: a wrong call, a file that can't be read, or output that can't be written: one line on standard error\n"
    "The largest wins.\n";

static const char version[] = "kawhiluhe " KAWHILUHE_VERSION "\n";

static kawhiluhe_byte text[STORED_ROOM + 1];
static word elements[KAWHILUHE_MOST_ELEMENTS * KAWHILUHE_ELEMENT_WORDS];
static word tree[KAWHILUHE_MOST_ELEMENTS * KAWHILUHE_TREE_WORDS];
static word items[KAWHILUHE_MOST_PIECES * KAWHILUHE_ITEM_WORDS];
static word rows[KAWHILUHE_MOST_STORED_ITEMS * KAWHILUHE_STORED_WORDS];
static kawhiluhe_byte stored[STORED_ROOM];
static kawhiluhe_byte out[OUT_ROOM];

enum job { SURVEY, RECORDS, STRICT, ELEMENTS, STORE, UNSTORE, AGAIN };

/* Whether bytes are written, and no lines. */
static int writes_bytes(enum job job)
{
    return job == STORE || job == AGAIN;
}

/* Whether a stored table is read, and no text. */
static int reads_stored(enum job job)
{
    return job == UNSTORE || job == AGAIN;
}

static int status; /* the worst so far */

static void at_least(int s)
{
    if (status < s) status = s;
}

static word size_of(const char *s)
{
    word n = 0;
    while (s[n]) n++;
    return n;
}

static int same(const char *a, const char *b)
{
    while (*a && *a == *b) a++, b++;
    return *a == *b;
}

/* Writes all of it, or fails. */
static int put_all(int fd, const void *bytes, word n)
{
    const char *s = bytes;
    while (n) {
        long k = write(fd, s, n);
        if (k < 0 && *__errno_location() == INTERRUPTED) continue;
        if (k <= 0) return 0;
        s += k;
        n -= (word)k;
    }
    return 1;
}

/* One line on standard error, written at once: longer ones are cut. */
static void complain(const char *what, const char *why)
{
    static char line[8192];
    const char *parts[] = { "kawhiluhe: ", what, ": ", why, "\n" };
    word n = 0;
    at_least(FAILED);
    for (int i = 0; i < 5; i++)
        for (const char *s = parts[i]; *s && n < sizeof line - (i < 4); s++) line[n++] = *s;
    put_all(ERRORS, line, n);
}

static int output_lost(void)
{
    complain("standard output", strerror(*__errno_location()));
    return 0;
}

static int put_out(const void *bytes, word n)
{
    return put_all(OUTPUT, bytes, n) || output_lost();
}

/* A file's name on a line of its own; a byte that could end the line or steer a terminal is shown as a question mark. */
static int put_name(const char *name)
{
    static char line[4096];
    word n = 0;
    for (const char *s = "file "; *s; s++) line[n++] = *s;
    for (const char *s = name; *s; s++) {
        if (n == sizeof line - 1) {
            if (!put_out(line, n)) return 0;
            n = 0;
        }
        line[n++] = (unsigned char)*s < ' ' || *s == 127 ? '?' : *s;
    }
    line[n++] = '\n';
    return put_out(line, n);
}

/* The answers to a text, each in its own words. */
static struct kawhiluhe_elements read_elements;
static struct kawhiluhe_judged judged;
static struct kawhiluhe_surveyed surveyed;
static struct kawhiluhe_kept kept;
static struct kawhiluhe_unstored unstored;

/* Reads the text; whether it is whole, passes, or was read or stored. */
static int reads(enum job job, word size)
{
    switch (job) {
    case ELEMENTS:
        read_elements = kawhiluhe_elements(text, size, elements, sizeof elements / sizeof *elements);
        return read_elements.refusal == 0;
    case STRICT:
        judged = kawhiluhe_strict(text, size, elements, sizeof elements / sizeof *elements, tree, sizeof tree / sizeof *tree);
        return judged.refusal == 0 && judged.passes == 1;
    case STORE:
        kept = kawhiluhe_store(text, size, elements, sizeof elements / sizeof *elements, items, sizeof items / sizeof *items, stored, sizeof stored);
        return kept.refusal == 0;
    case UNSTORE:
        unstored = kawhiluhe_read_stored(text, size, rows, sizeof rows / sizeof *rows);
        return unstored.refusal == 0;
    case AGAIN:
        kept = kawhiluhe_store_again(text, size, rows, sizeof rows / sizeof *rows, stored, sizeof stored);
        return kept.refusal == 0;
    default:
        surveyed = kawhiluhe_survey(text, size, elements, sizeof elements / sizeof *elements, items, sizeof items / sizeof *items);
        return surveyed.refusal == 0 && surveyed.whole == 1;
    }
}

/* The next part of what is printed of it. */
static struct kawhiluhe_filled part(enum job job, word size, word from)
{
    switch (job) {
    case ELEMENTS:
        return kawhiluhe_element_lines(elements, sizeof elements / sizeof *elements, &read_elements, KAWHILUHE_ELEMENTS_WORDS, from, out, OUT_ROOM);
    case STRICT:
        return kawhiluhe_tree_lines(tree, sizeof tree / sizeof *tree, &judged, KAWHILUHE_JUDGED_WORDS, from, out, OUT_ROOM);
    case RECORDS:
        return kawhiluhe_record_lines(items, sizeof items / sizeof *items, &surveyed, KAWHILUHE_SURVEYED_WORDS, from, out, OUT_ROOM);
    case UNSTORE:
        return kawhiluhe_stored_lines(text, size, rows, sizeof rows / sizeof *rows, &unstored, KAWHILUHE_UNSTORED_WORDS, from, out, OUT_ROOM);
    default:
        return kawhiluhe_survey_lines(text, size, elements, sizeof elements / sizeof *elements, items, sizeof items / sizeof *items, &surveyed,
                                      KAWHILUHE_SURVEYED_WORDS, from, out, OUT_ROOM);
    }
}

/* Writes what was stored; or the refusal's line, which goes to standard error. */
static int print_kept(void)
{
    if (kept.refusal == 0) return put_out(stored, kept.bytes);
    const struct kawhiluhe_unstored refused = { kept.refusal, kept.place, 0, 0, 0 };
    struct kawhiluhe_filled f = kawhiluhe_stored_lines(0, 0, 0, 0, &refused, KAWHILUHE_UNSTORED_WORDS, 0, out, OUT_ROOM);
    return put_all(ERRORS, out, f.used);
}

/* Writes it all; fails where it can't be written. */
static int print(enum job job, word size)
{
    struct kawhiluhe_filled f = { 0, 0, 0 };
    do {
        word from = f.next;
        f = part(job, size, from);
        if (f.left && f.next == from) {
            complain("listing", "a line is longer than the buffer");
            return 0;
        }
        if (!put_out(out, f.used)) return 0;
    } while (f.left);
    return 1;
}

/* How many bytes were read, at most so many; -1 where it failed. */
static long taken(int fd, word most)
{
    word n = 0;
    while (n < most) {
        long k = read(fd, text + n, most - n);
        if (k < 0 && *__errno_location() == INTERRUPTED) continue;
        if (k < 0) return -1;
        if (k == 0) break;
        n += (word)k;
    }
    return (long)n;
}

/* One file; fails where nothing more can be written. */
static int file(enum job job, const char *name, int named)
{
    int from_input = same(name, "-");
    int fd = from_input ? INPUT : open(name, CLOSED_ON_EXEC);
    const char *shown = from_input ? "standard input" : name;
    long n = fd < 0 ? -1 : taken(fd, reads_stored(job) ? sizeof text : TEXT_ROOM);
    if (n < 0) complain(shown, strerror(*__errno_location()));
    if (n > STORED_ROOM) complain(shown, "a stored table of more than 131072 bytes");
    if (fd >= 0 && !from_input) close(fd);
    if (n < 0 || n > STORED_ROOM) return 1;
    if (named && !put_name(name)) return 0;
    if (!reads(job, (word)n)) at_least(HOLE);
    return writes_bytes(job) ? print_kept() : print(job, (word)n);
}

static int wrong_call(const char *what, const char *why)
{
    complain(what, why);
    return status;
}

int main(int count, char **given)
{
    signal(BROKEN_PIPE, (void (*)(int))1); /* SIG_IGN: a closed pipe is an error of write */
    if (count < 2) return wrong_call("no job", "one of survey, strict, elements, store, unstore (--help says more)");
    int i = 2, only_files = 0, files = 0;
    enum job job;
    if (same(given[1], "--help") || same(given[1], "-h"))
        return put_out(help, sizeof help - 1) && (close(OUTPUT) == 0 || output_lost()) ? WHOLE : FAILED;
    if (same(given[1], "--version"))
        return put_out(version, sizeof version - 1) && (close(OUTPUT) == 0 || output_lost()) ? WHOLE : FAILED;
    if (same(given[1], "survey"))
        job = SURVEY;
    else if (same(given[1], "strict"))
        job = STRICT;
    else if (same(given[1], "elements"))
        job = ELEMENTS;
    else if (same(given[1], "store"))
        job = STORE;
    else if (same(given[1], "unstore"))
        job = UNSTORE;
    else
        return wrong_call(given[1], "no such job: one of survey, strict, elements, store, unstore (--help says more)");

    /* First the call is looked at, all of it: a wrong one prints nothing. */
    for (int k = i; k < count; k++) {
        if (!only_files && same(given[k], "--"))
            only_files = 1;
        else if (!only_files && given[k][0] == '-' && given[k][1]) {
            if ((job == SURVEY || job == RECORDS) && same(given[k], "--records"))
                job = RECORDS;
            else if (reads_stored(job) && same(given[k], "--again"))
                job = AGAIN;
            else
                return wrong_call(given[k], "unknown option (--help says more)");
        } else
            files++;
    }
    if (writes_bytes(job) && files > 1) return wrong_call(given[1], "one file at a time, where bytes are written");
    only_files = 0;
    if (files == 0) file(job, "-", 0);
    for (; i < count; i++) {
        if (!only_files && same(given[i], "--")) {
            only_files = 1;
            continue;
        }
        if (!only_files && given[i][0] == '-' && given[i][1]) continue;
        if (!file(job, given[i], files > 1)) break;
    }
    if (close(OUTPUT) != 0 && status < FAILED) output_lost();
    return status;
}
