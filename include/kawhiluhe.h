/* Kawhiluhe: a proved reader for the VHDL of 01, as a static library for x86-64 Linux.

   A function takes any bytes and any tables, of any length and content, and always returns; docs/PROMISES.md says what is
   proved. Nothing is kept between calls, nothing is allocated, no file is touched; a call takes at most 1 MB of stack.
   A pointer may be null where its length is 0. Tables must not overlap each other or the text.

   A table is lent by the caller: a pointer and the number of words that it has. It has as many rows as fit whole. After a call it
   holds the rows and then zeros; after a refusal it is all zeros. So is an output, a buffer for bytes.

   Lengths are in bytes for texts, names, outputs and buffers, and in words for tables. Places and numbers count from 0, in two countings: a byte
   place is a place in the text, an element number a row of the element table, where its byte place stands. */
#ifndef KAWHILUHE_H
#define KAWHILUHE_H

/* The version: the first number changes where a caller must, the second where there is more, the third where there is none of either. */
#define KAWHILUHE_VERSION "1.2.0"
#define KAWHILUHE_VERSION_NUMBER 10200

#ifdef __cplusplus
extern "C" {
#endif

typedef unsigned char kawhiluhe_byte; /* uint8_t */
typedef unsigned long kawhiluhe_word; /* uint64_t, and size_t: this header needs no other */

/* Sizes: a text has at most 65,536 bytes and 8,192 elements, a survey at most 1,024 pieces, a stored table at most 1,024 items. */
enum {
    KAWHILUHE_MOST_BYTES = 65536,
    KAWHILUHE_MOST_ELEMENTS = 8192,
    KAWHILUHE_MOST_PIECES = 1024,
    KAWHILUHE_MOST_STORED_ITEMS = 1024,
    KAWHILUHE_ELEMENT_WORDS = 3,
    KAWHILUHE_TREE_WORDS = 5,
    KAWHILUHE_ITEM_WORDS = 8,
    KAWHILUHE_STORED_WORDS = 6
};

/* Refusals, in the order in which they are tested; of 5, 6, 7 the first element decides. 0 is none.
   After each, its place. */
enum {
    KAWHILUHE_TEXT_TOO_LONG = 1,       /* 65,536 */
    KAWHILUHE_TOO_MANY_ELEMENTS = 3,   /* 8,192 */
    KAWHILUHE_ELEMENT_TABLE_SHORT = 4, /* the rows that the table has */
    KAWHILUHE_UNREADABLE = 2,          /* strict: the first unreadable element */
    KAWHILUHE_NO_FILE = 5,             /* strict: the element up to which they begin no file, or their count */
    KAWHILUHE_NAME_DIFFERS = 6,        /* strict: the closing name or label that differs, or closes what had none */
    KAWHILUHE_TOO_DEEP = 7,            /* strict: the element after which more than 32 stand open */
    KAWHILUHE_TREE_TABLE_SHORT = 8,    /* strict: the rows that the table has */
    KAWHILUHE_TOO_MANY_PIECES = 9,     /* survey: 1,024 */
    KAWHILUHE_NOT_STORED = 24,         /* a stored table: 0 */
    KAWHILUHE_ITEM_TABLE_SHORT = 10,   /* survey and a stored table: the records or rows that the table has */
    KAWHILUHE_NOT_WHOLE = 21,          /* storing a survey: 0 */
    KAWHILUHE_OUTPUT_SHORT = 22        /* storing: the bytes that the output has room for */
};

/* The element table: a row is kind, first byte, length. Kinds:

     1 identifier, 2 extended identifier, 3 integer, 4 real, 5 character, 6 string, 7 unreadable;
     8 to 32 the delimiters  =>  **  :=  /=  >=  <=  <>  &  '  (  )  *  +  ,  -  .  /  :  ;  <  =  >  |  [  ]  ;
     33 to 147 the reserved words, in the order of the alphabet:

     33 abs access after alias all and architecture array            41 assert assume assume_guarantee attribute begin block body buffer
     49 bus case component configuration constant context cover default        57 disconnect downto else elsif end entity exit fairness
     65 file for force function generate generic group guarded       73 if impure in inertial inout is label library
     81 linkage literal loop map mod nand new next                   89 nor not null of on open or others
     97 out package parameter port postponed procedure process property        105 protected pure range record register reject release rem
     113 report restrict restrict_guarantee return rol ror select sequence     121 severity shared signal sla sll sra srl strong
     129 subtype then to transport type unaffected units until       137 use variable vmode vprop vunit wait when while
     145 with xnor xor */
enum {
    KAWHILUHE_IDENTIFIER = 1,
    KAWHILUHE_EXTENDED_IDENTIFIER = 2,
    KAWHILUHE_INTEGER = 3,
    KAWHILUHE_REAL = 4,
    KAWHILUHE_CHARACTER = 5,
    KAWHILUHE_STRING = 6,
    KAWHILUHE_UNREADABLE_ELEMENT = 7,
    KAWHILUHE_FIRST_DELIMITER = 8,
    KAWHILUHE_FIRST_RESERVED_WORD = 33
};

/* The tree table: a row is form, first element, element count, rows in its subtree with itself, operator element (forms 28 and 29;
   else the first element). Rows stand parent first, children in text order. Forms:

     1 package, 2 entity, 3 architecture; 4 constant, 5 subtype, 6 signal, 7 variable, 8 port, 9 alias, 10 range;
     11 concurrent assignment, 12 block, 13 process; 14 and 15 assignment by <= and by :=, 16 if, 17 branch;
     18 for, 19 while, 20 endless loop; 21 next, 22 exit, 23 null;
     24 name, 25 name ( expression ), 26 name with an attribute, 27 literal, 28 sign, abs or not, 29 binary operator;
     30 leading label, 31 type mark, 32 guard, 33 the word is of a block.

   Not supported for synthesis: 19, 20, 32, 33, and 30 on 21, 22, 23. Ignored: 9. */

/* The item table: a record to each piece. */
struct kawhiluhe_item {
    kawhiluhe_word sort;   /* its class: 1 heading, 2 closing, 3 constant, 4 subtype, 5 unclaimed */
    kawhiluhe_word first;  /* its first element */
    kawhiluhe_word count;  /* and how many it has */
    kawhiluhe_word name;   /* its name's element, 0 where it has none */
    kawhiluhe_word state;  /* of an item, see below; else 0 */
    kawhiluhe_word kind;   /* in state 0, 1 integer or 2 truth */
    kawhiluhe_word low;    /* the number, or 1 for true; of a subtype its low end; a negative number in two's complement */
    kawhiluhe_word high;   /* of a subtype its high end */
};

/* States of an item. The smallest of 1 to 6 wins; then the first of 7 to 9 met; then 10. */
enum {
    KAWHILUHE_VALUE = 0,    /* a number, a truth, or for a subtype its low and high end */
    KAWHILUHE_BROKEN = 1,   /* no form fits */
    KAWHILUHE_DOUBLED = 2,  /* its name has another claim anywhere, the language's included */
    KAWHILUHE_UNFOLDED = 3, /* a real, character or string literal, &, form 25 or 26 */
    KAWHILUHE_UNKNOWN = 4,  /* a name used with no claim above */
    KAWHILUHE_LEANS = 5,    /* a name used that is doubled, or whose item isn't in state 0 */
    KAWHILUHE_KIND = 6,     /* integer and truth mixed, arithmetic on truths, logic on integers, a type as a number, or the
                               reverse; a range on boolean */
    KAWHILUHE_DIVISOR = 7,  /* divisor zero */
    KAWHILUHE_EXPONENT = 8, /* negative exponent */
    KAWHILUHE_SIZE = 9,     /* a literal or result beyond 2147483647 in size */
    KAWHILUHE_RANGE = 10,   /* outside its mark's range; a non-null subtype range outside its parent's */
    KAWHILUHE_STATES = 11
};

struct kawhiluhe_elements {
    kawhiluhe_word refusal;
    kawhiluhe_word place;
    kawhiluhe_word elements; /* how many there are; 0 on a refusal */
};

struct kawhiluhe_judged {
    kawhiluhe_word refusal;
    kawhiluhe_word place;
    kawhiluhe_word rows;   /* of the tree; 0 on a refusal */
    kawhiluhe_word passes; /* 1 where no row is not supported */
    kawhiluhe_word row;    /* else the first such row */
};

struct kawhiluhe_surveyed {
    kawhiluhe_word refusal;
    kawhiluhe_word place;
    kawhiluhe_word pieces;
    kawhiluhe_word frame;   /* 1 where the frame is good */
    kawhiluhe_word whole;   /* 1 where it is, and every item is in state 0 */
    kawhiluhe_word pair;    /* 1 where two own items share a name: the first such pair of pieces */
    kawhiluhe_word earlier;
    kawhiluhe_word later;
    kawhiluhe_word tally[KAWHILUHE_STATES]; /* how many items are in each state */
};

/* A stored table: fields of a one-byte tag, a two-byte length, high byte first, and the contents. Tag 1 has the package's name; then a field to each
   item, in order: tag 2 an integer constant (four bytes in two's complement, high byte first, and the name), tag 3 a truth constant (a byte 0 or 1,
   and the name), tag 4 a subtype (a byte 0 integer or 1 boolean, its low and its high end in four bytes each, and the name); tag 0 with length 0 ends
   it. Names are in lower case unless extended. The rows of one that is read, one to an item: */
struct kawhiluhe_stored_item {
    kawhiluhe_word sort;   /* 3 constant, 4 subtype */
    kawhiluhe_word name;   /* the byte of the table at which its name begins */
    kawhiluhe_word length; /* and how many bytes that has */
    kawhiluhe_word kind;   /* 1 integer or 2 truth */
    kawhiluhe_word low;    /* as in an item record */
    kawhiluhe_word high;
};

/* The answer of storing. */
struct kawhiluhe_kept {
    kawhiluhe_word refusal;
    kawhiluhe_word place;
    kawhiluhe_word bytes; /* how many were written; 0 on a refusal */
};

/* The answer of reading a stored table. */
struct kawhiluhe_unstored {
    kawhiluhe_word refusal;
    kawhiluhe_word place;
    kawhiluhe_word items;  /* how many there are */
    kawhiluhe_word name;   /* the byte at which the package's name begins */
    kawhiluhe_word length; /* and how many bytes that has */
};

/* The elements of a text. Refusals 1, 3, 4. */
struct kawhiluhe_elements kawhiluhe_elements(const kawhiluhe_byte *text, kawhiluhe_word text_length, kawhiluhe_word *elements,
                                             kawhiluhe_word element_words);

/* The strict reading of a text: elements, tree and verdict. Refusals 1 to 8. */
struct kawhiluhe_judged kawhiluhe_strict(const kawhiluhe_byte *text, kawhiluhe_word text_length, kawhiluhe_word *elements,
                                         kawhiluhe_word element_words, kawhiluhe_word *tree, kawhiluhe_word tree_words);

/* The survey of a package: elements and item records. Refusals 1, 3, 4, 9, 10. */
struct kawhiluhe_surveyed kawhiluhe_survey(const kawhiluhe_byte *text, kawhiluhe_word text_length, kawhiluhe_word *elements,
                                           kawhiluhe_word element_words, kawhiluhe_word *items, kawhiluhe_word item_words);

/* The number of the first record that claims a name, case aside unless it is extended; or how many records the table has, where none
   does. A record that points outside the tables claims nothing. */
kawhiluhe_word kawhiluhe_lookup(const kawhiluhe_byte *text, kawhiluhe_word text_length, const kawhiluhe_word *elements,
                                kawhiluhe_word element_words, const kawhiluhe_byte *name, kawhiluhe_word name_length,
                                const kawhiluhe_word *items, kawhiluhe_word item_words);

/* The same over records as structs, which have the same words. */
kawhiluhe_word kawhiluhe_lookup_items(const kawhiluhe_byte *text, kawhiluhe_word text_length, const kawhiluhe_word *elements,
                                      kawhiluhe_word element_words, const kawhiluhe_byte *name, kawhiluhe_word name_length,
                                      const struct kawhiluhe_item *items, kawhiluhe_word item_count);

/* The survey of a package that is whole, stored: elements and item records as the survey leaves them, and the bytes of the table in the output.
   Refusals: the survey's own, 21, 22. */
struct kawhiluhe_kept kawhiluhe_store(const kawhiluhe_byte *text, kawhiluhe_word text_length, kawhiluhe_word *elements, kawhiluhe_word element_words,
                                      kawhiluhe_word *items, kawhiluhe_word item_words, kawhiluhe_byte *out, kawhiluhe_word out_length);

/* A stored table of any length, read: a row to each item. Refusals 24, 10. */
struct kawhiluhe_unstored kawhiluhe_read_stored(const kawhiluhe_byte *bytes, kawhiluhe_word bytes_length, kawhiluhe_word *rows,
                                                kawhiluhe_word row_words);

/* The same, and what was read stored again, which gives the same bytes. Refusals 24, 10, 22. */
struct kawhiluhe_kept kawhiluhe_store_again(const kawhiluhe_byte *bytes, kawhiluhe_word bytes_length, kawhiluhe_word *rows, kawhiluhe_word row_words,
                                            kawhiluhe_byte *out, kawhiluhe_word out_length);

/* What the programs print of an answer, line by line. Each of these takes the tables that the answer was given with and the answer itself, by
   its words, and fills the buffer with whole lines from the line `from` on: the first line is 0. After them the buffer holds zeros, one at
   least. A caller begins at 0, writes the bytes used, and goes on at `next` until no line is left: what it has then written is the listing.
   Where `next` is still `from` and a line is left, that line needs a larger buffer. No line of a survey's or a stored table's items is longer than
   the text or the table by more than 100 bytes, and no other line than 300. */
struct kawhiluhe_filled {
    kawhiluhe_word next; /* the line to go on with */
    kawhiluhe_word used; /* how many bytes of the buffer the lines take: always fewer than it has, unless it has none */
    kawhiluhe_word left; /* how many lines there are from `next` on; 0 at the end */
};

/* How many words the answers have. */
enum {
    KAWHILUHE_ELEMENTS_WORDS = 3,
    KAWHILUHE_JUDGED_WORDS = 5,
    KAWHILUHE_SURVEYED_WORDS = 19,
    KAWHILUHE_KEPT_WORDS = 3,
    KAWHILUHE_UNSTORED_WORDS = 5
};

/* `elements COUNT`, and `ELEMENT KIND FIRST LENGTH` to each; or `refused NO at PLACE`, as in all of them. */
struct kawhiluhe_filled kawhiluhe_element_lines(const kawhiluhe_word *elements, kawhiluhe_word element_words,
                                                const struct kawhiluhe_elements *answer, kawhiluhe_word answer_words, kawhiluhe_word from,
                                                kawhiluhe_byte *out, kawhiluhe_word out_length);

/* `rows COUNT passes yes` or `rows COUNT passes no at ROW`, and `ROW FORM FIRST COUNT SUBTREE OPERATOR` to each row. */
struct kawhiluhe_filled kawhiluhe_tree_lines(const kawhiluhe_word *tree, kawhiluhe_word tree_words, const struct kawhiluhe_judged *answer,
                                             kawhiluhe_word answer_words, kawhiluhe_word from, kawhiluhe_byte *out, kawhiluhe_word out_length);

/* `pieces COUNT whole yes` or `no`, and a line to each item: its piece's number, what it is, its name, its value or its state. */
struct kawhiluhe_filled kawhiluhe_survey_lines(const kawhiluhe_byte *text, kawhiluhe_word text_length, const kawhiluhe_word *elements,
                                               kawhiluhe_word element_words, const kawhiluhe_word *items, kawhiluhe_word item_words,
                                               const struct kawhiluhe_surveyed *answer, kawhiluhe_word answer_words, kawhiluhe_word from,
                                               kawhiluhe_byte *out, kawhiluhe_word out_length);

/* `pieces COUNT frame good whole no`, the eight numbers of each piece's record, the tally and the pair. */
struct kawhiluhe_filled kawhiluhe_record_lines(const kawhiluhe_word *items, kawhiluhe_word item_words, const struct kawhiluhe_surveyed *answer,
                                               kawhiluhe_word answer_words, kawhiluhe_word from, kawhiluhe_byte *out, kawhiluhe_word out_length);

/* `package NAME items COUNT`, and a line to each item, from 0: what it is, its name as stored, and its value. */
struct kawhiluhe_filled kawhiluhe_stored_lines(const kawhiluhe_byte *bytes, kawhiluhe_word bytes_length, const kawhiluhe_word *rows,
                                               kawhiluhe_word row_words, const struct kawhiluhe_unstored *answer, kawhiluhe_word answer_words,
                                               kawhiluhe_word from, kawhiluhe_byte *out, kawhiluhe_word out_length);

#ifdef __cplusplus
}
#endif

#endif
