/* Quorvalli reads JDR vector drawings, versions 1.0 to 1.5. This header declares its calls for C and C++. Link libjdr_c.a or libjdr_c.so.
 *
 * The common case: read a file, find the objects with a label.
 *
 *     struct jdr_answer need = jdr_read(file, file_len, NULL, 0, NULL, 0);
 *     if (need.number != JDR_CONTENTS_TOO_SHORT)
 *         return refuse(need.number, need.offset, jdr_message(need.number));
 *     size_t contents_len = (size_t)need.rows * JDR_ROW_WORDS, bodies_len = need.words;
 *     uint32_t *contents = malloc(contents_len * sizeof *contents), *bodies = malloc(bodies_len * sizeof *bodies);
 *     uint32_t *rows = malloc(need.rows * sizeof *rows);
 *     jdr_read(file, file_len, contents, contents_len, bodies, bodies_len);
 *     struct jdr_answer found = jdr_list(contents, contents_len, bodies, bodies_len, label, label_len, rows, need.rows);
 *     for (uint32_t i = 0; i < found.rows; i++)
 *         use(rows[i]);
 *
 * Numbers. Every call answers a number. JDR_ACCEPTED (0) means done. Any other number is a refusal, and then the call has changed nothing; only
 * a session is spent by its verdict, a refusal too, but not by JDR_NO_SESSION. jdr_message and jdr_row_message put a number into words.
 *
 * Memory. The caller lends all memory; no call allocates or keeps any. A run is a pointer and a length in elements, not in bytes. A run of
 * length 0 may have any pointer, NULL too. Any other pointer must be aligned and good for its length. A run that a call writes to must not
 * overlap another run of that call. The calls check everything else themselves.
 *
 * Sizes. To learn how much memory a call needs, lend it none. jdr_read and jdr_sheet_read then answer JDR_CONTENTS_TOO_SHORT with the
 * counts, jdr_write and jdr_sheet_write JDR_OUTPUT_TOO_SHORT with the bytes as the offset, jdr_list JDR_LIST_TOO_SHORT with the entries as
 * the offset (or 0 where there is none). A list as long as the table has rows is always enough.
 *
 * Tables. jdr_read stores a table: the contents, with JDR_ROW_WORDS words for each object, and the bodies. Pass a table on with exactly the
 * lengths that jdr_read used (rows * JDR_ROW_WORDS and words), not with those of a larger buffer. An object is named by its row. Row 0 is the
 * outer group, and rows follow in the order in which objects open in the file.
 *
 * Chars are UTF-16 code units, one to a uint16_t in a label and one to a word in the bodies. Half of a surrogate pair may stand alone.
 *
 * Pieces. A file that comes bit by bit can be checked without storing it: jdr_session_open, jdr_session_piece for each piece, and at the end
 * jdr_session_verdict. A session is a struct that the caller lends to each of them.
 *
 * Cost. Each call takes time in proportion to what it is given. Each question about a row checks the whole table first, so asking about
 * every row costs rows times table.
 *
 * Threads. A call uses nothing but what it is lent. Calls may run side by side as long as none writes to memory that another uses.
 */
#ifndef JDR_H
#define JDR_H

#include <stddef.h>
#include <stdint.h>

/* The version of this library, not of the format. A program built with one version runs with every later one of the same major number. */
#define JDR_LIBRARY_MAJOR 1
#define JDR_LIBRARY_MINOR 1
#define JDR_LIBRARY_PATCH 0
#define JDR_LIBRARY_VERSION "1.1.0"

#ifdef __cplusplus
extern "C" {
#ifdef __GNUC__
#pragma GCC diagnostic push
#pragma GCC diagnostic ignored "-Wshadow" /* functions share the names of structs, as stat does */
#endif
#endif

/* The numbers. For JDR_TOO_LONG to JDR_TRAILING_BYTES the offset is where the file is at fault: the first byte of the field. */
enum {
    JDR_ACCEPTED = 0,            /* done */
    JDR_TOO_LONG = 1,            /* the file is longer than JDR_LONGEST_FILE; the offset is that limit */
    JDR_CUT = 2,                 /* the file ends before or within a field */
    JDR_NO_JDR = 3,              /* the file does not begin with 'JDR' */
    JDR_BAD_VERSION = 4,         /* the version's length is not 3, or the version is none of 1.0 to 1.5 */
    JDR_BAD_FLAG = 5,            /* a flag is neither 0 nor 1. No call gives it: in a file any byte but 0 is true, and such a table is 16 */
    JDR_OUT_OF_RANGE = 6,        /* a byte or an integer is outside its range; a font size below 0 too */
    JDR_BAD_CHAR = 7,            /* a char is not allowed here in this version */
    JDR_BAD_COUNT = 8,           /* a count or length is negative, or 0 where 1 is needed (a group may be empty); or a dash count is odd */
    JDR_BAD_COMPONENT = 9,       /* a paint component is out of range */
    JDR_TOO_DEEP = 10,           /* groups nest deeper than JDR_DEEPEST_GROUP, or a chain has more than 4 markers */
    JDR_FLOW_FRAME = 11,         /* a flow frame flag is true */
    JDR_UNJOINED = 12,           /* a segment does not start where the one before it ends (below version 1.3) */
    JDR_TRAILING_BYTES = 13,     /* bytes follow the outer group; the offset is the first of them */
    JDR_CONTENTS_TOO_SHORT = 14, /* lend more contents: rows and words are what is needed, the offset is the file's or sheet's length */
    JDR_BODIES_TOO_SHORT = 15,   /* lend more bodies: the same */
    JDR_NO_TABLE = 16,           /* the words are no table that a good file gives */
    JDR_OUTPUT_TOO_SHORT = 17,   /* lend more bytes: the offset is how many are needed */
    JDR_LIST_TOO_SHORT = 18,     /* lend more entries: the offset is how many are needed */
    JDR_NO_SHEET = 19,           /* the bytes are no sheet of a good table */
    JDR_NOT_A_NUMBER = 20,       /* jdr_box: a coordinate is a NaN */
    JDR_NO_SESSION = 22          /* the struct is no session that jdr_session_open began */
};

/* Questions about a row (jdr_paint, jdr_text, jdr_description, jdr_box) use two numbers with another meaning. */
enum {
    JDR_NO_ROW = 6,              /* the table has no such row */
    JDR_NO_PART = 7              /* the row's object has no such part */
};

/* A file may have this many bytes and no more. */
#define JDR_LONGEST_FILE 65535

/* Groups may nest this deep and no deeper; the outer group has depth 1. */
#define JDR_DEEPEST_GROUP 16

/* The words of a row of the contents: its kind, the row of the group around it (0 for row 0), start and length of its body in the bodies. */
#define JDR_ROW_WORDS 4

/* The kind of an object: the first word of its row. */
enum {
    JDR_GROUP = 1,
    JDR_PATH = 2,
    JDR_TEXT = 3,
    JDR_BITMAP = 4,
    JDR_TEXT_PATH = 5            /* a text along a path */
};

/* Which paint to ask jdr_paint for. Any other number is a paint that no object has (JDR_NO_PART). */
enum {
    JDR_LINE_PAINT = 0,          /* of a path */
    JDR_FILL_PAINT = 1,          /* of a path */
    JDR_TEXT_PAINT = 2           /* of a text, or of a text along a path */
};

/* The kind of a colour, and what its components are. They are from 0 to 1, the hue from 0 up to but not 360. */
enum {
    JDR_TRANSPARENT = 0,         /* none */
    JDR_RGB = 1,                 /* red, green, blue, alpha */
    JDR_CMYK = 2,                /* cyan, magenta, yellow, black, alpha */
    JDR_GREY = 3,                /* grey, alpha */
    JDR_HSB = 4                  /* hue, saturation, brightness, alpha */
};

/* The form of a paint. */
enum {
    JDR_PLAIN = 0,               /* the first colour */
    JDR_LINEAR = 1,              /* a gradient from the first colour to the second; place is its direction, 0 to 7 */
    JDR_RADIAL = 2               /* the same; place is its location, 0 to 8 */
};

/* What most calls answer. Rows and words are the counts of a table: its objects, and the words of its bodies. What a call does not say is 0. */
struct jdr_answer {
    uint32_t number, offset, rows, words;
};

/* A colour. Components that its kind has not are 0. */
struct jdr_color {
    uint32_t kind;
    float c[5];
};

/* A paint. Where the form is plain the second colour is transparent and place is 0. A refusal is plain, with both colours transparent. */
struct jdr_paint {
    uint32_t number, form, place;
    struct jdr_color first, second;
};

/* Where two texts stand in the bodies: the LaTeX alternative and the text itself. Show the alternative if its length is not 0, else the text.
 * Without an alternative its start and length are 0; after a refusal all four are 0. */
struct jdr_text {
    uint32_t number, alternative_start, alternative_length, text_start, text_length;
};

/* Where a description stands in the bodies. After a refusal, and below version 1.2, start and length are 0. */
struct jdr_description {
    uint32_t number, start, length;
};

/* A box: the least x and y, then the greatest x and y. After a refusal all are 0. */
struct jdr_box {
    uint32_t number;
    double left, bottom, right, top;
};

/* A session: what is known so far of a file that comes in pieces. The caller owns it, and may copy it; the copy goes on by itself. Before
 * jdr_session_open it may hold anything. The fields are the library's own. JDR_NO_SESSION is judged by two of them: depth, the groups whose members
 * are being checked, and bytes, the bytes given before a verdict, counted up to JDR_LONGEST_FILE + 1. */
struct jdr_session {
    uint32_t spent, depth, bytes, number, offset, rows, words, version, stage, width, segments, held;
    uint64_t parts, run, x, y;
    uint32_t members[16];
    uint8_t buffer[184];
};

/* Names for the structs that are one word in C++ too, where a function hides the struct that shares its name. */
typedef struct jdr_answer jdr_answer_t;
typedef struct jdr_color jdr_color_t;
typedef struct jdr_paint jdr_paint_t;
typedef struct jdr_text jdr_text_t;
typedef struct jdr_description jdr_description_t;
typedef struct jdr_box jdr_box_t;
typedef struct jdr_session jdr_session_t;

/* Reads a file into a table. The example above shows how to ask for the sizes first. In a flag any byte but 0 is true; its word is 1. Room for
 * contents is counted in whole rows.
 * Answers JDR_ACCEPTED with the file's length as the offset and the counts; or JDR_TOO_LONG to JDR_BODIES_TOO_SHORT, never JDR_BAD_FLAG.
 *
 *     struct jdr_answer read = jdr_read(file, file_len, contents, contents_len, bodies, bodies_len);
 */
struct jdr_answer jdr_read(const uint8_t *file, size_t file_len, uint32_t *contents, size_t contents_len, uint32_t *bodies,
                           size_t bodies_len);

/* Checks whether any two runs of words are a table that a good file gives.
 * Answers JDR_ACCEPTED with that file's length as the offset and the counts; or JDR_NO_TABLE.
 *
 *     int good = jdr_check(contents, contents_len, bodies, bodies_len).number == JDR_ACCEPTED;
 */
struct jdr_answer jdr_check(const uint32_t *contents, size_t contents_len, const uint32_t *bodies, size_t bodies_len);

/* Writes the file of a table: the bytes that it was read from, with each true flag made 1.
 * Answers JDR_ACCEPTED with the bytes written as the offset and the counts; JDR_NO_TABLE; or JDR_OUTPUT_TOO_SHORT.
 *
 *     size_t needed = jdr_write(contents, contents_len, bodies, bodies_len, NULL, 0).offset;
 *     jdr_write(contents, contents_len, bodies, bodies_len, copy, needed);
 */
struct jdr_answer jdr_write(const uint32_t *contents, size_t contents_len, const uint32_t *bodies, size_t bodies_len, uint8_t *file,
                            size_t file_len);

/* Writes a table as a sheet, bytes to keep: the counts of rows and words, the contents, the bodies. Counts and contents are 16-bit numbers, the
 * bodies 32-bit, all big-endian. A table has one sheet, of 4 bytes and 8 a row and 4 a word.
 * Answers JDR_ACCEPTED with the bytes written as the offset and the counts; JDR_NO_TABLE; or JDR_OUTPUT_TOO_SHORT.
 *
 *     size_t needed = jdr_sheet_write(contents, contents_len, bodies, bodies_len, NULL, 0).offset;
 */
struct jdr_answer jdr_sheet_write(const uint32_t *contents, size_t contents_len, const uint32_t *bodies, size_t bodies_len, uint8_t *sheet,
                                  size_t sheet_len);

/* Reads a sheet, of any length, back into the table that it was written from.
 * Answers JDR_ACCEPTED with the sheet's length as the offset and the counts; JDR_NO_SHEET; JDR_CONTENTS_TOO_SHORT or JDR_BODIES_TOO_SHORT.
 *
 *     struct jdr_answer read = jdr_sheet_read(sheet, sheet_len, contents, contents_len, bodies, bodies_len);
 */
struct jdr_answer jdr_sheet_read(const uint8_t *sheet, size_t sheet_len, uint32_t *contents, size_t contents_len, uint32_t *bodies,
                                 size_t bodies_len);

/* Finds every object whose description equals the label, char for char, and stores their rows, in order. Below version 1.2 every description
 * is empty.
 * Answers JDR_ACCEPTED with how many were found as rows; JDR_NO_TABLE; or JDR_LIST_TOO_SHORT.
 *
 *     static const uint16_t label[] = {'d', 'o', 'o', 'r'};
 *     uint32_t found = jdr_list(contents, contents_len, bodies, bodies_len, label, 4, entries, entries_len).rows;
 */
struct jdr_answer jdr_list(const uint32_t *contents, size_t contents_len, const uint32_t *bodies, size_t bodies_len, const uint16_t *label,
                           size_t label_len, uint32_t *entries, size_t entries_len);

/* Tells a paint of an object: the line or fill paint of a path, the text paint of a text or of a text along a path.
 * Answers JDR_ACCEPTED; JDR_NO_TABLE if the table is bad; else JDR_NO_ROW; else JDR_NO_PART.
 *
 *     struct jdr_paint fill = jdr_paint(contents, contents_len, bodies, bodies_len, row, JDR_FILL_PAINT);
 *     int red_enough = fill.number == JDR_ACCEPTED && fill.first.kind == JDR_RGB && fill.first.c[0] > 0.5f;
 */
struct jdr_paint jdr_paint(const uint32_t *contents, size_t contents_len, const uint32_t *bodies, size_t bodies_len, uint32_t row,
                           uint32_t which);

/* Tells where the chars of a text, or of a text along a path, stand in the bodies.
 * Answers JDR_ACCEPTED; JDR_NO_TABLE if the table is bad; else JDR_NO_ROW; else JDR_NO_PART.
 *
 *     struct jdr_text text = jdr_text(contents, contents_len, bodies, bodies_len, row);
 *     uint16_t first = (uint16_t)bodies[text.text_start];
 */
struct jdr_text jdr_text(const uint32_t *contents, size_t contents_len, const uint32_t *bodies, size_t bodies_len, uint32_t row);

/* Tells where the chars of an object's description, its label, stand in the bodies. Every object has one; it may be empty, and below version
 * 1.2 it is.
 * Answers JDR_ACCEPTED; JDR_NO_TABLE if the table is bad; else JDR_NO_ROW.
 *
 *     struct jdr_description own = jdr_description(contents, contents_len, bodies, bodies_len, row);
 *     int labelled = own.length != 0;
 */
struct jdr_description jdr_description(const uint32_t *contents, size_t contents_len, const uint32_t *bodies, size_t bodies_len, uint32_t row);

/* Tells the box around the outline of a path, or of a text along a path: around its start and every point of every segment, control points
 * too. Nothing is rounded. Infinities are allowed. Of equal coordinates the first counts, which settles the sign of a zero.
 * Answers JDR_ACCEPTED; JDR_NO_TABLE if the table is bad; else JDR_NO_ROW; else JDR_NO_PART; else JDR_NOT_A_NUMBER.
 *
 *     struct jdr_box box = jdr_box(contents, contents_len, bodies, bodies_len, row);
 *     double width = box.right - box.left;
 */
struct jdr_box jdr_box(const uint32_t *contents, size_t contents_len, const uint32_t *bodies, size_t bodies_len, uint32_t row);

/* Begins a session: a check of a file that comes in pieces and is stored nowhere. What the session holds does not matter; a used one begins
 * anew. The pointer to the session must not be NULL in these three calls, and a piece must not lie in the session.
 * Answers JDR_ACCEPTED.
 *
 *     struct jdr_session session;
 *     jdr_session_open(&session);
 */
struct jdr_answer jdr_session_open(struct jdr_session *session);

/* Gives a session the next bytes of the file, however many, none too. They are not needed afterwards. A fault in them is told by the verdict
 * and not here. After a verdict a piece changes nothing.
 * Answers JDR_ACCEPTED; or JDR_NO_SESSION, and leaves the session as it is, exactly if its depth is over JDR_DEEPEST_GROUP or its bytes are over
 * JDR_LONGEST_FILE + 1. A session that was opened never comes to that. Of any other struct only this is promised: a piece answers JDR_ACCEPTED, a
 * verdict some number up to JDR_TRAILING_BYTES, and the calls come to an end.
 *
 *     while ((piece_len = receive(piece, sizeof piece)) != 0)
 *         jdr_session_piece(&session, piece, piece_len);
 */
struct jdr_answer jdr_session_piece(struct jdr_session *session, const uint8_t *bytes, size_t bytes_len);

/* Gives the verdict on the bytes so far: what jdr_read answers for all of them as one file, with room enough. A file that grows too long is
 * JDR_TOO_LONG, whatever else is wrong with it. A verdict, a refusal too, spends the session: asked again it is the same, until the session is
 * opened anew. To ask before the end and go on, ask a copy.
 * Answers JDR_ACCEPTED with the file's length as the offset and the counts of its table; JDR_TOO_LONG to JDR_TRAILING_BYTES, never
 * JDR_BAD_FLAG; or JDR_NO_SESSION, as jdr_session_piece.
 *
 *     struct jdr_answer verdict = jdr_session_verdict(&session);
 *     if (verdict.number != JDR_ACCEPTED)
 *         return refuse(verdict.number, verdict.offset, jdr_message(verdict.number));
 */
struct jdr_answer jdr_session_verdict(struct jdr_session *session);

/* Puts the number of an answer into words. */
static inline const char *jdr_message(uint32_t number)
{
    switch (number) {
    case JDR_ACCEPTED: return "accepted";
    case JDR_TOO_LONG: return "the file is longer than the limit";
    case JDR_CUT: return "the file ends before or within a field";
    case JDR_NO_JDR: return "the file does not begin with 'JDR'";
    case JDR_BAD_VERSION: return "the version is not one that is read";
    case JDR_BAD_FLAG: return "a flag is neither 0 nor 1";
    case JDR_OUT_OF_RANGE: return "a byte or an integer is out of range";
    case JDR_BAD_CHAR: return "a char is not allowed here in this version";
    case JDR_BAD_COUNT: return "a count or a length is negative, 0 where 1 is needed, or an odd number of dashes";
    case JDR_BAD_COMPONENT: return "a paint component is out of range";
    case JDR_TOO_DEEP: return "groups are nested too deep, or a chain has too many markers";
    case JDR_FLOW_FRAME: return "an object has a flow frame";
    case JDR_UNJOINED: return "a segment does not start where the one before it ends";
    case JDR_TRAILING_BYTES: return "bytes follow the end of the drawing";
    case JDR_CONTENTS_TOO_SHORT: return "the contents lent are too short";
    case JDR_BODIES_TOO_SHORT: return "the bodies lent are too short";
    case JDR_NO_TABLE: return "the words are no table of a drawing";
    case JDR_OUTPUT_TOO_SHORT: return "the output lent is too short";
    case JDR_LIST_TOO_SHORT: return "the list lent is too short";
    case JDR_NO_SHEET: return "the bytes are no sheet of a table";
    case JDR_NOT_A_NUMBER: return "a coordinate is not a number";
    case JDR_NO_SESSION: return "the session was not opened";
    default: return "a number that no call gives";
    }
}

/* The same for a question about a row. */
static inline const char *jdr_row_message(uint32_t number)
{
    switch (number) {
    case JDR_NO_ROW: return "the table has no such row";
    case JDR_NO_PART: return "the row's object has no such part";
    default: return jdr_message(number);
    }
}

#ifdef __cplusplus
#ifdef __GNUC__
#pragma GCC diagnostic pop
#endif
}
#endif

#endif
