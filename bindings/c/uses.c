/* Uses every name of the installed header, as C and as C++, and prints what the calls answer of a plan: uses FILE. tools/bindings builds and runs it both ways. */
#include <stdio.h>
#include <stdlib.h>
#include <string.h>

#include <jdr.h>

static uint8_t file[JDR_LONGEST_FILE + 1], copy[JDR_LONGEST_FILE], sheet[12 * JDR_LONGEST_FILE];
static uint32_t contents[JDR_LONGEST_FILE * JDR_ROW_WORDS], bodies[JDR_LONGEST_FILE], entries[JDR_LONGEST_FILE];

static const char *paint_name(uint32_t which)
{
    return which == JDR_LINE_PAINT ? "line" : which == JDR_FILL_PAINT ? "fill" : which == JDR_TEXT_PAINT ? "text" : "?";
}

static const char *kind_name(uint32_t kind)
{
    switch (kind) {
    case JDR_GROUP: return "group";
    case JDR_PATH: return "path";
    case JDR_TEXT: return "text";
    case JDR_BITMAP: return "bitmap";
    case JDR_TEXT_PATH: return "textpath";
    default: return "?";
    }
}

static const char *colour_name(jdr_color_t colour)
{
    switch (colour.kind) {
    case JDR_TRANSPARENT: return "transparent";
    case JDR_RGB: return "RGB";
    case JDR_CMYK: return "CMYK";
    case JDR_GREY: return "grey";
    case JDR_HSB: return "HSB";
    default: return "?";
    }
}

int main(int count, char **arguments)
{
    static const uint16_t label[] = {'m', 'a', 'c', 'h', 'i', 'n', 'e'};
    size_t length, rows, words;
    uint32_t row, which, number;
    jdr_answer_t answer;
    jdr_session_t session;
    FILE *source = count == 2 ? fopen(arguments[1], "rb") : NULL;

    if (!source)
        return 2;
    length = fread(file, 1, sizeof file, source);
    fclose(source);
    printf("library %s: %d.%d.%d\n", JDR_LIBRARY_VERSION, JDR_LIBRARY_MAJOR, JDR_LIBRARY_MINOR, JDR_LIBRARY_PATCH);
    for (number = 0; number < 30; number++)
        printf("%u %s; %s\n", (unsigned)number, jdr_message(number), jdr_row_message(number));

    jdr_session_open(&session);
    jdr_session_piece(&session, file, length / 2);
    jdr_session_piece(&session, file + length / 2, length - length / 2);
    printf("session: %u bytes, depth %u of %d\n", (unsigned)session.bytes, (unsigned)session.depth, JDR_DEEPEST_GROUP);
    answer = jdr_session_verdict(&session);
    printf("verdict: %s, %u, %u rows, %u words\n", jdr_message(answer.number), (unsigned)answer.offset, (unsigned)answer.rows, (unsigned)answer.words);
    session.bytes = JDR_LONGEST_FILE + 2;
    printf("no session: %s\n", jdr_session_verdict(&session).number == JDR_NO_SESSION ? "22" : "ANOTHER");

    answer = jdr_read(file, length, contents, sizeof contents / sizeof *contents, bodies, sizeof bodies / sizeof *bodies);
    printf("read: %s\n", jdr_message(answer.number));
    if (answer.number != JDR_ACCEPTED)
        return 1;
    rows = (size_t)answer.rows * JDR_ROW_WORDS;
    words = answer.words;
    answer = jdr_check(contents, rows, bodies, words);
    printf("check: %s, %u bytes\n", jdr_message(answer.number), (unsigned)answer.offset);
    answer = jdr_write(contents, rows, bodies, words, copy, sizeof copy);
    printf("write: %s, %s\n", jdr_message(answer.number), memcmp(file, copy, length) == 0 ? "the same" : "ANOTHER");
    answer = jdr_sheet_write(contents, rows, bodies, words, sheet, sizeof sheet);
    printf("sheet_write: %s, %u bytes\n", jdr_message(answer.number), (unsigned)answer.offset);
    answer = jdr_sheet_read(sheet, answer.offset, contents, rows, bodies, words);
    printf("sheet_read: %s, %u rows\n", jdr_message(answer.number), (unsigned)answer.rows);
    answer = jdr_list(contents, rows, bodies, words, label, sizeof label / sizeof *label, entries, sizeof entries / sizeof *entries);
    printf("list: %s, %u found\n", jdr_message(answer.number), (unsigned)answer.rows);

    for (row = 0; row <= rows / JDR_ROW_WORDS; row++) {
        jdr_text_t text = jdr_text(contents, rows, bodies, words, row);
        jdr_description_t description = jdr_description(contents, rows, bodies, words, row);
        jdr_box_t box = jdr_box(contents, rows, bodies, words, row);
        printf("row %u %s text: %s; box: %s, %g\n", (unsigned)row, kind_name(contents[row * JDR_ROW_WORDS]), jdr_row_message(text.number),
               jdr_row_message(box.number), box.right - box.left);
        printf("  description: %s, %u chars\n", jdr_row_message(description.number), (unsigned)description.length);
        for (which = 0; which < 3; which++) {
            jdr_paint_t paint = jdr_paint(contents, rows, bodies, words, row, which);
            if (paint.number == JDR_ACCEPTED)
                printf("  %s %s %s, last %g\n", paint_name(which), paint.form == JDR_PLAIN ? "plain" : paint.form == JDR_LINEAR ? "linear" : paint.form == JDR_RADIAL ? "radial" : "?",
                       colour_name(paint.first), (double)paint.first.c[4]);
        }
    }
    return 0;
}
