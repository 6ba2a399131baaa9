/* Reads a plan, or its sheet if the file's name ends with .sheet. Without a label the table is checked, written back and compared with the
 * file; with one, the objects that have it for their description are listed, each with the groups around it, of a path its box, and of a
 * text what is shown: plan FILE [LABEL]. Or the table is stored as a sheet, to be read from then on without parsing the plan again:
 * plan store FILE SHEET. */
#include <stdio.h>
#include <stdlib.h>
#include <string.h>

#include "jdr.h"
#include "label.h"

/* A table, in memory of exactly the words used. */
struct table {
    uint32_t *contents, *bodies;
    size_t contents_len, bodies_len;
};

/* A file's bytes, which are a plan or a sheet. */
struct file {
    uint8_t *bytes;
    size_t length;
    int is_sheet;
};

static void fail(const char *message)
{
    fprintf(stderr, "%s\n", message);
    exit(2);
}

/* Room for so many elements of this size. */
static void *room(size_t count, size_t size)
{
    void *memory = calloc(count ? count : 1, size);
    if (!memory)
        fail("no memory");
    return memory;
}

static void print(const char *call, struct jdr_answer answer)
{
    printf("%s: %u %u %u %u\n", call, (unsigned)answer.number, (unsigned)answer.offset, (unsigned)answer.rows, (unsigned)answer.words);
}

/* The bytes of a file, whose length is only known at its end. */
static struct file load(const char *name)
{
    struct file file = {NULL, 0, 0};
    size_t most = 0;
    FILE *source = fopen(name, "rb");

    if (!source)
        fail("the file cannot be read");
    while (!feof(source)) {
        if (file.length == most) {
            most = most ? 2 * most : 1024;
            file.bytes = realloc(file.bytes, most);
            if (!file.bytes)
                fail("no memory");
        }
        file.length += fread(file.bytes + file.length, 1, most - file.length, source);
        if (ferror(source))
            fail("the file cannot be read");
    }
    fclose(source);
    file.is_sheet = strlen(name) >= 6 && strcmp(name + strlen(name) - 6, ".sheet") == 0;
    return file;
}

/* The call for a plan or for a sheet: both take the same. */
static struct jdr_answer read_with_room(const struct file *file, struct table *table)
{
    if (file->is_sheet)
        return jdr_sheet_read(file->bytes, file->length, table->contents, table->contents_len, table->bodies, table->bodies_len);
    return jdr_read(file->bytes, file->length, table->contents, table->contents_len, table->bodies, table->bodies_len);
}

/* Reads without room first: the answer is the refusal, or has the counts that are needed. */
static int read_table(const struct file *file, struct table *table)
{
    struct jdr_answer answer = read_with_room(file, table);
    if (answer.number == JDR_CONTENTS_TOO_SHORT) {
        table->contents_len = (size_t)answer.rows * JDR_ROW_WORDS;
        table->bodies_len = answer.words;
        table->contents = room(table->contents_len, sizeof *table->contents);
        table->bodies = room(table->bodies_len, sizeof *table->bodies);
        answer = read_with_room(file, table);
    }
    print(file->is_sheet ? "sheet_read" : "read", answer);
    return answer.number == JDR_ACCEPTED;
}

/* Whether the table is written as the file that it was read from; a plan's true flags are written as 1, whatever they were. */
static int comes_back(const struct table *table, const struct file *file)
{
    int written;
    uint8_t *copy = room(file->length, 1);
    struct jdr_answer answer;

    print("check", jdr_check(table->contents, table->contents_len, table->bodies, table->bodies_len));
    if (file->is_sheet)
        answer = jdr_sheet_write(table->contents, table->contents_len, table->bodies, table->bodies_len, copy, file->length);
    else
        answer = jdr_write(table->contents, table->contents_len, table->bodies, table->bodies_len, copy, file->length);
    print(file->is_sheet ? "sheet_write" : "write", answer);
    written = answer.number == JDR_ACCEPTED && answer.offset == file->length;
    if (written)
        puts(memcmp(copy, file->bytes, file->length) == 0 ? "the same file" : "the file with each true flag made 1");
    free(copy);
    return written;
}

/* Writes without room first: the answer then has as offset the bytes that are needed. */
static int store(const struct table *table, const char *name)
{
    size_t length;
    uint8_t *sheet;
    FILE *target;
    struct jdr_answer answer = jdr_sheet_write(table->contents, table->contents_len, table->bodies, table->bodies_len, NULL, 0);

    length = answer.offset;
    sheet = room(length, 1);
    answer = jdr_sheet_write(table->contents, table->contents_len, table->bodies, table->bodies_len, sheet, length);
    print("sheet_write", answer);
    if (answer.number == JDR_ACCEPTED) {
        target = fopen(name, "wb");
        if (!target || fwrite(sheet, 1, length, target) != length || fclose(target) != 0)
            fail("the sheet cannot be written");
    }
    free(sheet);
    return answer.number == JDR_ACCEPTED;
}

static const char *kind_name(uint32_t kind)
{
    switch (kind) {
    case JDR_GROUP:
        return "group";
    case JDR_PATH:
        return "path";
    case JDR_TEXT:
        return "text";
    case JDR_BITMAP:
        return "bitmap";
    default:
        return "textpath";
    }
}

/* The box around a path, or around the path of a text along one: left, bottom, right and top. A row with no path prints nothing. */
static void print_box(const struct table *table, uint32_t row)
{
    struct jdr_box box = jdr_box(table->contents, table->contents_len, table->bodies, table->bodies_len, row);
    if (box.number == JDR_ACCEPTED)
        printf(" box %.2f %.2f %.2f %.2f", box.left, box.bottom, box.right, box.top);
    else if (box.number == JDR_NOT_A_NUMBER)
        printf(" box not a number");
}

/* What is shown of a text, along a path or not: the LaTeX alternative if it has a char, otherwise the text itself. A row that is no text
 * prints nothing. */
static void print_shown(const struct table *table, uint32_t row)
{
    struct jdr_text text = jdr_text(table->contents, table->contents_len, table->bodies, table->bodies_len, row);
    if (text.number != JDR_ACCEPTED)
        return;
    printf(" shows ");
    if (text.alternative_length != 0)
        print_chars(table->bodies + text.alternative_start, text.alternative_length);
    else
        print_chars(table->bodies + text.text_start, text.text_length);
}

/* A row with its kind and the rows of the groups around it. The parent numbers lead from the innermost group to the outer one, row 0. */
static void print_row(const struct table *table, uint32_t entry)
{
    uint32_t row = entry;
    printf("row %u %s inside", (unsigned)row, kind_name(table->contents[(size_t)row * JDR_ROW_WORDS]));
    if (row == 0)
        printf(" no group");
    while (row != 0) {
        row = table->contents[(size_t)row * JDR_ROW_WORDS + 1];
        printf(" %u", (unsigned)row);
    }
    print_box(table, entry);
    print_shown(table, entry);
    putchar('\n');
}

/* Lists without room first: the answer is already 0 where there are no entries, or has as offset how many are needed. */
static int list_label(const struct table *table, const uint16_t *label, size_t label_len)
{
    uint32_t *entries = NULL, i;
    struct jdr_answer answer =
        jdr_list(table->contents, table->contents_len, table->bodies, table->bodies_len, label, label_len, NULL, 0);
    if (answer.number == JDR_LIST_TOO_SHORT) {
        size_t needed = answer.offset;
        entries = room(needed, sizeof *entries);
        answer = jdr_list(table->contents, table->contents_len, table->bodies, table->bodies_len, label, label_len, entries, needed);
    }
    print("list", answer);
    for (i = 0; i < answer.rows; i++)
        print_row(table, entries[i]);
    free(entries);
    return answer.number == JDR_ACCEPTED;
}

int main(int count, char **arguments)
{
    int storing = count == 4 && strcmp(arguments[1], "store") == 0;
    struct table table = {NULL, NULL, 0, 0};
    struct file file;
    uint16_t *label = NULL;
    size_t label_len = 0;
    int done = 0;

    if (count != 2 && count != 3 && !storing)
        fail("usage: plan FILE [LABEL], or plan store FILE SHEET");
    if (count == 3) {
        label = room(strlen(arguments[2]), sizeof *label);
        if (!label_of(arguments[2], label, &label_len))
            fail("the label is not UTF-8");
    }
    file = load(arguments[storing ? 2 : 1]);
    if (read_table(&file, &table)) {
        if (storing)
            done = store(&table, arguments[3]);
        else
            done = label ? list_label(&table, label, label_len) : comes_back(&table, &file);
    }
    free(label);
    free(file.bytes);
    free(table.contents);
    free(table.bodies);
    return done ? 0 : 1;
}
