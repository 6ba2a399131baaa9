/* UTF-8 to UTF-16, strictly: what is not the one spelling of a code point is refused, since a label with another char would list other
 * objects. And back for printing, where half of a pair that stands alone is printed as the replacement character. */
#include <stdio.h>

#include "label.h"

/* The bytes of the code point that begins here, or 0 where none does. The text's closing 0 ends every sequence that is cut. */
static size_t code_point(const unsigned char *bytes, uint32_t *point)
{
    static const uint32_t least[] = {0, 0, 0x80, 0x800, 0x10000};
    size_t length, i;

    if (bytes[0] < 0x80) {
        *point = bytes[0];
        return 1;
    }
    length = bytes[0] >= 0xF0 ? 4 : bytes[0] >= 0xE0 ? 3 : 2;
    if (bytes[0] < 0xC0 || bytes[0] >= 0xF8)
        return 0;
    *point = bytes[0] & (0x7Fu >> length);
    for (i = 1; i < length; i++) {
        if ((bytes[i] & 0xC0) != 0x80)
            return 0;
        *point = *point << 6 | (bytes[i] & 0x3F);
    }
    if (*point < least[length] || *point > 0x10FFFF || (*point >= 0xD800 && *point <= 0xDFFF))
        return 0;
    return length;
}

int label_of(const char *text, uint16_t *chars, size_t *count)
{
    const unsigned char *bytes = (const unsigned char *)text;
    uint32_t point;

    *count = 0;
    while (*bytes) {
        size_t length = code_point(bytes, &point);
        if (length == 0)
            return 0;
        bytes += length;
        if (point < 0x10000) {
            chars[(*count)++] = (uint16_t)point;
        } else {
            chars[(*count)++] = (uint16_t)(0xD800 + ((point - 0x10000) >> 10));
            chars[(*count)++] = (uint16_t)(0xDC00 + ((point - 0x10000) & 0x3FF));
        }
    }
    return 1;
}

static void print_point(uint32_t point)
{
    if (point < 0x80) {
        putchar((int)point);
        return;
    }
    if (point < 0x800) {
        putchar((int)(0xC0 | point >> 6));
    } else {
        if (point < 0x10000) {
            putchar((int)(0xE0 | point >> 12));
        } else {
            putchar((int)(0xF0 | point >> 18));
            putchar((int)(0x80 | (point >> 12 & 0x3F)));
        }
        putchar((int)(0x80 | (point >> 6 & 0x3F)));
    }
    putchar((int)(0x80 | (point & 0x3F)));
}

void print_chars(const uint32_t *chars, size_t count)
{
    size_t i;

    for (i = 0; i < count; i++) {
        uint32_t point = chars[i];
        if (point >= 0xD800 && point <= 0xDFFF) {
            int paired = point <= 0xDBFF && i + 1 < count && chars[i + 1] >= 0xDC00 && chars[i + 1] <= 0xDFFF;
            point = paired ? 0x10000 + ((point - 0xD800) << 10) + (chars[++i] - 0xDC00) : 0xFFFD;
        }
        print_point(point);
    }
}
