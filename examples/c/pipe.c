/* Tells whether a plan that comes over a pipe is good, piece by piece and without storing it: pipe [BYTES] <PLAN, with the most bytes that
 * are read at a time. */
#include <stdio.h>
#include <stdlib.h>

#include "jdr.h"

#define MOST 4096

static void fail(const char *message)
{
    fprintf(stderr, "%s\n", message);
    exit(2);
}

int main(int count, char **arguments)
{
    uint8_t piece[MOST];
    size_t length, most = 512;
    struct jdr_session session; /* opening does not mind what it holds */
    struct jdr_answer verdict;

    if (count == 2)
        most = strtoul(arguments[1], NULL, 10);
    if (count > 2 || most < 1 || most > MOST)
        fail("usage: pipe [BYTES] <PLAN, with 1 to 4096 bytes");
    jdr_session_open(&session);
    while ((length = fread(piece, 1, most, stdin)) > 0)
        jdr_session_piece(&session, piece, length);
    if (ferror(stdin))
        fail("the plan cannot be read");
    verdict = jdr_session_verdict(&session);
    printf("verdict: %u %u %u %u\n", (unsigned)verdict.number, (unsigned)verdict.offset, (unsigned)verdict.rows, (unsigned)verdict.words);
    return verdict.number == JDR_ACCEPTED ? 0 : 1;
}
