/* example.c: opens a text, makes calls and prints each line beside its answer. */
#include "tablet.h"

#include <stdio.h>
#include <string.h>

static uint32_t tables[TABLET_TABLES_WORDS];
static uint32_t processes[TABLET_PROCESSES_WORDS];
static uint8_t reply[TABLET_REPLY_BYTES];

static const char opening[] =
    "(node 1 (op 2 5 7) (dir 2 3))\n"
    "(node 2 (op 3 1 1))\n"
    "(process 1 1)\n"
    "(process 2 2)\n"
    "(process 3 2)\n"
    "(open)\n";

static const char *const lines[] = {
    "(1 hold 1)\n",             /* process 1 takes operation 5 of process 2: row 4 */
    "(1 port 4)\n",             /* a port to process 2: ends 5 and 6 */
    "(1 ask 5 (4 3))\n",        /* lends row 4 with rights 3: request 7, copy 8 */
    "(2 fetch 6)\n",            /* process 2 takes the request and the copy */
    "(2 port 8)\n",             /* and makes a port of its own with it */
    "(chain 9)\n",              /* how row 9, the client end of that port, came to be: text, held, lent, made */
    "(comesall (9 7) (4 7))\n", /* what comes from request 7: row 9 does, row 4 of process 1 does not */
    "(1 revoke 7)\n",           /* process 1 takes the loan back, and all that came from it */
    "(2 ask 9)\n",              /* the port of process 2 went with the loan */
    "(comesall (9 7) (4 7))\n", /* and of request 7 nothing is told any more */
};

static void print(const char *line, size_t answer) {
    printf("%-24.*s%.*s", (int)strcspn(line, "\n"), line, (int)answer, (const char *)reply);
}

int main(void) {
    size_t answer = tablet_open(tables, TABLET_TABLES_WORDS, processes, TABLET_PROCESSES_WORDS,
                                (const uint8_t *)opening, strlen(opening), reply, sizeof reply);
    print("the opening", answer);
    for (size_t i = 0; i < sizeof lines / sizeof *lines; i++) {
        answer = tablet_call(tables, TABLET_TABLES_WORDS, processes, TABLET_PROCESSES_WORDS,
                             (const uint8_t *)lines[i], strlen(lines[i]), reply, sizeof reply);
        print(lines[i], answer);
    }
    return 0;
}
