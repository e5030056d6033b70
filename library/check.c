/* check.c: what tablet.h promises of lengths, short replies, bytes after an answer, pairs, pages, texts that are joined
 * and the stack, each checked once. */
#include "tablet.h"

#include <stdio.h>
#include <string.h>
#include <ucontext.h>

static uint32_t tables[TABLET_TABLES_WORDS + 1], tables_before[TABLET_TABLES_WORDS + 1];
static uint32_t processes[TABLET_PROCESSES_WORDS + 1], processes_before[TABLET_PROCESSES_WORDS + 1];
static uint8_t reply[TABLET_REPLY_BYTES + 1];
static int passed, failed;

static void check(const char *what, int holds) {
    if (holds) {
        passed++;
    } else {
        failed++;
        printf("fails: %s\n", what);
    }
}

static size_t open_text(size_t tables_len, size_t processes_len, const char *text, size_t reply_len) {
    memset(reply, '#', sizeof reply);
    return tablet_open(tables, tables_len, processes, processes_len, (const uint8_t *)text, strlen(text), reply, reply_len);
}

static size_t call(size_t tables_len, size_t processes_len, const char *line, size_t reply_len) {
    memset(reply, '#', sizeof reply);
    memcpy(tables_before, tables, sizeof tables);
    memcpy(processes_before, processes, sizeof processes);
    return tablet_call(tables, tables_len, processes, processes_len, (const uint8_t *)line, strlen(line), reply, reply_len);
}

/* the answer is this line, and every byte after it is as it was */
static int answered(size_t length, const char *line) {
    if (length != strlen(line) || memcmp(reply, line, length) != 0)
        return 0;
    for (size_t i = length; i < sizeof reply; i++)
        if (reply[i] != '#')
            return 0;
    return 1;
}

static int unchanged(void) {
    return memcmp(tables, tables_before, sizeof tables) == 0 && memcmp(processes, processes_before, sizeof processes) == 0;
}

static int all(const uint32_t *words, size_t length, uint32_t value) {
    for (size_t i = 0; i < length; i++)
        if (words[i] != value)
            return 0;
    return 1;
}

static void openings(void) {
    const size_t t = TABLET_TABLES_WORDS, p = TABLET_PROCESSES_WORDS;
    memset(tables, 0xff, sizeof tables);
    memset(processes, 0xff, sizeof processes);
    check("a reply of 255 bytes: 0", open_text(t, p, "(open)\n", 255) == 0 && answered(0, ""));
    check("and nothing is written", all(tables, t, 0xffffffff) && all(processes, p, 0xffffffff));
    check("an opening with other words before", answered(open_text(t, p, "(open)\n", 256), "(ok 0)\n"));
    check("leaves empty tables, next number 1", all(tables, t - 1, 0) && tables[t - 1] == 1 && all(processes, p, 0));
    check("the word after the tables is not touched", tables[t] == 0xffffffff && processes[p] == 0xffffffff);
    check("a refused opening", answered(open_text(t, p, "(node 1)\n(node 1)\n(open)\n", 257), "(no 4 2)\n"));
    check("no text", answered(open_text(t, p, "", 256), "(no 2 1)\n"));
    check("a run too long", answered(open_text(t + 1, p, "(open)\n", 256), "(no 1 0)\n"));
    check("is set to 0", all(tables, t + 1, 0));
    check("a run too short", answered(open_text(t, p - 1, "(open)\n", 256), "(no 1 0)\n"));
    check("and the other run is that of empty tables", all(tables, t - 1, 0) && tables[t - 1] == 1);
    check("no words", answered(open_text(0, 0, "(open)\n", 256), "(no 1 0)\n"));
}

static void calls(void) {
    const size_t t = TABLET_TABLES_WORDS, p = TABLET_PROCESSES_WORDS;
    const char *text = "(node 1 (op 1 0 7))\n(process 1 1)\n(open)\nwhat follows does not matter";
    check("an opening", answered(open_text(t, p, text, 256), "(ok 0)\n"));
    check("a reply of no bytes: 0", call(t, p, "(1 hold 1)\n", 0) == 0 && answered(0, "") && unchanged());
    check("a call", answered(call(t, p, "(1 hold 1)\n", 256), "(ok 2)\n") && !unchanged());
    check("a refused call", answered(call(t, p, "(1 hold 2)\n", 256), "(no 7)\n") && unchanged());
    check("a line without its line feed", answered(call(t, p, "(1 hold 1)", 256), "(no 2)\n") && unchanged());
    check("a word that is no call", answered(call(t, p, "(1 give 2)\n", 256), "(no 2)\n") && unchanged());
    check("an answer with 2", answered(call(t, p, "(1 answer 2 2)\n", 256), "(no 3)\n") && unchanged());
    check("no line", answered(call(t, p, "", 256), "(no 2)\n") && unchanged());
    check("a run too short", answered(call(t - 1, p, "(1 hold 1)\n", 256), "(no 1)\n") && unchanged());
    check("a run too long", answered(call(t, p + 1, "(1 hold 1)\n", 256), "(no 1)\n") && unchanged());
    check("no words", answered(call(0, 0, "(1 hold 1)\n", 256), "(no 1)\n") && unchanged());
    tables[4 * 1024] = 8; /* the rights of the first row */
    check("words that are not sound", answered(call(t, p, "(1 hold 1)\n", 256), "(no 1)\n") && unchanged());
}

/* every call, answer with 1 and with 0, so that the stack of each is seen */
static void thirteen(void) {
    static const char *const lines[] = {
        "(1 hold 1)\n",      "(1 port 2)\n",  "(1 ask 3 (2 7))\n", "(1 fetch 4)\n",    "(1 port 6)\n",
        "(comes 7 5)\n",     "(1 revoke 5)\n", "(1 port 2)\n",      "(1 ask 9)\n",      "(1 fetch 10)\n",
        "(1 answer 10 1)\n", "(1 ask 9)\n",   "(1 answer 10 0)\n", "(1 close 9)\n",    "(1 go 0)\n",
        "(1 register 2)\n",  "(1 hold 1)\n",  "(1 drop 14)\n",     "(chain 13)\n",     "(comesall (13 5))\n",
    };
    const char *text = "(node 1 (op 1 0 7))\n(process 1 1)\n(open)\n";
    open_text(TABLET_TABLES_WORDS, TABLET_PROCESSES_WORDS, text, 256);
    for (size_t i = 0; i < sizeof lines / sizeof *lines; i++) {
        call(TABLET_TABLES_WORDS, TABLET_PROCESSES_WORDS, lines[i], 256);
        check(lines[i], memcmp(reply, "(ok ", 4) == 0);
    }
}

/* a fetch of five numbers of ten digits, the last number among them */
static void last_number(void) {
    static const char *const lines[] = {
        "(1 hold 1)\n",
        "(1 hold 1)\n",
        "(1 hold 1)\n",
        "(1 hold 1)\n",
        "(1 port 4294967284)\n",
        "(1 ask 4294967288 (4294967284 7) (4294967285 7) (4294967286 7) (4294967287 7))\n",
    };
    const size_t t = TABLET_TABLES_WORDS, p = TABLET_PROCESSES_WORDS;
    open_text(t, p, "(node 1 (op 1 0 7))\n(process 1 1)\n(open)\n", 256);
    tables[t - 1] = 4294967284; /* the next number */
    for (size_t i = 0; i < sizeof lines / sizeof *lines; i++)
        call(t, p, lines[i], 256);
    check("the longest fetch", answered(call(t, p, "(1 fetch 4294967289)\n", 256),
                                        "(ok 4294967290 4294967291 4294967292 4294967293 4294967294)\n"));
    check("no number is left", answered(call(t, p, "(1 hold 1)\n", 256), "(no 18)\n") && unchanged());
    check("a number above the last", answered(call(t, p, "(1 hold 4294967295)\n", 256), "(no 3)\n") && unchanged());
}

/* the longest answer: a chain of twelve numbers of ten digits, made by registering again and again what was held; the
 * row of the text gets a number of ten digits too */
static void longest(void) {
    const size_t t = TABLET_TABLES_WORDS, p = TABLET_PROCESSES_WORDS;
    unsigned long row = 4294967272;
    char line[32], chain[TABLET_REPLY_BYTES];
    open_text(t, p, "(node 1 (op 1 0 7))\n(process 1 1)\n(open)\n", 256);
    tables[0] = row;         /* the number of the first row */
    tables[t - 1] = row + 1; /* the next number */
    int end = sprintf(chain, "(ok %lu", row);
    for (int i = 1; i < 12; i++) {
        sprintf(line, "(1 hold %lu)\n", row);
        call(t, p, line, 256);
        sprintf(line, "(1 register %lu)\n", row + 1);
        call(t, p, line, 256);
        row += 2;
        end += sprintf(chain + end, " %lu", row);
    }
    sprintf(chain + end, ")\n");
    sprintf(line, "(chain %lu)\n", row);
    check("the longest answer", answered(call(t, p, line, 256), chain) && unchanged());
    check("has 137 bytes", strlen(chain) == 137);
    check("a chain of no row", answered(call(t, p, "(chain 1)\n", 256), "(no 7)\n") && unchanged());
}

/* sixteen pairs: the copy that request 100003 lends, twice row 1, which does not come from it, and one in the middle */
static void sixteen(char *line, const char *middle) {
    strcpy(line, "(comesall");
    for (int i = 0; i < TABLET_MOST_PAIRS; i++) {
        const char *pair = i == 3 || i == 15 ? " (1 100003)" : " (100004 100003)";
        strcat(line, i == 8 ? middle : pair);
    }
    strcat(line, ")\n");
}

/* the longest line of a comesall and its longest answer, which has a - in the middle; then one digit more */
static void most_pairs(void) {
    const size_t t = TABLET_TABLES_WORDS, p = TABLET_PROCESSES_WORDS;
    char line[TABLET_LINE_BYTES + 32];
    open_text(t, p, "(node 1 (op 1 0 7))\n(process 1 1)\n(open)\n", 256);
    tables[t - 1] = 100000; /* the next number */
    call(t, p, "(1 hold 1)\n", 256);
    call(t, p, "(1 port 100000)\n", 256);
    call(t, p, "(1 ask 100001 (100000 7))\n", 256);
    sixteen(line, " (4294967294 9)");
    check("sixteen pairs", answered(call(t, p, line, 256), "(ok 1 1 1 0 1 1 1 1 - 1 1 1 1 1 1 0)\n") && unchanged());
    check("of 255 bytes, answered in 37", strlen(line) == TABLET_LINE_BYTES + 1 && call(t, p, line, 256) == 37);
    sixteen(line, " (4294967294 10)");
    check("of 256 bytes", answered(call(t, p, line, 256), "(no 2)\n") && unchanged());
}

/* pairs of one digit: how many there may be, and which refusal comes first */
static void pairs(void) {
    const size_t t = TABLET_TABLES_WORDS, p = TABLET_PROCESSES_WORDS;
    char line[TABLET_LINE_BYTES + 1] = "(comesall";
    open_text(t, p, "(node 1 (op 1 0 7))\n(process 1 1)\n(open)\n", 256);
    check("no pair", answered(call(t, p, "(comesall)\n", 256), "(no 2)\n") && unchanged());
    check("a caller", answered(call(t, p, "(1 comesall (1 1))\n", 256), "(no 2)\n") && unchanged());
    check("no request is open", answered(call(t, p, "(comesall (1 1))\n", 256), "(ok -)\n") && unchanged());
    for (int i = 0; i < TABLET_MOST_PAIRS; i++)
        strcat(line, " (1 1)");
    char *end = line + strlen(line);
    strcpy(end, " (1 1))\n");
    check("seventeen pairs", answered(call(t, p, line, 256), "(no 6)\n") && unchanged());
    strcpy(end, " (1 0))\n");
    check("the last out of range", answered(call(t, p, line, 256), "(no 3)\n") && unchanged());
}

/* ---- the page */
static uint8_t page[TABLET_PAGE_BYTES + 1];

/* every kind; a node, a process of one digit and one of two, the system */
static const char *const sheet[] = {
    "         1 op     node 1    7  1                                \n",
    "         2 dir    node 1    3  1                                \n",
    "         3 op     proc 1    7  2                                \n",
    "         4 client proc 1    0  3                                \n",
    "         5 server proc 64   0  3                                \n",
    "         7 op     system    3  4                                \n",
};

#define SHEET_ROWS (sizeof sheet / sizeof *sheet)

static size_t page_from(size_t tables_len, size_t from, size_t page_len) {
    memset(page, '#', sizeof page);
    memcpy(tables_before, tables, sizeof tables);
    return tablet_page(tables, tables_len, from, page, page_len);
}

/* the lines of the sheet from one on, so many, and every byte after them is as it was; no word is another */
static int shows(size_t length, size_t from, size_t count) {
    if (length != count * TABLET_PAGE_LINE_BYTES || memcmp(tables, tables_before, sizeof tables) != 0)
        return 0;
    for (size_t i = 0; i < count; i++)
        if (memcmp(page + i * TABLET_PAGE_LINE_BYTES, sheet[from + i], TABLET_PAGE_LINE_BYTES) != 0)
            return 0;
    for (size_t i = length; i < sizeof page; i++)
        if (page[i] != '#')
            return 0;
    return 1;
}

/* a sheet of six rows: at once, line by line, in room for less, from rows that are not there, of other lengths */
static void pages(void) {
    const size_t t = TABLET_TABLES_WORDS, p = TABLET_PROCESSES_WORDS, line = TABLET_PAGE_LINE_BYTES;
    open_text(t, p, "(node 1 (op 64 0 7) (dir 1 3))\n(process 1 1)\n(process 64 1)\n(open)\n", 256);
    call(t, p, "(1 hold 1)\n", 256);
    call(t, p, "(1 port 3)\n", 256);
    call(t, p, "(1 ask 4 (3 3))\n", 256);
    check("a page", shows(page_from(t, 0, TABLET_PAGE_BYTES), 0, SHEET_ROWS));
    check("in room for it alone", shows(page_from(t, 0, SHEET_ROWS * line), 0, SHEET_ROWS));
    for (size_t i = 0; i < SHEET_ROWS; i++)
        check("line by line", shows(page_from(t, i, line), i, 1));
    check("no row is left", shows(page_from(t, SHEET_ROWS, line), 0, 0));
    check("from far on", shows(page_from(t, SIZE_MAX, TABLET_PAGE_BYTES), 0, 0));
    check("no room for a line", shows(page_from(t, 0, line - 1), 0, 0) && shows(page_from(t, 0, 0), 0, 0));
    check("room for two and a part", shows(page_from(t, 1, 3 * line - 1), 1, 2));
    check("tables too short", shows(page_from(t - 1, 0, TABLET_PAGE_BYTES), 0, 0));
    check("tables too long", shows(page_from(t + 1, 0, TABLET_PAGE_BYTES), 0, 0));
    check("no tables", shows(page_from(0, 0, TABLET_PAGE_BYTES), 0, 0));
    open_text(t, p, "(node 1)\n(node 1)\n(open)\n", 256);
    check("after a refused opening", shows(page_from(t, 0, TABLET_PAGE_BYTES), 0, 0));
}

/* words that are not sound, every slot in use */
static void any_page(void) {
    const char *widest = "4294967295                 95 95                                \n";
    memset(tables, 0xff, sizeof tables);
    size_t length = page_from(TABLET_TABLES_WORDS, 0, TABLET_PAGE_BYTES + 1);
    check("the longest page", length == TABLET_PAGE_BYTES && page[length] == '#');
    int same = 1;
    for (size_t at = 0; at < length; at += TABLET_PAGE_LINE_BYTES)
        same &= memcmp(page + at, widest, TABLET_PAGE_LINE_BYTES) == 0;
    check("of words of any content", same);
}

/* ---- two texts joined */
static uint8_t joined[TABLET_JOINED_BYTES + 1];

static size_t join(const char *texts, size_t out_len) {
    memset(joined, '#', sizeof joined);
    return tablet_join((const uint8_t *)texts, strlen(texts), joined, out_len);
}

/* what is written is this, and every byte after it is as it was */
static int joins(size_t length, const char *text) {
    if (length != strlen(text) || memcmp(joined, text, length) != 0)
        return 0;
    for (size_t i = length; i < sizeof joined; i++)
        if (joined[i] != '#')
            return 0;
    return 1;
}

static void two_texts(void) {
    const size_t room = TABLET_JOINED_BYTES;
    const char *texts = "(process 2 2)\n(node 1 (op 2 1 7))\n(open)\n"
                        "(node 2)\n(node 1 (dir 2 3) (op 2 1 7))\n(open)\nwhat follows does not matter";
    const char *one = "(node 1 (op 2 1 7) (dir 2 3))\n(node 2)\n(process 2 2)\n(open)\n";
    check("two texts joined", joins(join(texts, room), one));
    check("in more room", joins(join(texts, room + 1), one));
    check("in less room: 0", joins(join(texts, room - 1), "") && joins(join(texts, 256), ""));
    check("in no room: 0", joins(join(texts, 0), ""));
    check("and it opens", answered(open_text(TABLET_TABLES_WORDS, TABLET_PROCESSES_WORDS, one, 256), "(ok 0)\n"));
    check("two empty texts", joins(join("(open)\n(open)\n", room), "(open)\n"));
    check("no text", joins(join("", room), "(no 2 1)\n"));
    check("one text", joins(join("(node 1)\n(open)\n", room), "(no 2 1)\n"));
    check("a line of the first text", joins(join("(node 1)\n(node 33)\n(open)\n(open)\n", room), "(no 3 2)\n"));
    check("a line of the second text", joins(join("(node 1)\n(open)\n(node 1)\n(node 1)\n", room), "(no 4 2)\n"));
    check("a name that is missing", joins(join("(process 1 1)\n(open)\n(open)\n", room), "(no 5)\n"));
    check("two prime nodes", joins(join("(node 1)\n(node 2)\n(process 1 1)\n(open)\n(process 1 2)\n(open)\n", room),
                                   "(no 20)\n"));
}

/* the largest text, with entries of these rights: 32 nodes of 16 entries, 64 processes */
static int add_text(char *text, int rights) {
    int end = 0;
    for (int node = 1; node <= 32; node++) {
        end += sprintf(text + end, "(node %d", node);
        for (int entry = 0; entry < 16; entry++)
            end += sprintf(text + end, " (op 64 %d %d)", 240 + entry, rights);
        end += sprintf(text + end, ")\n");
    }
    for (int process = 1; process <= 64; process++)
        end += sprintf(text + end, "(process %d 32)\n", process);
    return end + sprintf(text + end, "(open)\n");
}

static void largest_texts(void) {
    static char texts[TABLET_JOINED_BYTES], one[TABLET_JOINED_BYTES];
    int length = add_text(one, 7);
    add_text(texts + add_text(texts, 7), 7);
    check("the longest text", length == 8501 && joins(join(texts, TABLET_JOINED_BYTES), one));
    add_text(texts + add_text(texts, 7), 6);
    check("too many entries", joins(join(texts, TABLET_JOINED_BYTES), "(no 6)\n"));
}

/* ---- the stack */
/* a stack of its own, filled with a pattern, shows how much of it was used */
static unsigned char stack[4 * TABLET_STACK_BYTES];
static ucontext_t here, there;

static void on_that_stack(void) {
    openings();
    calls();
    thirteen();
    last_number();
    longest();
    most_pairs();
    pairs();
    pages();
    any_page();
    two_texts();
    largest_texts();
}

static size_t stack_used(void) {
    memset(stack, 0xa5, sizeof stack);
    getcontext(&there);
    there.uc_stack.ss_sp = stack;
    there.uc_stack.ss_size = sizeof stack;
    there.uc_link = &here;
    makecontext(&there, on_that_stack, 0);
    swapcontext(&here, &there);
    size_t unused = 0;
    while (unused < sizeof stack && stack[unused] == 0xa5)
        unused++;
    return sizeof stack - unused;
}

int main(void) {
    size_t used = stack_used();
    printf("%lu bytes of stack used\n", (unsigned long)used);
    check("the stack that tablet.h names suffices", used <= TABLET_STACK_BYTES);
    printf("%d passed, %d failed\n", passed, failed);
    return failed != 0;
}
