/* Every call on threads: with the stack that desk.h says it needs, and side by side. The inputs are as long as they can be, good and
   refused. Usage: threads_test samples/case-l.txt. Ends non-zero at the first thing that is not as it should be. */
#define _POSIX_C_SOURCE 200809L

#include "company.h"
#include "desk.h"

#include <inttypes.h>
#include <pthread.h>
#include <stdio.h>
#include <stdlib.h>
#include <string.h>

#define OPENING 250630, false, members, 3
#define FIGURES (SHAYDHOQEL_FIGURES * SHAYDHOQEL_ENTITIES)

/* An identifier for each digit and capital. */
#define FILES 36
#define IDENTIFIERS "0123456789ABCDEFGHIJKLMNOPQRSTUVWXYZ"
/* Records of the longest file. */
#define RECORDS 10000

/* Bytes of a stack that the call leaves to the thread and its caller; the stack on which that is measured, and what it is filled with. */
#define MARGIN 16384
#define MEASURED 1048576
#define PAINT 0x5a

#define SIDE_BY_SIDE 8

static const uint64_t members[] = {401, 402, 403};
static uint8_t header[SHAYDHOQEL_RECORD];

/* A tray of one batch, of many, and one too long; the files that the first two give, and the first in copies with an identifier each. */
static uint8_t tray[9997 * SHAYDHOQEL_TRAY_RECORD], many_tray[6664 * SHAYDHOQEL_TRAY_RECORD], long_tray[SHAYDHOQEL_TRAY_ROOM];
static uint8_t file[SHAYDHOQEL_FILE_LIMIT], many[SHAYDHOQEL_FILE_LIMIT], files[FILES * SHAYDHOQEL_FILE_LIMIT];
static size_t many_length;

/* Of many batches, with a first number above the others: all numbers have to be looked at. And its extract. */
static uint8_t fallen[SHAYDHOQEL_FILE_LIMIT], fallen_handed[SHAYDHOQEL_FILE_LIMIT];
#define FIRST_NUMBER (2 * SHAYDHOQEL_RECORD + 87)
#define HIGHEST_NUMBER "9999999"

/* An extract of rejections, from a tray of as many as can be, every other with a text of its own; and a motive list. */
static uint8_t rejected[9997 * SHAYDHOQEL_TRAY_RECORD], returned[SHAYDHOQEL_FILE_LIMIT], motives[SHAYDHOQEL_MOTIVES];
static uint64_t ends[FILES];

/* A company's file whose tray takes SHAYDHOQEL_TRAY_ROOM, and its LO body. */
#define DETAILS 9999
static uint8_t company[(DETAILS + 1) * SHAYDHOQEL_COMPANY_RECORD], lo[SHAYDHOQEL_RECORD];

/* What makes a record refused, by a byte at a position from 1. */
struct fault {
    size_t position;
    char byte;
    uint64_t number;
};

/* The last detail of the company's file. */
static const struct fault company_faults[] = {
    {1, 'T', SHAYDHOQEL_REFUSED_FORMAT},   {34, 'X', SHAYDHOQEL_REFUSED_FORMAT},    {58, ' ', SHAYDHOQEL_REFUSED_FORMAT},
    {34, '9', SHAYDHOQEL_REFUSED_FORMAT},  {80, 'x', SHAYDHOQEL_REFUSED_FORMAT},    {103, 'x', SHAYDHOQEL_REFUSED_FORMAT},
    {104, ' ', SHAYDHOQEL_REFUSED_AMOUNT}, {115, '2', SHAYDHOQEL_REFUSED_CURRENCY}, {26, '9', SHAYDHOQEL_REFUSED_DATE},
};
#define COMPANY_FAULTS (sizeof company_faults / sizeof company_faults[0])

/* The last individual but one of a file. */
static const struct fault faults[] = {
    {2, '9', SHAYDHOQEL_REFUSED_FORMAT},    {4, '9', SHAYDHOQEL_REFUSED_FORMAT},       {5, '0', SHAYDHOQEL_REFUSED_ROSTER},
    {12, '1', SHAYDHOQEL_REFUSED_RESERVED}, {13, 'X', SHAYDHOQEL_REFUSED_ACCOUNT},     {30, ' ', SHAYDHOQEL_REFUSED_AMOUNT},
    {55, 'x', SHAYDHOQEL_REFUSED_FORMAT},   {77, '1', SHAYDHOQEL_REFUSED_INFORMATION}, {79, '1', SHAYDHOQEL_REFUSED_ADDITIONAL},
    {86, '9', SHAYDHOQEL_REFUSED_COUNTER},
};
#define FAULTS (sizeof faults / sizeof faults[0])
#define FAULTY 9997

/* The last rejection of the extract, whose additional stands behind it. */
#define LAST_REJECTION 9996

/* What a thread lends, its own. */
struct lent {
    uint8_t out[SHAYDHOQEL_TRAY_ROOM], listing[SHAYDHOQEL_LISTING];
    uint8_t changed[sizeof company];
    uint64_t answers[2 * FILES];
    int64_t figures[FIGURES];
    uint64_t texts[2 * RECORDS];
};

/* No assert: that may be compiled out. */
static void require(bool holds, const char *what, int line) {
    if (!holds) {
        fprintf(stderr, "threads_test.c:%d: not so: %s\n", line, what);
        exit(1);
    }
}
#define REQUIRE(what) require((what), #what, __LINE__)

/* Answers and buffers as one number. */
static void add(uint64_t *sum, const void *bytes, size_t length) {
    for (size_t i = 0; i < length; i++) {
        *sum = (*sum ^ ((const uint8_t *)bytes)[i]) * UINT64_C(0x100000001b3);
    }
}

static void heard(uint64_t *sum, struct shaydhoqel_spoken answer, uint64_t number, uint64_t place) {
    REQUIRE(answer.number == number && answer.place == place);
    add(sum, &answer, sizeof answer);
}

/* A copy of the file with one fault. */
static void put_fault(size_t i, struct lent *lent) {
    memcpy(lent->changed, file, sizeof file);
    lent->changed[FAULTY * SHAYDHOQEL_RECORD + faults[i].position - 1] = (uint8_t)faults[i].byte;
}

static uint64_t place_of(size_t i) {
    /* an additional that is announced is missed at the record behind */
    return faults[i].number == SHAYDHOQEL_REFUSED_ADDITIONAL ? FAULTY + 1 : FAULTY;
}

/* The first individual of a file gets that number. */
static void put_fall(uint8_t *changed) {
    memcpy(changed + FIRST_NUMBER, HIGHEST_NUMBER, sizeof HIGHEST_NUMBER - 1);
}

/* ---- the jobs: every call with its answers, in one number */

static uint64_t job_read(struct lent *lent) {
    uint64_t sum = 0;
    heard(&sum, shaydhoqel_read(OPENING, file, sizeof file), 0, RECORDS);
    heard(&sum, shaydhoqel_read(OPENING, many, many_length), 0, many_length / SHAYDHOQEL_RECORD);
    heard(&sum, shaydhoqel_read(OPENING, fallen, many_length), 0, many_length / SHAYDHOQEL_RECORD);
    heard(&sum, shaydhoqel_read(OPENING, files, sizeof file + 1), SHAYDHOQEL_REFUSED_LENGTH, 0);
    heard(&sum, shaydhoqel_read(OPENING, file, sizeof file - SHAYDHOQEL_RECORD), SHAYDHOQEL_REFUSED_FORMAT, 9999);
    heard(&sum, shaydhoqel_read(250630, true, members, 3, file, sizeof file), SHAYDHOQEL_REFUSED_CURRENCY, 0);
    heard(&sum, shaydhoqel_read(250629, false, members, 3, file, sizeof file), SHAYDHOQEL_REFUSED_DATE, 0);
    heard(&sum, shaydhoqel_read(250631, false, members, 3, file, sizeof file), SHAYDHOQEL_REFUSED_DATE, SHAYDHOQEL_OPENING);
    for (size_t i = 0; i < FAULTS; i++) {
        put_fault(i, lent);
        heard(&sum, shaydhoqel_read(OPENING, lent->changed, sizeof file), faults[i].number, place_of(i));
    }
    return sum;
}

static uint64_t job_day(struct lent *lent) {
    uint64_t sum = 0;
    heard(&sum, shaydhoqel_day(OPENING, ends, FILES, files, sizeof files, lent->answers, 2 * FILES, lent->figures, FIGURES), 0, 0);
    add(&sum, lent->answers, sizeof lent->answers);
    add(&sum, lent->figures, sizeof lent->figures);
    for (size_t i = 0; i < 2 * FILES; i++) {
        REQUIRE(lent->answers[i] == 0);
    }
    REQUIRE(lent->figures[SHAYDHOQEL_RECEIVED * SHAYDHOQEL_ENTITIES + 402] == FILES * 9996);
    const uint64_t end = many_length;
    heard(&sum, shaydhoqel_day(OPENING, &end, 1, fallen, many_length, lent->answers, 2, NULL, 0), 0, 0);
    REQUIRE(lent->answers[0] == 0 && lent->answers[1] == 0);
    for (size_t i = 0; i < FAULTS; i++) {
        put_fault(i, lent);
        heard(&sum, shaydhoqel_day(OPENING, ends, 1, lent->changed, sizeof file, lent->answers, 2, NULL, 0), 0, 0);
        REQUIRE(lent->answers[0] == faults[i].number && lent->answers[1] == place_of(i));
    }
    heard(&sum, shaydhoqel_day(250630, false, ends, FILES, ends, FILES, NULL, 0, NULL, 0, NULL, 0), SHAYDHOQEL_REFUSED_ENTITY,
          SHAYDHOQEL_OPENING);
    return sum;
}

static uint64_t job_day_listing(struct lent *lent) {
    uint64_t sum = 0;
    struct shaydhoqel_spoken answer = shaydhoqel_day_listing(OPENING, ends, FILES, files, sizeof files, lent->listing);
    heard(&sum, answer, 0, answer.place);
    add(&sum, lent->listing, sizeof lent->listing);
    const uint64_t end = many_length;
    answer = shaydhoqel_day_listing(OPENING, &end, 1, fallen, many_length, lent->listing);
    heard(&sum, answer, 0, answer.place);
    add(&sum, lent->listing, sizeof lent->listing);
    put_fault(0, lent);
    answer = shaydhoqel_day_listing(OPENING, ends, 1, lent->changed, sizeof file, lent->listing);
    heard(&sum, answer, 0, strlen("ENTITY SENT RECEIVED NET\nSUM 0 0 0\n"));
    return sum;
}

static uint64_t job_listing(struct lent *lent) {
    const size_t lengths[] = {0, 188, 65424, sizeof file};
    uint64_t sum = 0;
    for (size_t i = 0; i < sizeof lengths / sizeof lengths[0]; i++) {
        uint64_t length = shaydhoqel_listing(file, lengths[i], lent->listing);
        add(&sum, lent->listing, length);
    }
    /* as much as it takes, and accepted */
    const size_t tray_length = 693 * SHAYDHOQEL_TRAY_RECORD;
    struct shaydhoqel_spoken built = shaydhoqel_build(OPENING, header, sizeof header, tray, tray_length, lent->out, sizeof lent->out);
    heard(&sum, built, 0, 65424);
    uint64_t length = shaydhoqel_listing(lent->out, 65424, lent->listing);
    REQUIRE(memcmp(lent->listing, "ENTITY", 6) == 0);
    add(&sum, lent->listing, length);
    /* and of many batches, fallen */
    const size_t batches = 231, many_length = (2 + 3 * batches) * SHAYDHOQEL_RECORD;
    built = shaydhoqel_build(OPENING, header, sizeof header, many_tray, 2 * batches * SHAYDHOQEL_TRAY_RECORD, lent->out, sizeof file);
    heard(&sum, built, 0, many_length);
    put_fall(lent->out);
    length = shaydhoqel_listing(lent->out, many_length, lent->listing);
    REQUIRE(memcmp(lent->listing, "ENTITY", 6) == 0);
    add(&sum, lent->listing, length);
    return sum;
}

static uint64_t job_extract(struct lent *lent) {
    uint64_t sum = 0;
    heard(&sum, shaydhoqel_extract(OPENING, 402, file, sizeof file, lent->out, sizeof file), 0, sizeof file);
    heard(&sum, shaydhoqel_extract(OPENING, 402, many, many_length, lent->out, many_length), 0, many_length);
    heard(&sum, shaydhoqel_extract(OPENING, 403, many, many_length, lent->out, many_length), 0, 2 * SHAYDHOQEL_RECORD);
    heard(&sum, shaydhoqel_extract(OPENING, 402, fallen, many_length, lent->out, many_length), 0, many_length);
    add(&sum, lent->out, many_length);
    heard(&sum, shaydhoqel_extract(OPENING, 402, file, sizeof file, lent->out, sizeof file - 1), SHAYDHOQEL_REFUSED_ROOM, 0);
    heard(&sum, shaydhoqel_extract(OPENING, 404, file, sizeof file, lent->out, sizeof file), SHAYDHOQEL_REFUSED_ENTITY, 0);
    for (size_t i = 0; i < FAULTS; i++) {
        put_fault(i, lent);
        heard(&sum, shaydhoqel_extract(OPENING, 402, lent->changed, sizeof file, lent->out, sizeof file), faults[i].number, place_of(i));
    }
    return sum;
}

static uint64_t job_build(struct lent *lent) {
    uint64_t sum = 0;
    heard(&sum, shaydhoqel_build(OPENING, header, sizeof header, tray, sizeof tray, lent->out, sizeof file), 0, sizeof file);
    heard(&sum, shaydhoqel_build(OPENING, header, sizeof header, many_tray, sizeof many_tray, lent->out, sizeof file), 0, many_length);
    add(&sum, lent->out, sizeof file);
    heard(&sum, shaydhoqel_build(OPENING, header, sizeof header, long_tray, sizeof long_tray, lent->out, sizeof lent->out),
          SHAYDHOQEL_REFUSED_LENGTH, 0);
    heard(&sum, shaydhoqel_build(OPENING, header, sizeof header, tray, sizeof tray, lent->out, sizeof file - 1),
          SHAYDHOQEL_REFUSED_ROOM, 0);
    /* the last record: its mark, then an amount of nothing */
    memcpy(lent->changed, tray, sizeof tray);
    uint8_t *last = lent->changed + sizeof tray - SHAYDHOQEL_TRAY_RECORD;
    last[0] = 'X';
    heard(&sum, shaydhoqel_build(OPENING, header, sizeof header, lent->changed, sizeof tray, lent->out, sizeof file),
          SHAYDHOQEL_REFUSED_TRAY, 9996);
    last[0] = 'I';
    memset(last + 31, '0', 10);
    heard(&sum, shaydhoqel_build(OPENING, header, sizeof header, lent->changed, sizeof tray, lent->out, sizeof file),
          SHAYDHOQEL_REFUSED_AMOUNT, 9997);
    add(&sum, lent->out, sizeof file);
    return sum;
}

static uint64_t job_strip(struct lent *lent) {
    uint64_t sum = 0;
    heard(&sum, shaydhoqel_strip(OPENING, file, sizeof file, lent->out, sizeof lent->out), 0, sizeof tray);
    heard(&sum, shaydhoqel_strip(OPENING, many, many_length, lent->out, sizeof lent->out), 0, sizeof many_tray);
    heard(&sum, shaydhoqel_strip(OPENING, fallen, many_length, lent->out, sizeof lent->out), 0, sizeof many_tray);
    add(&sum, lent->out, sizeof lent->out);
    heard(&sum, shaydhoqel_strip(OPENING, file, sizeof file, lent->out, sizeof tray - 1), SHAYDHOQEL_REFUSED_ROOM, 0);
    for (size_t i = 0; i < FAULTS; i++) {
        put_fault(i, lent);
        heard(&sum, shaydhoqel_strip(OPENING, lent->changed, sizeof file, lent->out, sizeof lent->out), faults[i].number, place_of(i));
    }
    return sum;
}

static uint64_t job_company(struct lent *lent) {
    uint64_t sum = 0;
    heard(&sum, shaydhoqel_company(false, lo, sizeof lo, company, sizeof company, lent->out, sizeof lent->out), 0, sizeof lent->out);
    add(&sum, lent->out, sizeof lent->out);
    heard(&sum, shaydhoqel_company(false, lo, sizeof lo, company, sizeof company, lent->out, sizeof lent->out - 1),
          SHAYDHOQEL_REFUSED_ROOM, 0);
    heard(&sum, shaydhoqel_company(false, lo, sizeof lo, company, sizeof company - 1, lent->out, sizeof lent->out),
          SHAYDHOQEL_REFUSED_LENGTH, 0);
    heard(&sum, shaydhoqel_company(false, lo, sizeof lo - 1, company, sizeof company, lent->out, sizeof lent->out),
          SHAYDHOQEL_REFUSED_TRAY, 0);
    /* without its closing record */
    heard(&sum, shaydhoqel_company(false, lo, sizeof lo, company, sizeof company - SHAYDHOQEL_COMPANY_RECORD, lent->out, sizeof lent->out),
          SHAYDHOQEL_REFUSED_FORMAT, DETAILS - 1);
    for (size_t i = 0; i < COMPANY_FAULTS; i++) {
        memcpy(lent->changed, company, sizeof company);
        lent->changed[(DETAILS - 1) * SHAYDHOQEL_COMPANY_RECORD + company_faults[i].position - 1] = (uint8_t)company_faults[i].byte;
        heard(&sum, shaydhoqel_company(false, lo, sizeof lo, lent->changed, sizeof company, lent->out, sizeof lent->out),
              company_faults[i].number, DETAILS - 1);
    }
    return sum;
}

static uint64_t job_receive(struct lent *lent) {
    uint64_t sum = 0;
    heard(&sum, shaydhoqel_receive(OPENING, 402, returned, sizeof returned), 0, RECORDS);
    heard(&sum, shaydhoqel_receive(OPENING, 402, fallen_handed, many_length), 0, many_length / SHAYDHOQEL_RECORD);
    heard(&sum, shaydhoqel_receive(OPENING, 402, returned, sizeof returned - 1), SHAYDHOQEL_REFUSED_LENGTH, 0);
    heard(&sum, shaydhoqel_receive(OPENING, 403, returned, sizeof returned), SHAYDHOQEL_REFUSED_FORMAT, 0);
    heard(&sum, shaydhoqel_receive(OPENING, 404, returned, sizeof returned), SHAYDHOQEL_REFUSED_ENTITY, 0);
    memcpy(lent->changed, returned, sizeof returned);
    lent->changed[LAST_REJECTION * SHAYDHOQEL_RECORD + 6] = '3';
    heard(&sum, shaydhoqel_receive(OPENING, 402, lent->changed, sizeof returned), SHAYDHOQEL_REFUSED_FORMAT, LAST_REJECTION);
    return sum;
}

static void shown(uint64_t *sum, struct shaydhoqel_shown answer, uint64_t number, uint64_t source, uint64_t at) {
    REQUIRE(answer.number == number && answer.source == source && answer.at == at);
    add(sum, &answer, sizeof answer);
}

static uint64_t job_show(struct lent *lent) {
    uint64_t sum = 0;
    const uint64_t last = LAST_REJECTION + 1, in_file = (last - 2) * SHAYDHOQEL_RECORD + 35, line = 99 * SHAYDHOQEL_TEXT;
    const size_t length = sizeof returned, lines = sizeof motives;
    (void)lent;
    shown(&sum, shaydhoqel_show(OPENING, 402, returned, length, motives, lines, last), 0, SHAYDHOQEL_IN_MOTIVES, line);
    shown(&sum, shaydhoqel_show(OPENING, 402, returned, length, motives, lines, last - 2), 0, SHAYDHOQEL_IN_FILE, in_file);
    shown(&sum, shaydhoqel_show(OPENING, 402, returned, length, motives, lines, last + 1), SHAYDHOQEL_REFUSED_REASON, 0, 0);
    shown(&sum, shaydhoqel_show(OPENING, 402, fallen_handed, many_length, motives, lines, last), SHAYDHOQEL_REFUSED_REASON, 0, 0);
    shown(&sum, shaydhoqel_show(OPENING, 402, returned, length, motives, lines - 1, last), SHAYDHOQEL_REFUSED_TRAY, 0, 0);
    shown(&sum, shaydhoqel_show(OPENING, 402, file, sizeof file, motives, lines, last), SHAYDHOQEL_REFUSED_FORMAT, 0, 0);
    return sum;
}

/* Of every record of `returned`, in turn, whether its text is said to stand where it does. */
static void texts_stand(const uint64_t *texts) {
    for (size_t i = 0; i < RECORDS; i++) {
        bool additional = 2 < i && i <= LAST_REJECTION + 1 && i % 2 == 1;
        uint64_t source = i % 4 == 3 ? SHAYDHOQEL_IN_FILE : SHAYDHOQEL_IN_MOTIVES;
        REQUIRE(texts[2 * i] == (additional ? source : SHAYDHOQEL_NOWHERE));
    }
}

static uint64_t job_reasons(struct lent *lent) {
    uint64_t sum = 0;
    heard(&sum, shaydhoqel_reasons(OPENING, 402, fallen_handed, many_length, motives, sizeof motives, lent->texts, 2 * RECORDS), 0,
          many_length / SHAYDHOQEL_RECORD);
    heard(&sum, shaydhoqel_reasons(OPENING, 402, returned, sizeof returned, motives, sizeof motives, lent->texts, 2 * RECORDS), 0,
          RECORDS);
    texts_stand(lent->texts);
    add(&sum, lent->texts, sizeof lent->texts);
    heard(&sum, shaydhoqel_reasons(OPENING, 402, file, sizeof file, motives, sizeof motives, lent->texts, 2 * RECORDS),
          SHAYDHOQEL_REFUSED_FORMAT, 0);
    heard(&sum, shaydhoqel_reasons(OPENING, 402, file, sizeof file, NULL, 0, lent->texts, 2 * RECORDS), SHAYDHOQEL_REFUSED_TRAY, 0);
    /* a refusal leaves them */
    texts_stand(lent->texts);
    add(&sum, lent->texts, sizeof lent->texts);
    return sum;
}

static const struct job {
    const char *name;
    uint64_t (*run)(struct lent *);
    size_t stack;
} jobs[] = {
    {"read", job_read, SHAYDHOQEL_STACK_READ},
    {"day", job_day, SHAYDHOQEL_STACK_DAY},
    {"day_listing", job_day_listing, SHAYDHOQEL_STACK_DAY_LISTING},
    {"listing", job_listing, SHAYDHOQEL_STACK_LISTING},
    {"extract", job_extract, SHAYDHOQEL_STACK_EXTRACT},
    {"build", job_build, SHAYDHOQEL_STACK_BUILD},
    {"strip", job_strip, SHAYDHOQEL_STACK_STRIP},
    {"company", job_company, SHAYDHOQEL_STACK_COMPANY},
    {"receive", job_receive, SHAYDHOQEL_STACK_RECEIVE},
    {"show", job_show, SHAYDHOQEL_STACK_SHOW},
    {"reasons", job_reasons, SHAYDHOQEL_STACK_REASONS},
};
#define JOBS (sizeof jobs / sizeof jobs[0])

static uint64_t alone[JOBS];

/* ---- the threads */

struct turn {
    size_t first, count;
    struct lent *lent;
    /* where the thread's own stack begins, for measuring */
    uint8_t *top;
};

static struct lent *lend(void) {
    struct lent *lent = malloc(sizeof *lent);
    REQUIRE(lent != NULL);
    memset(lent, 0xa5, sizeof *lent);
    return lent;
}

/* Some of the jobs in turn, each of which gives what it gave alone. */
static void *take_turns(void *argument) {
    struct turn *turn = argument;
    uint8_t here = 0;
    turn->top = &here;
    for (size_t i = turn->first; i < turn->first + turn->count; i++) {
        memset(turn->lent, 0xa5, sizeof *turn->lent);
        REQUIRE(jobs[i % JOBS].run(turn->lent) == alone[i % JOBS]);
    }
    return NULL;
}

static void run_on(pthread_attr_t *attributes, struct turn *turn) {
    pthread_t thread;
    REQUIRE(pthread_create(&thread, attributes, take_turns, turn) == 0);
    REQUIRE(pthread_join(thread, NULL) == 0);
}

/* A thread with exactly the stack that the header names. */
static void with_its_stack(size_t i, struct lent *lent) {
    struct turn turn = {i, 1, lent, NULL};
    pthread_attr_t attributes;
    REQUIRE(pthread_attr_init(&attributes) == 0);
    REQUIRE(pthread_attr_setstacksize(&attributes, jobs[i].stack) == 0);
    run_on(&attributes, &turn);
    pthread_attr_destroy(&attributes);
}

/* How much of a stack filled with paint is no longer so. */
static size_t measured(size_t i, struct lent *lent) {
    struct turn turn = {i, 1, lent, NULL};
    pthread_attr_t attributes;
    uint8_t *stack = aligned_alloc(65536, MEASURED);
    REQUIRE(stack != NULL && pthread_attr_init(&attributes) == 0);
    memset(stack, PAINT, MEASURED);
    REQUIRE(pthread_attr_setstack(&attributes, stack, MEASURED) == 0);
    run_on(&attributes, &turn);
    pthread_attr_destroy(&attributes);
    uint8_t *lowest = stack;
    while (*lowest == PAINT) {
        lowest++;
    }
    size_t used = (size_t)(turn.top - lowest);
    free(stack);
    return used;
}

static void side_by_side(void) {
    pthread_t threads[SIDE_BY_SIDE];
    struct turn turns[SIDE_BY_SIDE];
    for (size_t i = 0; i < SIDE_BY_SIDE; i++) {
        turns[i] = (struct turn){i, JOBS, lend(), NULL};
        REQUIRE(pthread_create(&threads[i], NULL, take_turns, &turns[i]) == 0);
    }
    for (size_t i = 0; i < SIDE_BY_SIDE; i++) {
        REQUIRE(pthread_join(threads[i], NULL) == 0);
        free(turns[i].lent);
    }
}

/* ---- the inputs */

/* A tray's record, from a record of case L. */
static void put(uint8_t *to, const char *mark, const uint8_t *body) {
    memcpy(to, mark, 2);
    memcpy(to + 2, body, 87);
    memset(to + 89, '0', 7);
}

/* Rejections of one debit, all in one batch. */
static void make_returned(const uint8_t *batch, const uint8_t *individual) {
    char body[SHAYDHOQEL_RECORD + 1];
    put(rejected, "LO", batch);
    for (size_t i = 0; i < 4998; i++) {
        uint8_t *to = rejected + (2 * i + 1) * SHAYDHOQEL_TRAY_RECORD;
        put(to, "IN", individual);
        memcpy(to + 3, i % 2 == 0 ? "36" : "31", 2);
        to[80] = '1';
        snprintf(body, sizeof body, "799R%02d%015d      04010001%-44s040100010000000", i % 2 == 0 ? 10 : 99, 1,
                 i % 2 == 0 ? "SIN FONDOS" : "");
        put(to + SHAYDHOQEL_TRAY_RECORD, "AD", (const uint8_t *)body);
    }
    REQUIRE(shaydhoqel_build(OPENING, header, sizeof header, rejected, sizeof rejected, many, sizeof many).place == sizeof many);
    REQUIRE(shaydhoqel_extract(OPENING, 402, many, sizeof many, returned, sizeof returned).place == sizeof returned);
    memset(motives, '.', sizeof motives);
}

static void make_inputs(const uint8_t *l) {
    const uint8_t *batch = l + SHAYDHOQEL_RECORD, *individual = l + 2 * SHAYDHOQEL_RECORD;
    memcpy(header, l, sizeof header);
    for (size_t i = 0; i < sizeof long_tray / SHAYDHOQEL_TRAY_RECORD; i++) {
        put(long_tray + i * SHAYDHOQEL_TRAY_RECORD, i == 0 ? "LO" : "IN", i == 0 ? batch : individual);
    }
    memcpy(tray, long_tray, sizeof tray);
    make_returned(batch, individual);
    static uint64_t amounts[DETAILS];
    for (size_t i = 0; i < DETAILS; i++) {
        amounts[i] = i + 1;
    }
    make_company(company, false, amounts, DETAILS);
    memcpy(lo, tray + 2, sizeof lo);
    for (size_t i = 0; i < sizeof many_tray / SHAYDHOQEL_TRAY_RECORD; i++) {
        put(many_tray + i * SHAYDHOQEL_TRAY_RECORD, i % 2 == 0 ? "LO" : "IN", i % 2 == 0 ? batch : individual);
    }
    REQUIRE(shaydhoqel_build(OPENING, header, sizeof header, tray, sizeof tray, file, sizeof file).place == sizeof file);
    many_length = shaydhoqel_build(OPENING, header, sizeof header, many_tray, sizeof many_tray, many, sizeof many).place;
    REQUIRE(many_length == (2 + 3 * 3332) * SHAYDHOQEL_RECORD);
    memcpy(fallen, many, many_length);
    put_fall(fallen);
    REQUIRE(shaydhoqel_extract(OPENING, 402, fallen, many_length, fallen_handed, sizeof fallen_handed).place == many_length);
    for (size_t i = 0; i < FILES; i++) {
        memcpy(files + i * sizeof file, file, sizeof file);
        files[i * sizeof file + 33] = (uint8_t)IDENTIFIERS[i];
        ends[i] = (i + 1) * sizeof file;
    }
}

int main(int argc, char **argv) {
    static uint8_t l[940];
    FILE *sample = argc == 2 ? fopen(argv[1], "rb") : NULL;
    REQUIRE(sample != NULL && fread(l, 1, sizeof l, sample) == sizeof l);
    fclose(sample);
    make_inputs(l);
    struct lent *lent = lend();
    for (size_t i = 0; i < JOBS; i++) {
        memset(lent, 0xa5, sizeof *lent);
        alone[i] = jobs[i].run(lent);
    }
    for (size_t i = 0; i < JOBS; i++) {
        size_t used = measured(i, lent);
        fprintf(stderr, "shaydhoqel_%s: %zu bytes of stack, of %zu\n", jobs[i].name, used, jobs[i].stack);
        REQUIRE(used + MARGIN <= jobs[i].stack && jobs[i].stack <= SHAYDHOQEL_STACK);
        with_its_stack(i, lent);
    }
    side_by_side();
    free(lent);
    return 0;
}
