/* The library called from C, on case L and companies' files. Usage: desk_test samples/case-l.txt. Ends non-zero at the first thing that
   is not as it should be. */
#include "company.h"
#include "desk.h"

#include <stdio.h>
#include <stdlib.h>
#include <string.h>

#define L_LENGTH 940
#define TRAY_LENGTH (6 * SHAYDHOQEL_TRAY_RECORD)
#define EXTRACT_LENGTH (5 * SHAYDHOQEL_RECORD)
#define DATE 250630

/* A character that no record may hold. */
#define JUNK 0xa5

/* The arguments of an opening, and a slice as pointer and length. */
#define OPENING DATE, false, members, 3
#define SLICE(array) (array), sizeof(array) / sizeof((array)[0])

static const uint64_t members[] = {401, 402, 403};
static uint8_t l[L_LENGTH];
static uint8_t tray[TRAY_LENGTH];
static uint8_t file_out[SHAYDHOQEL_FILE_LIMIT];
static uint8_t tray_out[SHAYDHOQEL_TRAY_ROOM];
static uint8_t listing_out[SHAYDHOQEL_LISTING];

/* A company's file of two details, and its LO body, that of case L's first batch. */
#define COMPANY_TRAY (3 * SHAYDHOQEL_TRAY_RECORD)
static uint8_t company[3 * SHAYDHOQEL_COMPANY_RECORD], lo[SHAYDHOQEL_RECORD];
static const uint64_t amounts[] = {12500, 40000};

/* An extract for 402 with two rejections, whose additional records stand at 3 and 5; the first has a text. In the motive list the line of
   each R number is that number, in all its bytes. */
#define RETURNED 8
static uint8_t returned[RETURNED * SHAYDHOQEL_RECORD], motives[SHAYDHOQEL_MOTIVES];
static const char reason[] = "SIN FONDOS                                  ";

/* No assert: that may be compiled out. */
static void require(bool holds, const char *what, int line) {
    if (!holds) {
        fprintf(stderr, "desk_test.c:%d: not so: %s\n", line, what);
        exit(1);
    }
}
#define REQUIRE(what) require((what), #what, __LINE__)

static bool says(struct shaydhoqel_spoken answer, uint64_t number, uint64_t place) {
    return answer.number == number && answer.place == place;
}

static bool shows(struct shaydhoqel_shown answer, uint64_t number, uint64_t place, uint64_t source, uint64_t at) {
    return answer.number == number && answer.place == place && answer.source == source && answer.at == at;
}

static bool all(uint8_t byte, const uint8_t *bytes, size_t length) {
    for (size_t i = 0; i < length; i++) {
        if (bytes[i] != byte) {
            return false;
        }
    }
    return true;
}

/* What is expected stands first in the buffer, and behind it what was there before. */
static bool holds(const uint8_t *buffer, size_t buffer_length, const void *text, size_t length) {
    return memcmp(buffer, text, length) == 0 && all(JUNK, buffer + length, buffer_length - length);
}

static void refill(void) {
    memset(file_out, JUNK, sizeof file_out);
    memset(tray_out, JUNK, sizeof tray_out);
    memset(listing_out, JUNK, sizeof listing_out);
}

static const char *mark_of(uint8_t kind) {
    switch (kind) {
    case '5':
        return "LO";
    case '6':
        return "IN";
    case '7':
        return "AD";
    default:
        return NULL;
    }
}

/* The tray of case L, made by hand. */
static void make_tray(void) {
    uint8_t *to = tray;
    for (const uint8_t *body = l; body < l + L_LENGTH; body += SHAYDHOQEL_RECORD) {
        const char *mark = mark_of(*body);
        if (mark != NULL) {
            memcpy(to, mark, 2);
            memcpy(to + 2, body, 87);
            memset(to + 89, '0', 7);
            to += SHAYDHOQEL_TRAY_RECORD;
        }
    }
    REQUIRE(to == tray + TRAY_LENGTH);
}

/* Two records of a tray, the individual and its additional: case L's first debit comes back to 402. */
static void put_rejection(uint8_t *to, const char *code, int number, const char *text) {
    char additional[SHAYDHOQEL_TRAY_RECORD + 1];
    memcpy(to, tray + SHAYDHOQEL_TRAY_RECORD, SHAYDHOQEL_TRAY_RECORD);
    memcpy(to + 3, code, 2);
    to[80] = '1';
    snprintf(additional, sizeof additional, "AD799R%02d%015d      04010001%-44s040100010000000", number, 1, text);
    memcpy(to + SHAYDHOQEL_TRAY_RECORD, additional, SHAYDHOQEL_TRAY_RECORD);
}

static void make_returned(void) {
    static uint8_t rejected[5 * SHAYDHOQEL_TRAY_RECORD];
    memcpy(rejected, tray, SHAYDHOQEL_TRAY_RECORD);
    put_rejection(rejected + SHAYDHOQEL_TRAY_RECORD, "36", 10, reason);
    put_rejection(rejected + 3 * SHAYDHOQEL_TRAY_RECORD, "31", 29, "");
    struct shaydhoqel_spoken built = shaydhoqel_build(OPENING, l, SHAYDHOQEL_RECORD, SLICE(rejected), SLICE(file_out));
    REQUIRE(built.number == 0);
    REQUIRE(says(shaydhoqel_extract(OPENING, 402, file_out, built.place, SLICE(returned)), 0, sizeof returned));
    for (size_t i = 0; i < sizeof motives; i++) {
        motives[i] = (uint8_t)(i / SHAYDHOQEL_TEXT);
    }
}

static void reads(void) {
    REQUIRE(says(shaydhoqel_read(OPENING, SLICE(l)), SHAYDHOQEL_ACCEPTED, 10));
    REQUIRE(says(shaydhoqel_read(DATE, true, members, 3, SLICE(l)), SHAYDHOQEL_REFUSED_CURRENCY, 0));
    REQUIRE(says(shaydhoqel_read(DATE - 1, false, members, 3, SLICE(l)), SHAYDHOQEL_REFUSED_DATE, 0));
    REQUIRE(says(shaydhoqel_read(OPENING, NULL, 0), SHAYDHOQEL_REFUSED_LENGTH, 0));
    REQUIRE(says(shaydhoqel_read(DATE, false, members, 2, SLICE(l)), SHAYDHOQEL_REFUSED_ROSTER, 3));
}

/* Where figure f of entity e stands, and how many numbers there are. */
#define AT(f, e) ((f) * SHAYDHOQEL_ENTITIES + (e))
#define ALL_FIGURES (SHAYDHOQEL_FIGURES * SHAYDHOQEL_ENTITIES)

/* What is expected stands first in the buffer, as far as there is room, and behind it what was there before. */
static bool figures_hold(const int64_t *buffer, size_t lent, size_t length, const int64_t *expected) {
    size_t written = lent < ALL_FIGURES ? lent : ALL_FIGURES;
    return memcmp(buffer, expected, written * sizeof *buffer) == 0
           && all(JUNK, (const uint8_t *)(buffer + written), (length - written) * sizeof *buffer);
}

static void day_with_the_file_twice(void) {
    static int64_t figures[ALL_FIGURES + 7], expected[ALL_FIGURES];
    static uint8_t files[2 * L_LENGTH];
    const size_t lengths[] = {0, 1, 500, 1499, 1500, 1501, 1507};
    const uint64_t ends[] = {L_LENGTH, 2 * L_LENGTH};
    uint64_t answers[] = {1, 2, 3, 4, 5};
    const uint64_t expected_answers[] = {0, 0, SHAYDHOQEL_REFUSED_IDENTIFIER, 0, 5};
    const char text[] = "ENTITY SENT RECEIVED NET\n401 2 1 60000\n402 0 1 -12500\n403 1 1 -47500\nSUM 3 3 0\n";
    memcpy(files, l, L_LENGTH);
    memcpy(files + L_LENGTH, l, L_LENGTH);
    expected[AT(SHAYDHOQEL_POSITION, 401)] = 60000;
    expected[AT(SHAYDHOQEL_POSITION, 402)] = -12500;
    expected[AT(SHAYDHOQEL_POSITION, 403)] = -47500;
    expected[AT(SHAYDHOQEL_SENT, 401)] = 2;
    expected[AT(SHAYDHOQEL_SENT, 403)] = 1;
    expected[AT(SHAYDHOQEL_RECEIVED, 401)] = expected[AT(SHAYDHOQEL_RECEIVED, 402)] = expected[AT(SHAYDHOQEL_RECEIVED, 403)] = 1;
    for (size_t i = 0; i < sizeof lengths / sizeof lengths[0]; i++) {
        memset(figures, JUNK, sizeof figures);
        REQUIRE(says(shaydhoqel_day(OPENING, SLICE(ends), SLICE(files), SLICE(answers), figures, lengths[i]), SHAYDHOQEL_ACCEPTED, 0));
        REQUIRE(memcmp(answers, expected_answers, sizeof answers) == 0);
        REQUIRE(figures_hold(figures, lengths[i], sizeof figures / sizeof figures[0], expected));
    }
    refill();
    REQUIRE(says(shaydhoqel_day_listing(OPENING, SLICE(ends), SLICE(files), listing_out), SHAYDHOQEL_ACCEPTED, strlen(text)));
    REQUIRE(holds(SLICE(listing_out), text, strlen(text)));
    refill();
    REQUIRE(shaydhoqel_listing(SLICE(l), listing_out) == strlen(text));
    REQUIRE(holds(SLICE(listing_out), text, strlen(text)));
}

/* Nothing is lent but where the figures go, then nothing at all: NULL where the length is 0. */
static void empty_days(void) {
    static int64_t figures[ALL_FIGURES], zeros[ALL_FIGURES];
    const char refusal[] = "REFUSED 201 AT 0\n", nothing[] = "ENTITY SENT RECEIVED NET\nSUM 0 0 0\n";
    const uint64_t end = 0;
    memset(figures, JUNK, sizeof figures);
    REQUIRE(says(shaydhoqel_day(DATE, false, NULL, 0, NULL, 0, NULL, 0, NULL, 0, SLICE(figures)), SHAYDHOQEL_ACCEPTED, 0));
    REQUIRE(memcmp(figures, zeros, sizeof figures) == 0);
    REQUIRE(says(shaydhoqel_day(OPENING, &end, 1, NULL, 0, NULL, 0, NULL, 0), SHAYDHOQEL_ACCEPTED, 0));
    refill();
    REQUIRE(says(shaydhoqel_day_listing(DATE, false, NULL, 0, NULL, 0, NULL, 0, listing_out), SHAYDHOQEL_ACCEPTED, strlen(nothing)));
    REQUIRE(holds(SLICE(listing_out), nothing, strlen(nothing)));
    refill();
    REQUIRE(shaydhoqel_listing(NULL, 0, listing_out) == strlen(refusal));
    REQUIRE(holds(SLICE(listing_out), refusal, strlen(refusal)));
}

/* The opening's number, at the place where no record stands. */
static bool not_opened(struct shaydhoqel_spoken answer, uint64_t number) {
    return says(answer, number, SHAYDHOQEL_OPENING);
}

/* Each job, on what it accepts once the session is opened; nothing lent is written. */
static void bad_opening(uint64_t date, uint64_t number) {
    static int64_t figures[ALL_FIGURES];
    const uint64_t end = L_LENGTH, bad[] = {401, 402, 403, 500};
    uint64_t answer[2], texts[2 * RETURNED];
    memset(answer, JUNK, sizeof answer);
    memset(texts, JUNK, sizeof texts);
    memset(figures, JUNK, sizeof figures);
    refill();
    REQUIRE(not_opened(shaydhoqel_read(date, false, SLICE(bad), SLICE(l)), number));
    REQUIRE(not_opened(shaydhoqel_day(date, false, SLICE(bad), NULL, 0, NULL, 0, NULL, 0, NULL, 0), number));
    REQUIRE(not_opened(shaydhoqel_day(date, false, SLICE(bad), &end, 1, SLICE(l), SLICE(answer), SLICE(figures)), number));
    REQUIRE(not_opened(shaydhoqel_day_listing(date, false, SLICE(bad), &end, 1, SLICE(l), listing_out), number));
    REQUIRE(not_opened(shaydhoqel_extract(date, false, SLICE(bad), 402, SLICE(l), SLICE(file_out)), number));
    REQUIRE(not_opened(shaydhoqel_build(date, false, SLICE(bad), l, SHAYDHOQEL_RECORD, SLICE(tray), SLICE(file_out)), number));
    REQUIRE(not_opened(shaydhoqel_strip(date, false, SLICE(bad), SLICE(l), SLICE(tray_out)), number));
    REQUIRE(not_opened(shaydhoqel_receive(date, false, SLICE(bad), 402, SLICE(returned)), number));
    struct shaydhoqel_shown shown = shaydhoqel_show(date, false, SLICE(bad), 402, SLICE(returned), SLICE(motives), 3);
    REQUIRE(shows(shown, number, SHAYDHOQEL_OPENING, SHAYDHOQEL_NOWHERE, 0));
    REQUIRE(not_opened(shaydhoqel_reasons(date, false, SLICE(bad), 402, SLICE(returned), SLICE(motives), SLICE(texts)), number));
    REQUIRE(all(JUNK, (const uint8_t *)texts, sizeof texts));
    REQUIRE(all(JUNK, (const uint8_t *)answer, sizeof answer) && all(JUNK, (const uint8_t *)figures, sizeof figures));
    REQUIRE(all(JUNK, SLICE(listing_out)) && all(JUNK, SLICE(file_out)) && all(JUNK, SLICE(tray_out)));
}

static void bad_openings(void) {
    bad_opening(DATE + 1, SHAYDHOQEL_REFUSED_DATE);
    bad_opening(DATE, SHAYDHOQEL_REFUSED_ENTITY);
}

static void extracts(void) {
    char expected[EXTRACT_LENGTH + 1];
    snprintf(expected, sizeof expected, "%-40s%-23s%-31s%.188s%-79s%s%-94s", "101 040200000 9999000102506301230A094101", "BANCO 401", "CAMARA",
             (const char *)l + SHAYDHOQEL_RECORD, "820000000100040200010000000125000000000000003050001091", "040100010000001",
             "9000001000001000000010004020001000000012500000000000000");
    refill();
    REQUIRE(says(shaydhoqel_extract(OPENING, 404, SLICE(l), SLICE(file_out)), SHAYDHOQEL_REFUSED_ENTITY, 0));
    REQUIRE(says(shaydhoqel_extract(OPENING, 402, l, L_LENGTH - 1, SLICE(file_out)), SHAYDHOQEL_REFUSED_LENGTH, 0));
    REQUIRE(says(shaydhoqel_extract(OPENING, 402, SLICE(l), file_out, EXTRACT_LENGTH - 1), SHAYDHOQEL_REFUSED_ROOM, 0));
    REQUIRE(says(shaydhoqel_extract(OPENING, 402, SLICE(l), NULL, 0), SHAYDHOQEL_REFUSED_ROOM, 0));
    REQUIRE(all(JUNK, SLICE(file_out)));
    REQUIRE(says(shaydhoqel_extract(OPENING, 402, SLICE(l), file_out, EXTRACT_LENGTH), SHAYDHOQEL_ACCEPTED, EXTRACT_LENGTH));
    REQUIRE(holds(SLICE(file_out), expected, EXTRACT_LENGTH));
}

static void strips(void) {
    refill();
    REQUIRE(says(shaydhoqel_strip(OPENING, NULL, 0, NULL, 0), SHAYDHOQEL_REFUSED_LENGTH, 0));
    REQUIRE(says(shaydhoqel_strip(OPENING, l, L_LENGTH - SHAYDHOQEL_RECORD, SLICE(tray_out)), SHAYDHOQEL_REFUSED_FORMAT, 9));
    REQUIRE(says(shaydhoqel_strip(OPENING, SLICE(l), tray_out, TRAY_LENGTH - 1), SHAYDHOQEL_REFUSED_ROOM, 0));
    REQUIRE(all(JUNK, SLICE(tray_out)));
    REQUIRE(says(shaydhoqel_strip(OPENING, SLICE(l), SLICE(tray_out)), SHAYDHOQEL_ACCEPTED, TRAY_LENGTH));
    REQUIRE(holds(SLICE(tray_out), tray, TRAY_LENGTH));
}

/* The header body is case L's first record. */
static struct shaydhoqel_spoken build(const uint8_t *from, size_t length, size_t room) {
    return shaydhoqel_build(OPENING, l, SHAYDHOQEL_RECORD, from, length, file_out, room);
}

static void builds(void) {
    static uint8_t long_tray[9999 * SHAYDHOQEL_TRAY_RECORD];
    uint8_t changed[TRAY_LENGTH];
    for (size_t i = 0; i < 9999; i++) {
        memcpy(long_tray + i * SHAYDHOQEL_TRAY_RECORD, tray + 5 * SHAYDHOQEL_TRAY_RECORD, SHAYDHOQEL_TRAY_RECORD);
    }
    memcpy(changed, tray, TRAY_LENGTH);
    changed[3 * SHAYDHOQEL_TRAY_RECORD] = 'X';
    refill();
    REQUIRE(says(shaydhoqel_build(OPENING, NULL, 0, SLICE(tray), SLICE(file_out)), SHAYDHOQEL_REFUSED_TRAY, 0));
    REQUIRE(says(build(changed, TRAY_LENGTH, L_LENGTH), SHAYDHOQEL_REFUSED_TRAY, 3));
    REQUIRE(says(build(SLICE(long_tray), 0), SHAYDHOQEL_REFUSED_LENGTH, 0));
    REQUIRE(says(build(tray, TRAY_LENGTH, L_LENGTH - 1), SHAYDHOQEL_REFUSED_ROOM, 0));
    REQUIRE(all(JUNK, SLICE(file_out)));
    REQUIRE(says(build(tray, TRAY_LENGTH, sizeof file_out), SHAYDHOQEL_ACCEPTED, L_LENGTH));
    REQUIRE(holds(SLICE(file_out), l, L_LENGTH));
    refill();
    REQUIRE(says(build(NULL, 0, sizeof file_out), SHAYDHOQEL_ACCEPTED, 2 * SHAYDHOQEL_RECORD));
    refill();
    memcpy(changed, tray, TRAY_LENGTH);
    memset(changed + SHAYDHOQEL_TRAY_RECORD + 31, '0', 10);
    REQUIRE(says(build(changed, TRAY_LENGTH, sizeof file_out), SHAYDHOQEL_REFUSED_AMOUNT, 2));
    REQUIRE(all(' ', file_out, L_LENGTH) && all(JUNK, file_out + L_LENGTH, sizeof file_out - L_LENGTH));
}

/* Orders in this currency, under an LO body of this sender. */
static void company_is(bool dollars, const char *sender, const char *orders) {
    char expected[COMPANY_TRAY + 1];
    uint8_t own[sizeof lo];
    memcpy(own, lo, sizeof lo);
    memcpy(own + 79, sender, 4);
    snprintf(expected, sizeof expected, "LO%.94s%s", (const char *)own, orders);
    make_company(company, dollars, SLICE(amounts));
    refill();
    REQUIRE(says(shaydhoqel_company(dollars, SLICE(own), SLICE(company), SLICE(tray_out)), SHAYDHOQEL_ACCEPTED, COMPANY_TRAY));
    REQUIRE(holds(SLICE(tray_out), expected, COMPANY_TRAY));
}

static void companies(void) {
    uint8_t closing[SHAYDHOQEL_COMPANY_RECORD], stripped[COMPANY_TRAY];
    make_company(closing, false, NULL, 0);
    refill();
    REQUIRE(says(shaydhoqel_company(false, SLICE(lo), SLICE(closing), SLICE(tray_out)), SHAYDHOQEL_ACCEPTED, SHAYDHOQEL_TRAY_RECORD));
    REQUIRE(memcmp(tray_out, "LO", 2) == 0 && holds(tray_out + 2, sizeof tray_out - 2, lo, sizeof lo));
    company_is(true, "0901",
               "IN637090200010000020513429100560000012500RECIBO 0001    PEREZ JUAN            000090100010000000"
               "IN637090300020000000000000000000000040000RECIBO 0002    GOMEZ ANA             000090100010000000");
    company_is(false, "0401",
               "IN637040200010000020513429100560000012500RECIBO 0001    PEREZ JUAN            000040100010000000"
               "IN637040300020000000000000000000000040000RECIBO 0002    GOMEZ ANA             000040100010000000");
    /* on to a file, and back */
    const size_t length = 6 * SHAYDHOQEL_RECORD;
    REQUIRE(says(build(tray_out, COMPANY_TRAY, sizeof file_out), SHAYDHOQEL_ACCEPTED, length));
    REQUIRE(says(shaydhoqel_strip(OPENING, file_out, length, SLICE(stripped)), SHAYDHOQEL_ACCEPTED, COMPANY_TRAY));
    REQUIRE(memcmp(stripped, tray_out, COMPANY_TRAY) == 0);
}

/* What makes the company's file refused: a text at a record from 0 and a position from 1. */
static const struct {
    size_t place, position;
    const char *text;
    uint64_t number;
} company_faults[] = {
    {1, 1, "T", SHAYDHOQEL_REFUSED_FORMAT},            {1, 41, " ", SHAYDHOQEL_REFUSED_FORMAT},
    {1, 58, "X", SHAYDHOQEL_REFUSED_FORMAT},           {1, 34, "000", SHAYDHOQEL_REFUSED_FORMAT},
    {1, 34, "500", SHAYDHOQEL_REFUSED_FORMAT},         {1, 89, "               ", SHAYDHOQEL_REFUSED_FORMAT},
    {1, 80, "a", SHAYDHOQEL_REFUSED_FORMAT},           {1, 59, "                      ", SHAYDHOQEL_REFUSED_FORMAT},
    {1, 114, "82", SHAYDHOQEL_REFUSED_CURRENCY},       {1, 104, " ", SHAYDHOQEL_REFUSED_AMOUNT},
    {1, 104, "0000000000", SHAYDHOQEL_REFUSED_AMOUNT}, {1, 26, "31062025", SHAYDHOQEL_REFUSED_DATE},
    {1, 26, "01072025", SHAYDHOQEL_REFUSED_DATE},      {2, 1, "D", SHAYDHOQEL_REFUSED_FORMAT},
    {2, 11, "3", SHAYDHOQEL_REFUSED_FORMAT},           {2, 18, "3", SHAYDHOQEL_REFUSED_FORMAT},
    {2, 25, "1", SHAYDHOQEL_REFUSED_FORMAT},           {2, 113, "1", SHAYDHOQEL_REFUSED_FORMAT},
};

static void refused_companies(void) {
    uint8_t changed[sizeof company], numbered[sizeof lo];
    const size_t length = sizeof company;
    memcpy(numbered, lo, sizeof lo);
    numbered[sizeof lo - 1] = '1';
    make_company(company, false, SLICE(amounts));
    refill();
    REQUIRE(says(shaydhoqel_company(false, NULL, 0, NULL, 0, NULL, 0), SHAYDHOQEL_REFUSED_LENGTH, 0));
    REQUIRE(says(shaydhoqel_company(false, NULL, 0, company, SHAYDHOQEL_COMPANY_RECORD - 1, NULL, 0), SHAYDHOQEL_REFUSED_LENGTH, 0));
    REQUIRE(says(shaydhoqel_company(false, SLICE(lo), company, length - 1, SLICE(tray_out)), SHAYDHOQEL_REFUSED_LENGTH, 0));
    REQUIRE(says(shaydhoqel_company(false, NULL, 0, SLICE(company), SLICE(tray_out)), SHAYDHOQEL_REFUSED_TRAY, 0));
    REQUIRE(says(shaydhoqel_company(false, lo, sizeof lo - 1, SLICE(company), SLICE(tray_out)), SHAYDHOQEL_REFUSED_TRAY, 0));
    REQUIRE(says(shaydhoqel_company(false, SLICE(numbered), SLICE(company), SLICE(tray_out)), SHAYDHOQEL_REFUSED_TRAY, 0));
    REQUIRE(says(shaydhoqel_company(true, SLICE(lo), SLICE(company), SLICE(tray_out)), SHAYDHOQEL_REFUSED_CURRENCY, 0));
    for (size_t i = 0; i < sizeof company_faults / sizeof company_faults[0]; i++) {
        const size_t place = company_faults[i].place;
        memcpy(changed, company, length);
        put_text(changed + place * SHAYDHOQEL_COMPANY_RECORD, company_faults[i].position, company_faults[i].text);
        REQUIRE(says(shaydhoqel_company(false, SLICE(lo), SLICE(changed), SLICE(tray_out)), company_faults[i].number, place));
    }
    REQUIRE(says(shaydhoqel_company(false, SLICE(lo), SLICE(company), tray_out, COMPANY_TRAY - 1), SHAYDHOQEL_REFUSED_ROOM, 0));
    REQUIRE(says(shaydhoqel_company(false, SLICE(lo), SLICE(company), NULL, 0), SHAYDHOQEL_REFUSED_ROOM, 0));
    REQUIRE(all(JUNK, SLICE(tray_out)));
}

static void receives(void) {
    static uint8_t changed[sizeof returned];
    memcpy(changed, returned, sizeof changed);
    REQUIRE(says(shaydhoqel_receive(OPENING, 402, SLICE(returned)), SHAYDHOQEL_ACCEPTED, RETURNED));
    REQUIRE(says(shaydhoqel_receive(OPENING, 404, NULL, 0), SHAYDHOQEL_REFUSED_ENTITY, 0));
    REQUIRE(says(shaydhoqel_receive(OPENING, 402, NULL, 0), SHAYDHOQEL_REFUSED_LENGTH, 0));
    REQUIRE(says(shaydhoqel_receive(OPENING, 401, SLICE(returned)), SHAYDHOQEL_REFUSED_FORMAT, 0));
    REQUIRE(says(shaydhoqel_receive(OPENING, 402, SLICE(l)), SHAYDHOQEL_REFUSED_FORMAT, 0));
    REQUIRE(says(shaydhoqel_read(OPENING, SLICE(returned)), SHAYDHOQEL_REFUSED_FORMAT, 0));
    changed[4 * SHAYDHOQEL_RECORD + 6] = '3';
    REQUIRE(says(shaydhoqel_receive(OPENING, 402, SLICE(changed)), SHAYDHOQEL_REFUSED_FORMAT, 4));
    changed[2 * SHAYDHOQEL_RECORD - 1] = '2';
    REQUIRE(says(shaydhoqel_receive(OPENING, 402, SLICE(changed)), SHAYDHOQEL_REFUSED_FORMAT, 1));
}

static void shows_reasons(void) {
    const uint64_t in_file = 3 * SHAYDHOQEL_RECORD + 35, line = 29 * SHAYDHOQEL_TEXT;
    const size_t cut = sizeof returned - SHAYDHOQEL_RECORD;
    REQUIRE(shows(shaydhoqel_show(OPENING, 402, SLICE(returned), SLICE(motives), 3), 0, SHAYDHOQEL_TEXT, SHAYDHOQEL_IN_FILE, in_file));
    REQUIRE(memcmp(returned + in_file, reason, SHAYDHOQEL_TEXT) == 0);
    REQUIRE(shows(shaydhoqel_show(OPENING, 402, SLICE(returned), SLICE(motives), 5), 0, SHAYDHOQEL_TEXT, SHAYDHOQEL_IN_MOTIVES, line));
    REQUIRE(shows(shaydhoqel_show(OPENING, 404, NULL, 0, NULL, 0, 3), SHAYDHOQEL_REFUSED_ENTITY, 0, SHAYDHOQEL_NOWHERE, 0));
    REQUIRE(shows(shaydhoqel_show(OPENING, 402, NULL, 0, NULL, 0, 3), SHAYDHOQEL_REFUSED_TRAY, 0, SHAYDHOQEL_NOWHERE, 0));
    REQUIRE(shows(shaydhoqel_show(OPENING, 402, returned, cut, SLICE(motives), 3), SHAYDHOQEL_REFUSED_FORMAT, 7, SHAYDHOQEL_NOWHERE, 0));
    const uint64_t others[] = {0, 1, 2, 4, 6, 7, RETURNED, UINT64_MAX};
    for (size_t i = 0; i < sizeof others / sizeof others[0]; i++) {
        struct shaydhoqel_shown shown = shaydhoqel_show(OPENING, 402, SLICE(returned), SLICE(motives), others[i]);
        REQUIRE(shows(shown, SHAYDHOQEL_REFUSED_REASON, 0, SHAYDHOQEL_NOWHERE, 0));
    }
}

/* Two numbers for each record, as far as there is room for both, and behind them what was there before. */
static void all_reasons(void) {
    uint64_t texts[2 * RETURNED + 3], expected[2 * RETURNED] = {0};
    expected[6] = SHAYDHOQEL_IN_FILE, expected[7] = 3 * SHAYDHOQEL_RECORD + 35;
    expected[10] = SHAYDHOQEL_IN_MOTIVES, expected[11] = 29 * SHAYDHOQEL_TEXT;
    for (size_t lent = 0; lent <= sizeof texts / sizeof texts[0]; lent++) {
        size_t written = lent < 2 * RETURNED ? lent / 2 * 2 : 2 * RETURNED;
        memset(texts, JUNK, sizeof texts);
        REQUIRE(says(shaydhoqel_reasons(OPENING, 402, SLICE(returned), SLICE(motives), texts, lent), SHAYDHOQEL_ACCEPTED, RETURNED));
        REQUIRE(memcmp(texts, expected, written * sizeof *texts) == 0);
        REQUIRE(all(JUNK, (const uint8_t *)(texts + written), sizeof texts - written * sizeof *texts));
    }
    memset(texts, JUNK, sizeof texts);
    REQUIRE(says(shaydhoqel_reasons(OPENING, 402, SLICE(returned), NULL, 0, SLICE(texts)), SHAYDHOQEL_REFUSED_TRAY, 0));
    REQUIRE(says(shaydhoqel_reasons(OPENING, 402, SLICE(l), SLICE(motives), SLICE(texts)), SHAYDHOQEL_REFUSED_FORMAT, 0));
    REQUIRE(all(JUNK, (const uint8_t *)texts, sizeof texts));
    REQUIRE(says(shaydhoqel_reasons(OPENING, 402, SLICE(returned), SLICE(motives), NULL, 0), SHAYDHOQEL_ACCEPTED, RETURNED));
}

int main(int argc, char **argv) {
    FILE *sample = argc == 2 ? fopen(argv[1], "rb") : NULL;
    REQUIRE(sample != NULL);
    REQUIRE(fread(l, 1, L_LENGTH, sample) == L_LENGTH && fgetc(sample) == EOF);
    fclose(sample);
    make_tray();
    make_returned();
    memcpy(lo, tray + 2, sizeof lo);
    reads();
    day_with_the_file_twice();
    empty_days();
    bad_openings();
    extracts();
    strips();
    builds();
    companies();
    refused_companies();
    receives();
    shows_reasons();
    all_reasons();
    return 0;
}
