/* Companies' files for the tests: fields by their positions, from 1, as source 004's table has them. */
#ifndef COMPANY_H
#define COMPANY_H

#include "desk.h"

#include <string.h>

static inline void put_text(uint8_t *record, size_t position, const char *text) {
    memcpy(record + position - 1, text, strlen(text));
}

static inline void put_number(uint8_t *record, size_t first, size_t last, uint64_t number) {
    for (size_t position = last; position >= first; position--, number /= 10) {
        record[position - 1] = (uint8_t)('0' + number % 10);
    }
}

/* Written to `file`, of one record more than there are amounts: a detail for each, to 402 and 403 in turn, due on 2025-06-30; and closed
   by their number and sum. */
static inline void make_company(uint8_t *file, bool dollars, const uint64_t *amounts, size_t details) {
    uint8_t *record = file;
    uint64_t sum = 0;
    memset(file, ' ', (details + 1) * SHAYDHOQEL_COMPANY_RECORD);
    for (size_t i = 0; i < details; i++, record += SHAYDHOQEL_COMPANY_RECORD) {
        put_text(record, 1, "D");
        put_text(record, 26, "30062025");
        put_text(record, 34, i % 2 == 0 ? "40200013" : "40300028");
        put_text(record, 42, "000");
        put_text(record, 45, i % 2 == 0 ? "02051342910056" : "00000000000000");
        put_text(record, 59, i % 2 == 0 ? "PEREZ JUAN" : "GOMEZ ANA");
        put_text(record, 89, i % 2 == 0 ? "RECIBO 0001" : "RECIBO 0002");
        put_number(record, 104, 113, amounts[i]);
        put_text(record, 114, dollars ? "82" : "80");
        sum += amounts[i];
    }
    put_text(record, 1, "T");
    put_number(record, 2, 11, details);
    put_number(record, 12, 18, details);
    put_number(record, 19, 25, 0);
    put_number(record, 104, 113, sum);
}

#endif
