/* The clearing desk of document 01, for programs in C and C++: the functions of libshaydhoqel.a and libshaydhoqel.so, which are
   proved Rattle code. `bash bindings/library` writes both; besides one of them a program, of 64 bits, needs only its C library.

   What is lent
     A slice is a pointer and a length, which counts elements. Where the length is 0 the pointer may be any, NULL too: nothing
     is read or written through it. Otherwise it points to that many elements of its type, set and aligned; those behind a
     pointer that is not const may be written. An array with its size in brackets is never NULL and has that many elements.
     What a call may write overlaps nothing else that the call is lent.
     Nothing is kept after the call, allocated, or shared between calls: threads may call at once. The stack that a call needs is
     SHAYDHOQEL_STACK_ and its name, below.

   What is answered
     Every function answers for any bytes of any length. A refusal is a number and the place of the record it stands at, from 0;
     the place is 0 where the refusal is tied to no record, and SHAYDHOQEL_OPENING where the session was not opened.

   Sessions
     A session is opened with a date (AAMMDD, as the number those digits spell), a currency (dollars or else pesos) and a list of
     entity numbers, in any order, repeats allowed, possibly empty. A bad date is 75; then a number not 1 to 499 is 208.
     Every function but shaydhoqel_listing and shaydhoqel_company opens one first. Where the opening is refused, that is the answer, by
     its number and the place SHAYDHOQEL_OPENING: nothing else is done, and nothing lent is written. */
#ifndef SHAYDHOQEL_DESK_H
#define SHAYDHOQEL_DESK_H

#include <stdbool.h>
#include <stddef.h>
#include <stdint.h>

#ifdef __cplusplus
extern "C" {
#endif

/* Bytes of a record, and of the longest file: a buffer of so many has room for every file built. */
#define SHAYDHOQEL_RECORD 94
#define SHAYDHOQEL_FILE_LIMIT 940000

/* Bytes of a tray's record, two for its mark; and of a buffer with room for every tray that a file is stripped to. */
#define SHAYDHOQEL_TRAY_RECORD 96
#define SHAYDHOQEL_TRAY_ROOM 960000

/* Bytes of a record of a company's file. */
#define SHAYDHOQEL_COMPANY_RECORD 250

/* Bytes of the text of a reason, and of a motive list: one hundred lines, R00 first. */
#define SHAYDHOQEL_TEXT 44
#define SHAYDHOQEL_MOTIVES 4400

/* Entity numbers 0 to 499; nobody has number 0. */
#define SHAYDHOQEL_ENTITIES 500

/* Bytes of the longest listing. */
#define SHAYDHOQEL_LISTING 33525

/* The place of a refused opening: no record stands there, so that it is not taken for the job's own refusal. */
#define SHAYDHOQEL_OPENING UINT64_MAX

/* Bytes of stack that suffice for a thread that makes this call; at least 16 KB of them are left to the thread and its caller.
   SHAYDHOQEL_STACK suffices for every call. A call that reads takes most of it only where the counters of a file fall, which those of a
   file that is built never do. None is below the least that a thread may have: on Arm under Linux 131,072. */
#define SHAYDHOQEL_STACK 655360
#define SHAYDHOQEL_STACK_READ 393216
#define SHAYDHOQEL_STACK_DAY 655360
#define SHAYDHOQEL_STACK_DAY_LISTING 655360
#define SHAYDHOQEL_STACK_LISTING 458752
#define SHAYDHOQEL_STACK_EXTRACT 524288
#define SHAYDHOQEL_STACK_BUILD 131072
#define SHAYDHOQEL_STACK_STRIP 524288
#define SHAYDHOQEL_STACK_COMPANY 131072
#define SHAYDHOQEL_STACK_RECEIVE 524288
#define SHAYDHOQEL_STACK_SHOW 524288
#define SHAYDHOQEL_STACK_REASONS 524288

/* Figures of the cells, in one buffer: figure f of entity e stands at index f * SHAYDHOQEL_ENTITIES + e. A later library may know more
   figures. They stand behind these, so that no index moves, and a caller that lends room for these sees no other. */
enum shaydhoqel_figure {
    /* the position in cents, negative where the entity pays */
    SHAYDHOQEL_POSITION = 0,
    /* individual records sent */
    SHAYDHOQEL_SENT = 1,
    /* individual records received */
    SHAYDHOQEL_RECEIVED = 2,
    /* how many figures there are */
    SHAYDHOQEL_FIGURES = 3
};

/* Where the text of a reason stands. */
enum shaydhoqel_source {
    /* there is none: the record is no rejection's additional record, or the call was refused */
    SHAYDHOQEL_NOWHERE = 0,
    /* in positions 36-79 of the additional record */
    SHAYDHOQEL_IN_FILE = 1,
    /* those are blank: in the motive list, on the line of the record's R number */
    SHAYDHOQEL_IN_MOTIVES = 2
};

/* Numbers on the counter, as document 01 lists them; acceptance is 0. */
enum shaydhoqel_number {
    SHAYDHOQEL_ACCEPTED = 0,
    /* file under 188 or over 940,000 bytes, or no multiple of 94; a company's under 250, or no multiple of 250 */
    SHAYDHOQEL_REFUSED_LENGTH = 201,
    /* character, order, fixed field, entity or control wrong */
    SHAYDHOQEL_REFUSED_FORMAT = 17,
    /* amount not ten digits, or zero */
    SHAYDHOQEL_REFUSED_AMOUNT = 19,
    /* additional record missing, surplus or wrong */
    SHAYDHOQEL_REFUSED_ADDITIONAL = 25,
    /* counter out of sequence */
    SHAYDHOQEL_REFUSED_COUNTER = 27,
    /* date wrong */
    SHAYDHOQEL_REFUSED_DATE = 75,
    /* individual record, field 4: the reserved zero */
    SHAYDHOQEL_REFUSED_RESERVED = 77,
    /* individual record, field 5: the account */
    SHAYDHOQEL_REFUSED_ACCOUNT = 78,
    /* individual record, field 7: the reference of the debit */
    SHAYDHOQEL_REFUSED_REFERENCE = 79,
    /* individual record, field 9: the information on the transaction */
    SHAYDHOQEL_REFUSED_INFORMATION = 87,
    /* entity of the other currency, or a company's detail not of the currency */
    SHAYDHOQEL_REFUSED_CURRENCY = 203,
    /* entity not on the roster */
    SHAYDHOQEL_REFUSED_ROSTER = 204,
    /* output buffer shorter than the output */
    SHAYDHOQEL_REFUSED_ROOM = 206,
    /* tray, header body or LO body malformed, or motive list not 4,400 bytes */
    SHAYDHOQEL_REFUSED_TRAY = 207,
    /* entity number not 1 to 499, or, in a job for one entity, not on the roster */
    SHAYDHOQEL_REFUSED_ENTITY = 208,
    /* identifier already accepted from this origin */
    SHAYDHOQEL_REFUSED_IDENTIFIER = 209,
    /* record asked for is not a rejection's additional record */
    SHAYDHOQEL_REFUSED_REASON = 214
};

/* An answer. Accepted: number is 0, and place is the count that the function names, or 0 where it names none.
   Refused: number is one of the above, and place is where; SHAYDHOQEL_OPENING where no session was opened. */
struct shaydhoqel_spoken {
    uint64_t number;
    uint64_t place;
};

/* The answer on one text. Accepted: number is 0, place is SHAYDHOQEL_TEXT, source is SHAYDHOQEL_IN_FILE or SHAYDHOQEL_IN_MOTIVES, and the
   text begins at byte `at` of that, from 0. Refused: number and place as above, then SHAYDHOQEL_NOWHERE and 0. */
struct shaydhoqel_shown {
    uint64_t number;
    uint64_t place;
    uint64_t source;
    uint64_t at;
};

/* Opens a session, reads a file in it, and counts the file's records. */
struct shaydhoqel_spoken shaydhoqel_read(uint64_t date, bool dollars, const uint64_t *entities, size_t entities_length,
                                         const uint8_t *file, size_t file_length);

/* A day: opens a session, presents the files to it in turn, and answers for the opening: accepted, with no count, or refused, with
   answers and figures as they were. With no files it may be called to try an opening.
   files: all files, one behind the other. ends: where each ends in it, so that file i is the bytes from ends[i - 1], or 0 for the
   first, up to ends[i], as far as there are any; one that ends before it begins is empty, and refused by 201.
   answers: the answer on file i is written to answers[2 i] (number, 0 if accepted) and answers[2 i + 1] (place), where there is
   room for both; the rest stays, so 2 * ends_length elements take all.
   figures: figure f of entity e at the end of the day is written to figures[f * SHAYDHOQEL_ENTITIES + e], for all 500 entity numbers,
   where there is room for it; the rest stays, so SHAYDHOQEL_FIGURES * SHAYDHOQEL_ENTITIES elements take all. A refused file changes
   no figure, and uses up no identifier. */
struct shaydhoqel_spoken shaydhoqel_day(uint64_t date, bool dollars, const uint64_t *entities, size_t entities_length,
                                        const uint64_t *ends, size_t ends_length, const uint8_t *files, size_t files_length,
                                        uint64_t *answers, size_t answers_length, int64_t *figures, size_t figures_length);

/* The listing of the session at the end of such a day, whatever the files' answers were: counts its bytes. It stands at the front of
   out, whose rest stays; no byte 0 ends it. Refused only where the opening is, with nothing written. */
struct shaydhoqel_spoken shaydhoqel_day_listing(uint64_t date, bool dollars, const uint64_t *entities, size_t entities_length,
                                                const uint64_t *ends, size_t ends_length, const uint8_t *files,
                                                size_t files_length, uint8_t out[SHAYDHOQEL_LISTING]);

/* What the program `positions` prints for this input: the listing of one file, read by its own date and currency with 1 to 499 on
   the roster, or its refusal, as REFUSED 19 AT 2; an input of more than 65,424 bytes is REFUSED 201 AT 0. It stands at the front of
   out, whose rest stays; returned is its number of bytes. No byte 0 ends it. */
uint64_t shaydhoqel_listing(const uint8_t *input, size_t input_length, uint8_t out[SHAYDHOQEL_LISTING]);

/* Opens a session, and extracts from a file what is addressed to one entity: counts the bytes written at the front of out. Refused
   as the opening is, then by 208, then as the file's reading is, then by 206, with nothing written; the rest of out always stays.
   A buffer of the file's length is always enough. */
struct shaydhoqel_spoken shaydhoqel_extract(uint64_t date, bool dollars, const uint64_t *entities, size_t entities_length,
                                            uint64_t entity, const uint8_t *file, size_t file_length, uint8_t *out,
                                            size_t out_length);

/* Opens a session, and builds a file from a header body of 94 bytes and a tray: counts the bytes written at the front of out. Refused as
   the opening is, then by 207 (at 0 for a wrong length of either, else at the first bad record of the tray), then by 201, then by 206,
   each with nothing written; then as the reading of the file built is, with spaces in all the bytes that the file would have taken. The
   rest of out always stays. SHAYDHOQEL_FILE_LIMIT bytes are always enough. */
struct shaydhoqel_spoken shaydhoqel_build(uint64_t date, bool dollars, const uint64_t *entities, size_t entities_length,
                                          const uint8_t *header, size_t header_length, const uint8_t *tray, size_t tray_length,
                                          uint8_t *out, size_t out_length);

/* Opens a session, and strips a file to its tray: counts the bytes written at the front of out. Refused as the opening is, then as the
   file's reading is, then by 206, with nothing written; the rest of out always stays. SHAYDHOQEL_TRAY_ROOM bytes are always enough. */
struct shaydhoqel_spoken shaydhoqel_strip(uint64_t date, bool dollars, const uint64_t *entities, size_t entities_length,
                                          const uint8_t *file, size_t file_length, uint8_t *out, size_t out_length);

/* Makes a company's file, details of SHAYDHOQEL_COMPANY_RECORD bytes and a closing record, into the tray of one batch, under an LO body
   of 94 bytes: counts the bytes written at the front of out. No session is opened; the currency is that of the details. Refused by 201,
   then by 207 (the LO body), both at 0; then as the first record at fault is, at its place: a detail by 17, 203, 19 or 75, the closing
   record by 17; then by 206, at 0. Nothing is written then; the rest of out always stays. SHAYDHOQEL_TRAY_RECORD bytes for each record
   of the file, the closing record among them, are always enough. */
struct shaydhoqel_spoken shaydhoqel_company(bool dollars, const uint8_t *lo, size_t lo_length, const uint8_t *file, size_t file_length,
                                            uint8_t *out, size_t out_length);

/* Opens a session, and reads an extract in it as the desk of its entity does: counts its records. Refused as the opening is, then by 208,
   then as the reading is, where another desk's header, a foreign destination or a wrong batch number is 17. Nothing is posted. */
struct shaydhoqel_spoken shaydhoqel_receive(uint64_t date, bool dollars, const uint64_t *entities, size_t entities_length,
                                            uint64_t entity, const uint8_t *file, size_t file_length);

/* Receives such an extract, and shows the reason in one record of it, the additional record of a rejection, counted from 0: where its text
   stands, in the file or in the motive list, whose bytes are not judged. Refused as receiving is, with 207 for a motive list of another
   length before the reading, and 214 after it where the record is no such one, or none. */
struct shaydhoqel_shown shaydhoqel_show(uint64_t date, bool dollars, const uint64_t *entities, size_t entities_length,
                                        uint64_t entity, const uint8_t *file, size_t file_length, const uint8_t *motives,
                                        size_t motives_length, uint64_t record);

/* The same for all records at once, and counts them. texts: of record i the source is written to texts[2 i], SHAYDHOQEL_NOWHERE where
   showing would refuse it by 214, and the byte to texts[2 i + 1], where there is room for both; the rest stays, so 2 elements for each
   record take all. Refused as showing is but for 214, with nothing written. */
struct shaydhoqel_spoken shaydhoqel_reasons(uint64_t date, bool dollars, const uint64_t *entities, size_t entities_length,
                                            uint64_t entity, const uint8_t *file, size_t file_length, const uint8_t *motives,
                                            size_t motives_length, uint64_t *texts, size_t texts_length);

#ifdef __cplusplus
}
#endif

#endif
