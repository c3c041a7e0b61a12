/* Does the calls of a plan on the files of this folder, and prints each with its answer. Usage: reach < PLAN */
#include "desk.h"

#include <inttypes.h>
#include <stdio.h>
#include <stdlib.h>
#include <string.h>

#define WORDS 64
#define FIGURES (SHAYDHOQEL_FIGURES * SHAYDHOQEL_ENTITIES)

struct bytes {
    uint8_t *bytes;
    size_t length;
};

struct opening {
    uint64_t date;
    bool dollars;
    uint64_t entities[WORDS];
    size_t length;
};

/* The arguments of an opening, and a slice as pointer and length. */
#define OPENED(opening) (opening)->date, (opening)->dollars, (opening)->entities, (opening)->length
#define LENT(slice) (slice).bytes, (slice).length

static void stop(const char *what) {
    fprintf(stderr, "reach: cannot use %s\n", what);
    exit(1);
}

static struct bytes room(size_t length) {
    struct bytes out = {malloc(length + 1), length};
    if (out.bytes == NULL) {
        stop("so much memory");
    }
    memset(out.bytes, 0xa5, length + 1);
    return out;
}

/* Files one behind the other, and where each ends. */
static struct bytes load(char **names, size_t count, uint64_t *ends) {
    struct bytes all = room(0);
    for (size_t i = 0; i < count; i++) {
        FILE *file = fopen(names[i], "rb");
        long length;
        if (file == NULL || fseek(file, 0, SEEK_END) != 0 || (length = ftell(file)) < 0) {
            stop(names[i]);
        }
        rewind(file);
        all.bytes = realloc(all.bytes, all.length + (size_t)length + 1);
        if (all.bytes == NULL || fread(all.bytes + all.length, 1, (size_t)length, file) != (size_t)length) {
            stop(names[i]);
        }
        fclose(file);
        all.length += (size_t)length;
        ends[i] = all.length;
    }
    return all;
}

static struct bytes load_one(char *name) {
    uint64_t end;
    return load(&name, 1, &end);
}

/* FNV-1a, in 64 bits. */
static void print_digest(const uint8_t *bytes, size_t length) {
    uint64_t number = UINT64_C(0xcbf29ce484222325);
    for (size_t i = 0; i < length; i++) {
        number = (number ^ bytes[i]) * UINT64_C(0x100000001b3);
    }
    printf(" %016" PRIx64, number);
}

static void print_answer(struct shaydhoqel_spoken said) {
    if (said.place == SHAYDHOQEL_OPENING) {
        printf("%" PRIu64 " opening", said.number);
    } else {
        printf("%" PRIu64 " %" PRIu64, said.number, said.place);
    }
}

static void print_written(struct shaydhoqel_spoken said, struct bytes out) {
    print_answer(said);
    print_digest(LENT(out));
    free(out.bytes);
}

static bool in_dollars(const char *word) {
    return strcmp(word, "dollars") == 0;
}

static struct opening read_opening(char **words) {
    struct opening opening = {strtoull(words[0], NULL, 10), in_dollars(words[1]), {0}, 0};
    if (strcmp(words[2], "nobody") != 0) {
        for (char *word = words[2]; word != NULL && opening.length < WORDS; word = strchr(word, ',')) {
            word += *word == ',';
            opening.entities[opening.length++] = strtoull(word, NULL, 10);
        }
    }
    return opening;
}

static void day(const struct opening *opening, char **names, size_t count) {
    uint64_t ends[WORDS], answers[2 * WORDS];
    int64_t figures[FIGURES];
    struct bytes files = load(names, count, ends);
    struct shaydhoqel_spoken said = shaydhoqel_day(OPENED(opening), ends, count, LENT(files), answers, 2 * count, figures, FIGURES);
    print_answer(said);
    for (size_t i = 0; said.number == 0 && i < count; i++) {
        printf(" %" PRIu64 "@%" PRIu64, answers[2 * i], answers[2 * i + 1]);
    }
    for (size_t e = 0; said.number == 0 && e < SHAYDHOQEL_ENTITIES; e++) {
        const int64_t *cell = figures + e;
        int64_t position = cell[SHAYDHOQEL_POSITION * SHAYDHOQEL_ENTITIES], sent = cell[SHAYDHOQEL_SENT * SHAYDHOQEL_ENTITIES];
        int64_t received = cell[SHAYDHOQEL_RECEIVED * SHAYDHOQEL_ENTITIES];
        if (position != 0 || sent != 0 || received != 0) {
            printf(" %zu:%" PRId64 "/%" PRId64 "/%" PRId64, e, position, sent, received);
        }
    }
    free(files.bytes);
}

static void day_listing(const struct opening *opening, char **names, size_t count) {
    uint64_t ends[WORDS];
    uint8_t out[SHAYDHOQEL_LISTING];
    struct bytes files = load(names, count, ends);
    struct shaydhoqel_spoken said = shaydhoqel_day_listing(OPENED(opening), ends, count, LENT(files), out);
    print_answer(said);
    if (said.number == 0) {
        print_digest(out, said.place);
    }
    free(files.bytes);
}

static void listing(char *name) {
    uint8_t out[SHAYDHOQEL_LISTING];
    struct bytes file = load_one(name);
    uint64_t length = shaydhoqel_listing(LENT(file), out);
    printf("0 %" PRIu64, length);
    print_digest(out, length);
    free(file.bytes);
}

static void company(char **words) {
    struct bytes lo = load_one(words[1]), file = load_one(words[2]), out = room(strtoull(words[3], NULL, 10));
    print_written(shaydhoqel_company(in_dollars(words[0]), LENT(lo), LENT(file), LENT(out)), out);
    free(lo.bytes);
    free(file.bytes);
}

static void extract(const struct opening *opening, char **words) {
    struct bytes file = load_one(words[1]), out = room(strtoull(words[2], NULL, 10));
    print_written(shaydhoqel_extract(OPENED(opening), strtoull(words[0], NULL, 10), LENT(file), LENT(out)), out);
    free(file.bytes);
}

static void build(const struct opening *opening, char **words) {
    struct bytes header = load_one(words[0]), tray = load_one(words[1]), out = room(strtoull(words[2], NULL, 10));
    print_written(shaydhoqel_build(OPENED(opening), LENT(header), LENT(tray), LENT(out)), out);
    free(header.bytes);
    free(tray.bytes);
}

static void strip(const struct opening *opening, char **words) {
    struct bytes file = load_one(words[0]), out = room(strtoull(words[1], NULL, 10));
    print_written(shaydhoqel_strip(OPENED(opening), LENT(file), LENT(out)), out);
    free(file.bytes);
}

static void reads(const struct opening *opening, char **words) {
    struct bytes file = load_one(words[0]);
    print_answer(shaydhoqel_read(OPENED(opening), LENT(file)));
    free(file.bytes);
}

static void receive(const struct opening *opening, char **words) {
    struct bytes file = load_one(words[1]);
    print_answer(shaydhoqel_receive(OPENED(opening), strtoull(words[0], NULL, 10), LENT(file)));
    free(file.bytes);
}

/* The text that begins at a byte of its source. */
static void print_text(uint64_t source, uint64_t at, struct bytes file, struct bytes motives) {
    print_digest((source == SHAYDHOQEL_IN_FILE ? file.bytes : motives.bytes) + at, SHAYDHOQEL_TEXT);
}

static void show(const struct opening *opening, char **words) {
    struct bytes file = load_one(words[1]), motives = load_one(words[2]);
    uint64_t entity = strtoull(words[0], NULL, 10), record = strtoull(words[3], NULL, 10);
    struct shaydhoqel_shown shown = shaydhoqel_show(OPENED(opening), entity, LENT(file), LENT(motives), record);
    print_answer((struct shaydhoqel_spoken){shown.number, shown.place});
    if (shown.number == 0) {
        print_text(shown.source, shown.at, file, motives);
    }
    free(file.bytes);
    free(motives.bytes);
}

static void print_reasons(struct bytes file, struct bytes motives, const uint64_t *texts, size_t records) {
    size_t reasons = 0;
    for (size_t i = 0; i < records; i++) {
        reasons += texts[2 * i] != SHAYDHOQEL_NOWHERE;
    }
    printf("0 %zu", reasons);
    for (size_t i = 0; i < records; i++) {
        if (texts[2 * i] != SHAYDHOQEL_NOWHERE) {
            printf(" %zu:%.3s", i, (const char *)file.bytes + i * SHAYDHOQEL_RECORD + 3);
            print_text(texts[2 * i], texts[2 * i + 1], file, motives);
        }
    }
}

static void reasons(const struct opening *opening, char **words) {
    struct bytes file = load_one(words[1]), motives = load_one(words[2]);
    size_t records = file.length / SHAYDHOQEL_RECORD;
    uint64_t entity = strtoull(words[0], NULL, 10), *texts = calloc(2 * records + 1, sizeof *texts);
    if (texts == NULL) {
        stop("so much memory");
    }
    struct shaydhoqel_spoken said = shaydhoqel_reasons(OPENED(opening), entity, LENT(file), LENT(motives), texts, 2 * records);
    if (said.number == 0) {
        print_reasons(file, motives, texts, said.place);
    } else {
        print_answer(said);
    }
    free(texts);
    free(file.bytes);
    free(motives.bytes);
}

static void run(char **words, size_t count) {
    if (strcmp(words[0], "listing") == 0) {
        listing(words[1]);
        return;
    }
    if (strcmp(words[0], "company") == 0) {
        company(words + 1);
        return;
    }
    struct opening opening = read_opening(words + 1);
    char **rest = words + 4;
    if (strcmp(words[0], "read") == 0) {
        reads(&opening, rest);
    } else if (strcmp(words[0], "day") == 0) {
        day(&opening, rest, count - 4);
    } else if (strcmp(words[0], "day_listing") == 0) {
        day_listing(&opening, rest, count - 4);
    } else if (strcmp(words[0], "extract") == 0) {
        extract(&opening, rest);
    } else if (strcmp(words[0], "build") == 0) {
        build(&opening, rest);
    } else if (strcmp(words[0], "strip") == 0) {
        strip(&opening, rest);
    } else if (strcmp(words[0], "receive") == 0) {
        receive(&opening, rest);
    } else if (strcmp(words[0], "show") == 0) {
        show(&opening, rest);
    } else if (strcmp(words[0], "reasons") == 0) {
        reasons(&opening, rest);
    } else {
        stop(words[0]);
    }
}

int main(void) {
    char line[4096];
    while (fgets(line, sizeof line, stdin) != NULL) {
        char *words[WORDS] = {NULL};
        size_t count = 0;
        line[strcspn(line, "\n")] = 0;
        printf("%s = ", line);
        for (char *word = strtok(line, " "); word != NULL && count < WORDS; word = strtok(NULL, " ")) {
            words[count++] = word;
        }
        run(words, count);
        putchar('\n');
    }
    return 0;
}
