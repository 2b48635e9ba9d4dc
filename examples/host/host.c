/* A host on site: checks a log against a sheet, with a limit or without, says what it found, and searches for each way to break the rule. */
#include <errno.h>
#include <stdio.h>
#include <stdlib.h>

#include "satskhubo.h"

/* One byte more than the largest text that is accepted, so that a longer file is refused and not cut. */
enum { SHEET_ROOM = 6168, LOG_ROOM = 60029 };

static size_t load(const char *name, uint8_t *into, size_t room) {
    FILE *file = fopen(name, "rb");
    if (file == NULL) {
        perror(name);
        exit(2);
    }
    size_t length = fread(into, 1, room, file);
    if (ferror(file)) {
        perror(name);
        exit(2);
    }
    fclose(file);
    return length;
}

/* A refusal, with the line that it is about. */
static int refused(uint32_t refusal, const uint8_t *sheet, size_t sheet_len, const uint8_t *log, size_t log_len) {
    uint8_t line[SATSKHUBO_MOST_LINE];
    size_t length = 0;
    satskhubo_line(sheet, sheet_len, log, log_len, line, &length);
    printf("refused %u: ", refusal);
    fwrite(line, 1, length, stdout);
    printf("\n");
    return 2;
}

/* One antiscenario: its text and where it is found. Gives the refusal, or 0. */
static uint32_t search_one(const uint8_t *sheet, size_t sheet_len, const uint8_t *log, size_t log_len, uint64_t number) {
    struct satskhubo_placement placement = {{0}, 0};
    uint8_t text[SATSKHUBO_MOST_TEXT];
    size_t length = 0;
    bool found = false, met = false;
    uint32_t answer = satskhubo_search(sheet, sheet_len, log, log_len, number, placement.positions, SATSKHUBO_MOST_POINTS, &found);
    if (answer != 0 || !found)
        return answer;
    answer = satskhubo_write(sheet, sheet_len, number, text, sizeof text, &length);
    if (answer != 0)
        return answer;
    printf("antiscenario %llu:\n", (unsigned long long)number);
    fwrite(text, 1, length, stdout);
    /* A placement is a matching of one number of points alone: any other is refused with 34. */
    while ((answer = satskhubo_judge(sheet, sheet_len, log, log_len, number, placement, &met)) == 34)
        placement.count++;
    if (answer != 0)
        return answer;
    printf("found at");
    for (size_t i = 0; i < placement.count; i++)
        printf(" %u", placement.positions[i]);
    printf(met ? "\n" : ", which is no matching\n");
    return 0;
}

/* A sheet has up to 12,230,590,464 antiscenarios; so many are looked at here. */
#define MOST_SEARCHED 4096

/* The antiscenarios from 1 on, but for those that no log can match. Gives the first refusal, or 0. */
static uint32_t search_all(const uint8_t *sheet, size_t sheet_len, const uint8_t *log, size_t log_len) {
    uint64_t count = 0, impossible_count = 0;
    uint32_t answer = satskhubo_read_sheet(sheet, sheet_len, &count);
    uint64_t last = count < MOST_SEARCHED ? count : MOST_SEARCHED;
    for (uint64_t number = 1; answer == 0 && number <= last; number++) {
        bool impossible = false;
        answer = satskhubo_impossible(sheet, sheet_len, number, &impossible);
        impossible_count += impossible;
        if (answer == 0 && !impossible)
            answer = search_one(sheet, sheet_len, log, log_len, number);
    }
    if (answer == 0 && impossible_count > 0)
        printf("impossible, not searched: %llu\n", (unsigned long long)impossible_count);
    if (answer == 0 && last < count)
        printf("searched: %llu of %llu antiscenarios\n", (unsigned long long)(last - impossible_count), (unsigned long long)count);
    return answer;
}

static void print_numbers(const uint32_t *numbers, uint32_t count) {
    for (uint32_t i = 0; i < count; i++)
        printf(" %u", numbers[i]);
}

/* Decimal digits, and no more than 64 bits hold. */
static bool read_limit(const char *text, uint64_t *limit) {
    char *end = NULL;
    errno = 0;
    *limit = strtoull(text, &end, 10);
    return text[0] >= '0' && text[0] <= '9' && *end == '\0' && errno == 0;
}

int main(int argc, char **argv) {
    static uint8_t sheet[SHEET_ROOM], log[LOG_ROOM];
    uint32_t positions[4], rows[6], points = 0, consequents = 0;
    uint64_t limit = 0, looked = 0, after = 0;
    if (argc != 3 && (argc != 4 || !read_limit(argv[3], &limit))) {
        fprintf(stderr, "usage: %s SHEET LOG [LIMIT]\n", argv[0]);
        return 2;
    }
    size_t sheet_len = load(argv[1], sheet, sizeof sheet);
    size_t log_len = load(argv[2], log, sizeof log);
    uint32_t answer = argc == 3 ? satskhubo_check(sheet, sheet_len, log, log_len, positions, &points, rows, &consequents)
                                : satskhubo_check_limited(sheet, sheet_len, log, log_len, limit, positions, &points, rows,
                                                          &consequents, &looked, &after);
    /* Stopped is neither holds nor violated. */
    if (answer == 102) {
        printf("stopped: matchings looked at %llu, ", (unsigned long long)looked);
        printf("placements after them %llu\n", (unsigned long long)after);
        return 3;
    }
    if (answer != check(sheet, sheet_len, log, log_len))
        return 2;
    if (answer == 0) {
        printf("holds\n");
        return 0;
    }
    if (answer != 100)
        return refused(answer, sheet, sheet_len, log, log_len);
    printf("violated at");
    print_numbers(positions, points);
    printf(", rows at fault");
    print_numbers(rows, consequents);
    printf("\n");
    answer = search_all(sheet, sheet_len, log, log_len);
    return answer == 0 ? 1 : refused(answer, sheet, sheet_len, log, log_len);
}
