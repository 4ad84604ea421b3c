/* The office in C, over the static library: what `office` prints, byte for byte. docs/FORMAT.md has the file. */
#include <errno.h>
#include <inttypes.h>
#include <stdbool.h>
#include <stdio.h>
#include <stdlib.h>
#include <string.h>

#include "yewcribbage.h"

static const char HELP[] =
    "usage: office [FILE]\n"
    "\n"
    "Opens the plan that FILE begins with (standard input where no file is named) and\n"
    "does the requests behind it. docs/FORMAT.md has the file and what is printed.\n";

/* What a file holds, and how far it was read. */
struct file {
    unsigned char *bytes;
    size_t length;
    size_t at;
};

static bool read_all(FILE *from, struct file *file)
{
    size_t room = 0;
    for (;;) {
        if (file->length == room) {
            room = room ? 2 * room : 4096;
            unsigned char *more = realloc(file->bytes, room);
            if (!more)
                return false;
            file->bytes = more;
        }
        size_t got = fread(file->bytes + file->length, 1, room - file->length, from);
        if (got == 0)
            return !ferror(from);
        file->length += got;
    }
}

/* How many whole numbers are left. */
static size_t numbers_left(const struct file *file)
{
    return (file->length - file->at) / 4;
}

static uint64_t number_at(const struct file *file, size_t at)
{
    const unsigned char *b = file->bytes + at;
    return b[0] | (uint64_t)b[1] << 8 | (uint64_t)b[2] << 16 | (uint64_t)b[3] << 24;
}

/* The next numbers, at most so many; how many there are. The file is read on by all of them, there or not. */
static size_t read_numbers(struct file *file, uint64_t *numbers, size_t most)
{
    size_t count = numbers_left(file) < most ? numbers_left(file) : most;
    for (size_t i = 0; i < count; i++)
        numbers[i] = number_at(file, file->at + 4 * i);
    file->at = count < most ? file->length : file->at + 4 * most;
    return count;
}

/* Says why a request was refused; whether it was. */
static bool is_refused(uint64_t told)
{
    if (told == 0)
        return false;
    printf("refused %" PRIu64 " at %" PRIu64 "\n", yew_refusal(told), yew_place(told));
    return true;
}

struct plan {
    uint64_t words[YEW_PLAN_ROOM];
};

/* The plan that the file begins with; whether it may be used. Counts that are too high are refused without the rest. */
static bool open_plan(struct file *file, struct plan *plan)
{
    size_t length = read_numbers(file, plan->words, 3);
    if (length == 3) {
        uint64_t piers = plan->words[0], legs = plan->words[1], walks = plan->words[2];
        if (piers <= YEW_MOST_PIERS && legs <= YEW_MOST_LEGS && walks <= YEW_MOST_WALKS)
            length += read_numbers(file, plan->words + 3, piers + 6 * legs + 3 * walks);
    }
    /* An itinerary of no legs still goes in every plan that may be used. */
    uint64_t nowhere[3] = {0, 0, 0}, word;
    return !is_refused(yew_still(plan->words, length, nowhere, 3, &word));
}

static void tell_itinerary(const struct plan *plan, const uint64_t question[4], uint64_t arrival, uint64_t boats)
{
    static uint64_t legs[YEW_JOURNEY_ROOM];
    if (is_refused(yew_journey(plan->words, YEW_PLAN_ROOM, question, 4, arrival, boats, legs, YEW_JOURNEY_ROOM)))
        return;
    for (uint64_t i = 0; i < legs[0]; i++)
        printf("%s%" PRIu64 ".%" PRIu64, i ? " " : "", legs[1 + 2 * i], legs[2 + 2 * i]);
    putchar('\n');
}

/* The marks on a line, and then the itinerary for each on a line of its own. */
static void answer(struct file *file, const struct plan *plan)
{
    uint64_t question[4], marks[YEW_ANSWER_ROOM];
    size_t length = read_numbers(file, question, 4);
    if (is_refused(yew_answer(plan->words, YEW_PLAN_ROOM, question, length, marks, YEW_ANSWER_ROOM)))
        return;
    for (uint64_t i = 0; i < marks[0]; i++)
        printf("%s%" PRIu64 "/%" PRIu64, i ? " " : "", marks[1 + 2 * i], marks[2 + 2 * i]);
    putchar('\n');
    for (uint64_t i = 0; i < marks[0]; i++)
        tell_itinerary(plan, question, marks[1 + 2 * i], marks[2 + 2 * i]);
}

/* The count says how far the request goes, also where that is past the file's end or more than any itinerary has. */
static void still(struct file *file, const struct plan *plan)
{
    static uint64_t given[3 + 2 * YEW_MOST_LEGS];
    size_t length = read_numbers(file, given, 3);
    if (length == 3) {
        uint64_t count = given[2];
        if (count <= YEW_MOST_LEGS)
            length += read_numbers(file, given + 3, 2 * count);
        else
            file->at = numbers_left(file) < 2 * count ? file->length : file->at + 8 * count;
    }
    uint64_t word;
    if (!is_refused(yew_still(plan->words, YEW_PLAN_ROOM, given, length, &word)))
        puts(word ? "still" : "gone");
}

static uint64_t update(int kind, uint64_t *plan, const uint64_t n[6])
{
    switch (kind) {
    case 1:
        return yew_delay(plan, YEW_PLAN_ROOM, n[0], n[1], n[2]);
    case 2:
        return yew_cancel(plan, YEW_PLAN_ROOM, n[0], n[1]);
    default:
        return yew_extra(plan, YEW_PLAN_ROOM, n[0], n[1], n[2], n[3], n[4], n[5]);
    }
}

/* Does the requests behind the plan; whether all of them could be read. */
static bool serve(struct file *file, struct plan *plan)
{
    static const size_t sizes[4] = {0, 3, 2, 6};
    while (file->at < file->length) {
        size_t start = file->at++;
        int kind = file->bytes[start];
        if (kind == 0) {
            answer(file, plan);
        } else if (kind == 4) {
            still(file, plan);
        } else if (kind > 4) {
            fprintf(stderr, "office: byte %zu: there is no request %d yet\n", start, kind);
            return false;
        } else {
            uint64_t numbers[6];
            if (read_numbers(file, numbers, sizes[kind]) < sizes[kind]) {
                fprintf(stderr, "office: the update at byte %zu is cut short\n", start);
                return false;
            }
            is_refused(update(kind, plan->words, numbers));
        }
    }
    return true;
}

static bool read_input(const char *name, struct file *file)
{
    FILE *from = name ? fopen(name, "rb") : stdin;
    bool is_read = from && read_all(from, file);
    if (!is_read)
        fprintf(stderr, "office: cannot read %s: %s\n", name ? name : "standard input", strerror(errno));
    if (from && name)
        fclose(from);
    return is_read;
}

int main(int count, char **words)
{
    if (count >= 2 && strcmp(words[1], "--help") == 0)
        return fputs(HELP, stdout) < 0 ? EXIT_FAILURE : EXIT_SUCCESS;
    if (count > 2) {
        fputs("office: one file at most; see office --help\n", stderr);
        return EXIT_FAILURE;
    }
    struct file file = {NULL, 0, 0};
    static struct plan plan;
    bool is_done = read_input(count == 2 ? words[1] : NULL, &file) && (!open_plan(&file, &plan) || serve(&file, &plan));
    free(file.bytes);
    return is_done && fflush(stdout) == 0 ? EXIT_SUCCESS : EXIT_FAILURE;
}
