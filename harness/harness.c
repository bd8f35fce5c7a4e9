/*
 * A bench's program over the library: opens the table files that are named on its
 * command line, prints verdict, order, slots, totals and leads of each, and checks
 * that a run in parts, with the state stored between them, equals the whole.
 *
 * Exit status: 0, or 1 if a check failed, or 2 if a file could not be read.
 */
#include "zitherquasar.h"

#include <inttypes.h>
#include <stdbool.h>
#include <stdio.h>
#include <stdlib.h>
#include <string.h>

#define SHOWN_DEFAULT 12

static unsigned long checks;
static unsigned long failures;

static void check(bool holds, const char *what)
{
    checks++;
    if (!holds) {
        failures++;
        printf("  FAILED: %s\n", what);
    }
}

static void *room(size_t size)
{
    /* The library wants a pointer for a size of 0 too. */
    void *bytes = malloc(size != 0 ? size : 1);
    if (bytes == NULL) {
        fputs("harness: out of memory\n", stderr);
        exit(2);
    }
    return bytes;
}

static void *copy(const void *bytes, size_t size)
{
    return memcpy(room(size), bytes, size);
}

/* The number in a stored state's big-endian field. */
static uint64_t field(const uint8_t *bytes, size_t width)
{
    uint64_t value = 0;
    for (size_t i = 0; i < width; i++)
        value = value << 8 | bytes[i];
    return value;
}

/* The number in a frame's digits. */
static uint64_t digits(const uint8_t *text, size_t count)
{
    uint64_t value = 0;
    for (size_t i = 0; i < count; i++)
        value = value << 4 | (uint64_t)(text[i] <= '9' ? text[i] - '0' : text[i] - 'a' + 10);
    return value;
}

static const char *reason(uint32_t refusal)
{
    switch (refusal) {
    case ZQ_BAD_LINE: return "the line isn't the frame due there";
    case ZQ_BAD_CORES: return "the number of cores isn't 2 to 32";
    case ZQ_BAD_TASKS: return "the number of tasks isn't 1 to 64";
    case ZQ_BAD_ROW: return "a row with C = 0, C > T or T > 65,535";
    case ZQ_BAD_REPEAT: return "the repeat length is above 1,000,000,000";
    case ZQ_TRAILING: return "bytes follow the last row";
    case ZQ_NO_ROOM: return "the buffer is too short";
    case ZQ_PAST_CLOCK: return "the clock would pass 1,000,000,000";
    case ZQ_BAD_STATE: return "the state isn't well formed";
    default: return "unknown";
    }
}

/* An opened table: its file, its fresh state and what both say. */
struct table {
    const uint8_t *file;
    size_t file_len;
    const uint8_t *fresh;
    size_t state_len;
    uint32_t cores;
    uint32_t tasks;
    uint64_t repeat;
    uint32_t (*rows)[2];
};

/* A run from the fresh state: its frames and the state after it. */
struct run {
    uint32_t slots;
    uint8_t *frames;
    size_t size;
    uint8_t *state;
};

static void show_verdict(struct table *table)
{
    uint8_t text[ZQ_VERDICT_MAX];
    size_t size = 0;
    check(zq_verdict(table->fresh, table->state_len, text, sizeof text, 0, &size) == ZQ_TAKEN, "the verdict is given");
    check(size == ZQ_VERDICT_SIZE(table->tasks), "frames 11 and 12 have their length");
    table->repeat = digits(text + 6, 8);
    printf("  verdict: %s, %" PRIu64 " heavy, repeat length %" PRIu64 "\n",
           digits(text + 2, 2) == 1 ? "admitted" : "not admitted", digits(text + 4, 2), table->repeat);
    printf("  order:");
    for (uint32_t i = 0; i < table->tasks; i++)
        printf(" %" PRIu64, digits(text + 15 + 2 + 2 * i, 2));
    putchar('\n');
}

static struct run run_whole(const struct table *table, uint32_t slots)
{
    struct run run;
    run.slots = slots;
    run.size = slots * ZQ_FRAME_SIZE(table->cores);
    run.frames = room(run.size);
    run.state = copy(table->fresh, table->state_len);
    size_t size = 0;
    check(zq_run(run.state, table->state_len, slots, run.frames, run.size, 0, &size) == ZQ_TAKEN, "the slots run");
    check(size == run.size, "the run has a frame for each slot");
    check(field(run.state + 2, 4) == slots, "the clock is the number of slots");
    return run;
}

static void show_leads(const struct table *table, const uint8_t *state)
{
    for (uint32_t task = 1; task <= table->tasks; task++) {
        int64_t lead = 0;
        check(zq_lead(state, table->state_len, task, &lead) == ZQ_TAKEN, "the lead is given");
        printf(" %" PRId64, lead);
    }
    putchar('\n');
}

/* Slot by slot: each frame, and the tasks' leads at its end. */
static void show_slots(const struct table *table, const struct run *whole, uint32_t shown)
{
    uint8_t *state = copy(table->fresh, table->state_len);
    uint32_t lines = whole->slots < shown ? whole->slots : shown;
    for (uint32_t i = 0; i < lines; i++) {
        uint8_t frame[ZQ_FRAME_MAX];
        size_t size = 0;
        check(zq_run(state, table->state_len, 1, frame, sizeof frame, 0, &size) == ZQ_TAKEN, "a slot runs");
        check(size == ZQ_FRAME_SIZE(table->cores), "frame 13 has its length");
        check(memcmp(frame, whole->frames + i * size, size) == 0, "a slot alone is the same in the whole");
        printf("  %.*s, leads", (int)size - 1, (const char *)frame);
        show_leads(table, state);
    }
    if (lines < whole->slots)
        printf("  and %" PRIu32 " slots more\n", whole->slots - lines);
    free(state);
}

static void show_totals(const struct table *table, const struct run *run)
{
    uint8_t text[ZQ_TOTALS_SIZE];
    size_t size = 0;
    check(zq_totals(run->state, table->state_len, text, sizeof text, 0, &size) == ZQ_TAKEN, "the totals are given");
    check(size == ZQ_TOTALS_SIZE, "frame 14 has its length");
    printf("  after %" PRIu32 " slots: %" PRIu64 " moves, %" PRIu64 " misses, %" PRIu64 " units dropped, leads",
           run->slots, digits(text + 2, 16), digits(text + 18, 16), digits(text + 34, 16));
    show_leads(table, run->state);
}

/* The rows that the state holds are the table again. */
static void check_rows(const struct table *table)
{
    const uint32_t (*rows)[2] = (const uint32_t (*)[2])table->rows;
    uint8_t *state = room(table->state_len);
    size_t size = 0;
    check(zq_open_list(table->cores, rows, table->tasks, state, table->state_len, &size) == ZQ_TAKEN, "the rows are a table");
    check(size == table->state_len && memcmp(state, table->fresh, size) == 0, "the rows have the file's fresh state");
    free(state);

    uint8_t *file = room(table->file_len);
    check(zq_write_list(table->cores, rows, table->tasks, file, table->file_len, 0, &size) == ZQ_TAKEN, "the rows are written");
    check(size == table->file_len && memcmp(file, table->file, size) == 0, "the rows are written as the very file");
    free(file);
}

/* Runs in parts, and stores the state away and takes it back between them. */
static void check_parts(const struct table *table, const struct run *whole)
{
    uint8_t *store = copy(table->fresh, table->state_len);
    uint8_t *frames = room(whole->size);
    size_t at = 0;
    uint32_t done = 0;
    for (uint32_t part = 0; done < whole->slots; part = 2 * part + 1) {
        uint32_t count = part < whole->slots - done ? part : whole->slots - done;
        uint8_t *state = copy(store, table->state_len);
        size_t size = 0;
        check(zq_run(state, table->state_len, count, frames, whole->size, at, &size) == ZQ_TAKEN, "a part runs");
        memcpy(store, state, table->state_len);
        free(state);
        at += size;
        done += count;
    }
    check(at == whole->size && memcmp(frames, whole->frames, at) == 0, "the parts' frames are those of the whole");
    check(memcmp(store, whole->state, table->state_len) == 0, "the parts end in the state of the whole");
    free(frames);
    free(store);
}

/* The program's text is the frames of verdict, order, slots and totals. */
static void check_report(const struct table *table, const struct run *run)
{
    size_t verdict = 0, totals = 0, size = 0;
    size_t len = ZQ_VERDICT_SIZE(table->tasks) + run->size + ZQ_TOTALS_SIZE;
    uint8_t *text = room(len);
    uint8_t *report = room(len);
    zq_verdict(table->fresh, table->state_len, text, len, 0, &verdict);
    memcpy(text + verdict, run->frames, run->size);
    zq_totals(run->state, table->state_len, text, len, verdict + run->size, &totals);
    check(verdict + run->size + totals == len, "the frames fill their room");
    check(zq_report(table->file, table->file_len, report, len, 0, &size) == ZQ_TAKEN, "the whole text is given");
    check(size == len && memcmp(report, text, len) == 0, "the whole text is the frames");
    free(report);
    free(text);
}

/* A run that must be refused, and must change nothing. */
static void refused(const struct table *table, const struct run *run, size_t state_len, uint32_t count, size_t out_len,
                    size_t at, uint32_t refusal)
{
    uint8_t *state = copy(run->state, table->state_len);
    uint8_t *out = copy(run->frames, run->size);
    size_t size = 7;
    check(zq_run(state, state_len, count, out, out_len, at, &size) == refusal, reason(refusal));
    check(size == 7, "a refusal leaves the size");
    check(memcmp(state, run->state, table->state_len) == 0, "a refusal leaves the state");
    check(memcmp(out, run->frames, run->size) == 0, "a refusal leaves the buffer");
    free(out);
    free(state);
}

static void check_refusals(const struct table *table, struct run *run)
{
    size_t state_len = table->state_len;
    uint32_t most = ZQ_CLOCK_MAX - run->slots;
    refused(table, run, state_len, run->slots, run->size - 1, 0, ZQ_NO_ROOM);
    refused(table, run, state_len, run->slots, run->size, 1, ZQ_NO_ROOM);
    refused(table, run, state_len, 0, run->size, run->size + 1, ZQ_NO_ROOM);
    refused(table, run, state_len, 1, run->size, SIZE_MAX, ZQ_NO_ROOM);
    refused(table, run, state_len, most + 1, run->size, SIZE_MAX, ZQ_PAST_CLOCK);
    refused(table, run, state_len - 1, most + 1, run->size, SIZE_MAX, ZQ_BAD_STATE);

    int64_t lead = 7;
    check(zq_lead(run->state, state_len, 0, &lead) == ZQ_BAD_TASKS, "no task is number 0");
    check(zq_lead(run->state, state_len, table->tasks + 1, &lead) == ZQ_BAD_TASKS, "no task is past the last");
    /* The first task's last core: none that the table has. */
    uint8_t core = run->state[22 + 9];
    run->state[22 + 9] = (uint8_t)(table->cores + 1);
    refused(table, run, state_len, 1, run->size, 0, ZQ_BAD_STATE);
    check(zq_lead(run->state, state_len, 0, &lead) == ZQ_BAD_STATE, "a bad state comes before a bad task");
    run->state[22 + 9] = core;
    check(lead == 7, "a refusal leaves the lead");
}

static void show_table(struct table *table, uint32_t shown)
{
    table->cores = (uint32_t)field(table->fresh, 1);
    table->tasks = (uint32_t)field(table->fresh + 1, 1);
    table->rows = room(table->tasks * sizeof *table->rows);
    for (uint32_t i = 0; i < table->tasks; i++) {
        const uint8_t *record = table->fresh + ZQ_STATE_SIZE(i);
        table->rows[i][0] = (uint32_t)field(record, 4);
        table->rows[i][1] = (uint32_t)field(record + 4, 4);
    }
    printf("  m = %" PRIu32 ", n = %" PRIu32 ":", table->cores, table->tasks);
    for (uint32_t i = 0; i < table->tasks; i++)
        printf(" (%" PRIu32 ",%" PRIu32 ")", table->rows[i][0], table->rows[i][1]);
    putchar('\n');

    show_verdict(table);
    struct run run = run_whole(table, table->repeat < ZQ_SLOTS_MAX ? (uint32_t)table->repeat : ZQ_SLOTS_MAX);
    show_slots(table, &run, shown);
    show_totals(table, &run);
    check_rows(table);
    check_parts(table, &run);
    check_report(table, &run);
    check_refusals(table, &run);
    free(run.frames);
    free(run.state);
    free(table->rows);
}

/* A refused file: the reason and its line, and the same from the program's text. */
static void show_refusal(const uint8_t *file, size_t file_len, uint32_t refusal, uint32_t line)
{
    if (line != 0)
        printf("  refused at line %" PRIu32 ": %s (%" PRIu32 ")\n", line, reason(refusal), refusal);
    else
        printf("  refused: %s (%" PRIu32 ")\n", reason(refusal), refusal);
    uint8_t text[ZQ_REFUSAL_SIZE];
    size_t size = 0;
    check(zq_report(file, file_len, text, sizeof text, 0, &size) == ZQ_TAKEN, "the refusal's text is given");
    check(size == ZQ_REFUSAL_SIZE && digits(text, 2) == 0x1f, "it is frame 1f");
    check(digits(text + 2, 2) == refusal && digits(text + 4, 4) == line, "it has the refusal and its line");
}

static void open_file(const uint8_t *file, size_t file_len, uint32_t shown)
{
    uint8_t *state = room(ZQ_STATE_MAX);
    size_t size = 0;
    uint32_t line = 0;
    uint32_t refusal = zq_open(file, file_len, state, ZQ_STATE_MAX, &size, &line);
    if (refusal != ZQ_TAKEN) {
        show_refusal(file, file_len, refusal, line);
    } else {
        struct table table = {.file = file, .file_len = file_len, .state_len = size};
        uint8_t *fresh = copy(state, size);
        table.fresh = fresh;
        check(zq_open(file, file_len, state, size - 1, &size, &line) == ZQ_NO_ROOM, "no room for the state");
        check(size == table.state_len && line == 0, "no room leaves the size, at line 0");
        check(memcmp(state, fresh, size) == 0, "no room leaves the buffer");
        show_table(&table, shown);
        free(fresh);
    }
    free(state);
}

static bool show_file(const char *name, uint32_t shown)
{
    FILE *stream = fopen(name, "rb");
    if (stream == NULL) {
        fprintf(stderr, "harness: cannot open %s\n", name);
        return false;
    }
    /* No accepted file is as long as this. */
    uint8_t *buffer = room(ZQ_INPUT_MAX);
    size_t len = fread(buffer, 1, ZQ_INPUT_MAX, stream);
    bool read = !ferror(stream);
    fclose(stream);
    if (read) {
        uint8_t *file = copy(buffer, len);
        printf("%s\n", name);
        open_file(file, len, shown);
        free(file);
    } else {
        fprintf(stderr, "harness: cannot read %s\n", name);
    }
    free(buffer);
    return read;
}

static int usage(void)
{
    fprintf(stderr, "usage: harness [--slots SHOWN] TABLE...\n  SHOWN: slots to print, 0 to %d (%d)\n", ZQ_SLOTS_MAX,
            SHOWN_DEFAULT);
    return 2;
}

int main(int argc, char **argv)
{
    unsigned long shown = SHOWN_DEFAULT;
    int first = 1;
    if (argc > 2 && strcmp(argv[1], "--slots") == 0) {
        char *end;
        shown = strtoul(argv[2], &end, 10);
        if (*end != '\0' || end == argv[2] || shown > ZQ_SLOTS_MAX)
            return usage();
        first = 3;
    }
    if (first >= argc)
        return usage();
    bool all_read = true;
    for (int i = first; i < argc; i++)
        all_read = show_file(argv[i], (uint32_t)shown) && all_read;
    printf("%lu checks, %lu failed\n", checks, failures);
    if (!all_read)
        return 2;
    return failures == 0 ? 0 : 1;
}
