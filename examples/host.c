/* A host in C: converts a configuration file, loads its plan and runs the events of a list on it. Run examples/host.sh.

   An event a line, the time in microseconds first; what stands behind # is a remark:
     2000  tick
     3000  error CHANNEL
     20000 frame CHANNEL ID DLC     or remote, ext, ext-remote for frame */
#include <inttypes.h>
#include <stdint.h>
#include <stdio.h>
#include <string.h>

#include "steamfiddle.h"

enum { MOST_EVENTS = 1024 };

struct event {
    uint64_t time;
    uint8_t kind, flags, channel, dlc;
    uint32_t id;
};

static void put(uint8_t *at, uint64_t number, int size)
{
    for (int i = 0; i < size; i++) at[i] = (uint8_t)(number >> (8 * i));
}

static uint64_t get(const uint8_t *at, int size)
{
    uint64_t number = 0;
    for (int i = size; i > 0; i--) number = number << 8 | at[i - 1];
    return number;
}

static void spell(uint8_t *at, const struct event *e)
{
    at[0] = e->kind;
    at[1] = e->flags;
    at[2] = e->channel;
    at[3] = e->dlc;
    put(at + 4, e->id, 4);
    put(at + 8, e->time, 8);
}

/* The event that a line says; 0 if it says none, -1 if it is no good. */
static int parse(const char *line, struct event *e)
{
    char kind[16] = "";
    unsigned channel = 0, id = 0, dlc = 0;
    int n = sscanf(line, "%" SCNu64 " %15s %u %u %u", &e->time, kind, &channel, &id, &dlc);
    e->kind = STEAMFIDDLE_FRAME;
    e->flags = 0;
    e->channel = (uint8_t)channel;
    e->id = id;
    e->dlc = (uint8_t)dlc;
    if (n < 1) return 0;
    if (n == 2 && strcmp(kind, "tick") == 0) e->kind = STEAMFIDDLE_TICK;
    else if (n == 3 && strcmp(kind, "error") == 0) e->flags = STEAMFIDDLE_ERROR;
    else if (n == 5 && strcmp(kind, "frame") == 0) e->flags = 0;
    else if (n == 5 && strcmp(kind, "remote") == 0) e->flags = STEAMFIDDLE_REMOTE;
    else if (n == 5 && strcmp(kind, "ext") == 0) e->flags = STEAMFIDDLE_EXT;
    else if (n == 5 && strcmp(kind, "ext-remote") == 0) e->flags = STEAMFIDDLE_EXT + STEAMFIDDLE_REMOTE;
    else return -1;
    return 1;
}

/* The events of a list; -1 if a line is no good or there are too many. */
static int read_events(FILE *in, struct event *list)
{
    char line[256];
    int count = 0;
    while (fgets(line, sizeof line, in) != NULL) {
        line[strcspn(line, "#\n")] = '\0';
        if (count == MOST_EVENTS) return -1;
        int found = parse(line, &list[count]);
        if (found < 0) return -1;
        count += found;
    }
    return count;
}

static void show(const struct event *e, const uint8_t *answer)
{
    static const char *const answers[] = {"Recorded", "Idle", "Stopped", "Halted", "Ticked"};
    static const char *const states[] = {"Off", "On", "ending", "ending completely", "Halted"};
    printf("%" PRIu64 ": ", e->time);
    if (answer[0] <= STEAMFIDDLE_TICKED) printf("%s, ", answers[answer[0]]);
    else printf("refused by %d, ", answer[0]);
    printf("%s", answer[1] <= STEAMFIDDLE_LOGGING_HALTED ? states[answer[1]] : "?");
    if (get(answer + 8, 8) != 0) printf(" at %" PRIu64, get(answer + 8, 8));
    printf("; recorded %" PRIu64 ", idle %" PRIu64 ", stopped %" PRIu64 ", halted %" PRIu64 "\n", get(answer + 16, 4), get(answer + 20, 4),
           get(answer + 24, 4), get(answer + 28, 4));
}

int main(int argc, char **argv)
{
    static uint8_t file[STEAMFIDDLE_FILE_BYTES + 1]; /* one byte more than any file may have, so that a longer one is refused */
    static uint32_t plan[STEAMFIDDLE_PLAN_WORDS];
    static struct event list[MOST_EVENTS];
    static uint8_t events[MOST_EVENTS * STEAMFIDDLE_RECORD_BYTES], out[MOST_EVENTS * STEAMFIDDLE_RECORD_BYTES];

    FILE *in = argc == 3 ? fopen(argv[1], "rb") : NULL, *lines = argc == 3 ? fopen(argv[2], "r") : NULL;
    if (in == NULL || lines == NULL) {
        fprintf(stderr, "usage: host FILE EVENTS, a configuration file and a list of events that can be read\n");
        return 2;
    }
    size_t size = fread(file, 1, sizeof file, in);
    int count = read_events(lines, list);
    int unread = ferror(in) || ferror(lines);
    fclose(in);
    fclose(lines);
    if (unread || count < 0) {
        fprintf(stderr, "host: a file could not be read, or a line of %s is no event\n", argv[2]);
        return 2;
    }

    uint64_t answer = steamfiddle_convert(file, size, plan, STEAMFIDDLE_PLAN_WORDS);
    uint32_t number = STEAMFIDDLE_NUMBER(answer), value = STEAMFIDDLE_VALUE(answer);
    if (number != 0) {
        printf("refused by %" PRIu32 " at %" PRIu32 "\n", number, value);
        return 1;
    }
    printf("a plan of %" PRIu32 " words, load answers %" PRIu32 "\n", value, steamfiddle_load(plan, value));

    for (int i = 0; i < count; i++) spell(events + i * STEAMFIDDLE_RECORD_BYTES, &list[i]);
    uint64_t n = steamfiddle_replay(plan, value, events, (size_t)count * STEAMFIDDLE_RECORD_BYTES, 0, 0, 0, 0, out, sizeof out);
    for (uint64_t i = 0; i < n; i++) show(&list[i], out + i * STEAMFIDDLE_RECORD_BYTES);
    return 0;
}
