/* Prints how long the proved libraries take: in times of the plain C and of expat, and in MB/s and nanoseconds. Every figure is the least of many rounds; in each round the
   implementations run in turn, so that a slow moment hits them all. */
#include "inputs.h"
#include "plain.h"
#include "proved.h"

#include <stdio.h>
#include <stdlib.h>
#include <time.h>

#ifdef WITH_EXPAT
#include <expat.h>
#endif

/* So many events that the processor cannot learn them by heart. */
enum { EVENTS = 8192, FEWEST_ROUNDS = 20, MOST_ROUNDS = 400 };

/* A round is about this long for each implementation: long enough for the clock, short enough to have warm rounds. */
static const double SLICE = 100e-6;

/* Beyond the fewest rounds a figure takes no longer than this. */
static const double LONGEST = 2;

static struct text file;
static uint32_t plan[PLAN_ROOM], written[PLAN_ROOM];
static size_t words;
static uint8_t events[EVENT * EVENTS], answers[EVENT * EVENTS];

/* What is measured; the sum of the answers keeps the calls from being left out. */
static volatile uint64_t kept;

static void convert_proved(void) { kept += steamfiddle_convert(file.bytes, file.len, written, PLAN_ROOM); }
static void convert_plain(void) { kept += plain_convert(file.bytes, file.len, written, PLAN_ROOM); }
static void load_proved(void) { kept += steamfiddle_load(plan, words); }
static void load_plain(void) { kept += plain_load(plan, words); }
static void replay_proved(void) { kept += steamfiddle_replay(plan, words, events, sizeof events, 0, 0, 0, 0, answers, sizeof answers); }
static void replay_plain(void) { kept += plain_replay(plan, words, events, sizeof events, 0, 0, 0, 0, answers, sizeof answers); }

#ifdef WITH_EXPAT
static XML_Parser parser;

static void XMLCALL on_start(void *user, const XML_Char *name, const XML_Char **attributes) { (void)user, (void)name, (void)attributes; }
static void XMLCALL on_end(void *user, const XML_Char *name) { (void)user, (void)name; }
static void XMLCALL on_text(void *user, const XML_Char *text, int len) { (void)user, (void)text, (void)len; }

/* The parser is made once and used again, which is the quickest way. */
static void parse_expat(void) {
    XML_ParserReset(parser, NULL);
    XML_SetElementHandler(parser, on_start, on_end);
    XML_SetCharacterDataHandler(parser, on_text);
    if (XML_Parse(parser, (const char *)file.bytes, (int)file.len, 1) != XML_STATUS_OK) {
        printf("bench: expat refuses a file of the benchmark\n");
        exit(1);
    }
}
#endif

/* The time that this program had the processor. */
static double now(void) {
    struct timespec t;
    clock_gettime(CLOCK_THREAD_CPUTIME_ID, &t);
    return t.tv_sec + 1e-9 * t.tv_nsec;
}

static double time_of(void (*work)(void), int times) {
    double begin = now();
    for (int i = 0; i < times; i++) work();
    return (now() - begin) / times;
}

/* The same with the stack moved by some bytes: where it stands makes copies on it quicker or slower by chance. */
static double time_moved(void (*work)(void), int times, int bytes) {
    volatile char room[bytes + 1];
    room[0] = room[bytes] = 0;
    return time_of(work, times);
}

/* How many calls fill a slice. */
static int times_for(void (*work)(void)) {
    int times = 1;
    while (time_of(work, times) * times < SLICE) times *= 2;
    return times;
}

/* The least time of one call of each. */
static void measure(void (*const work[])(void), int n, double *least) {
    int times[3];
    for (int k = 0; k < n; k++) {
        times[k] = times_for(work[k]);
        least[k] = 1e9;
    }
    double begin = now();
    for (int i = 0; i < MOST_ROUNDS && (i < FEWEST_ROUNDS || now() - begin < LONGEST); i++) {
        for (int k = 0; k < n; k++) {
            double t = time_moved(work[k], times[k], i * 208 % 4096);
            least[k] = t < least[k] ? t : least[k];
        }
    }
}

/* The plan of the file at hand. */
static void convert_file(void) {
    uint64_t x = steamfiddle_convert(file.bytes, file.len, plan, PLAN_ROOM);
    if (x >> 32) {
        printf("bench: a file of the benchmark is refused: %u at %u\n", (unsigned)(x >> 32), (unsigned)x);
        exit(1);
    }
    words = x;
}

static void bench_file(const char *name) {
#ifdef WITH_EXPAT
    void (*const convert[])(void) = {convert_proved, convert_plain, parse_expat};
    int n = 3;
#else
    void (*const convert[])(void) = {convert_proved, convert_plain};
    int n = 2;
#endif
    void (*const load[])(void) = {load_proved, load_plain};
    double t[3];
    convert_file();
    measure(convert, n, t);
    printf("convert  %-8s  %6zu bytes    %6.2f times the time of plain C   %7.1f MB/s\n", name, file.len, t[0] / t[1], file.len / t[0] / 1e6);
    if (n == 3) {
        printf("convert  %-8s  %6zu bytes    %6.2f times the time of expat's parse   %7.1f MB/s by expat\n", name, file.len, t[0] / t[2],
               file.len / t[2] / 1e6);
    }
    measure(load, 2, t);
    printf("load     %-8s  %6zu words    %6.2f times the time of plain C   %7.1f ns\n", name, words, t[0] / t[1], t[0] * 1e9);
}

static void bench_plan(const char *name, const struct sizes *sizes) {
    void (*const replay[])(void) = {replay_proved, replay_plain};
    double t[2];
    unsigned count[5] = {0};
    make_file(&file, sizes);
    convert_file();
    measure(replay, 2, t);
    for (int i = 0; i < EVENTS; i++) count[answers[EVENT * i] % 5]++;
    printf("replay   %-8s  %6d events   %6.2f times the time of plain C   %7.1f ns an event   (%d triggers, %d statements, %d filters; "
           "%u recorded, %u idle, %u stopped, %u ticks)\n",
           name, EVENTS, t[0] / t[1], t[0] / EVENTS * 1e9, sizes->triggers, sizes->statements, sizes->filters, count[0], count[1], count[2], count[4]);
}

int main(void) {
#ifdef WITH_EXPAT
    parser = XML_ParserCreate(NULL);
#endif
    printf("The time of the proved library, divided by that of the other; each the least of %d to %d rounds.\n", FEWEST_ROUNDS, MOST_ROUNDS);
    make_events(events, EVENTS, 0, 9);
    make_small(&file);
    bench_file("small");
    make_file(&file, &typical_file);
    bench_file("typical");
    make_file(&file, &full_file);
    bench_file("full");
    bench_plan("none", &no_trigger_plan);
    bench_plan("typical", &typical_plan);
    bench_plan("full", &full_plan);
    return 0;
}
