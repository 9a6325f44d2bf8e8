/* Compares the plain C with the proved libraries: the same answers, places, plan words and bytes, or a message and status 1. */
#include "inputs.h"
#include "plain.h"
#include "proved.h"

#include <stdio.h>
#include <stdlib.h>
#include <string.h>

enum { BEHIND = 8, EVENTS = 400 };

static unsigned long conversions, loads, replays, taken, by_number[32], by_answer[32], by_state[5];

static void fail(const char *what, uint64_t plain, uint64_t proved, const uint8_t *input, size_t len) {
    printf("check: %s differs: plain %llu %llu, proved %llu %llu; the input, %zu bytes:\n", what, (unsigned long long)(plain >> 32),
           (unsigned long long)(plain & 0xFFFFFFFF), (unsigned long long)(proved >> 32), (unsigned long long)(proved & 0xFFFFFFFF), len);
    fwrite(input, 1, len, stdout);
    printf("\n");
    exit(1);
}

/* The file's bytes stand at the end of a block of their own, so that reading behind them is an error that tools can see. */
static uint64_t compare_convert(const uint8_t *file, size_t len, size_t room) {
    static uint32_t a[PLAN_ROOM + BEHIND], b[PLAN_ROOM + BEHIND];
    uint8_t *own = malloc(len + 1);
    memcpy(own + 1, file, len);
    memset(a, 0xA5, sizeof a);
    memset(b, 0xA5, sizeof b);
    uint64_t x = plain_convert(own + 1, len, a, room), y = steamfiddle_convert(own + 1, len, b, room);
    if (x != y) fail("the answer of convert", x, y, file, len);
    if (memcmp(a, b, sizeof a) != 0) fail("the plan", x, y, file, len);
    free(own);
    conversions++;
    by_number[y >> 32]++;
    return y;
}

static void compare_replay(const uint32_t *plan, size_t len, const uint8_t *events, size_t events_len, uint32_t start, size_t out_len) {
    static uint8_t a[EVENT * (EVENTS + 1)], b[EVENT * (EVENTS + 1)];
    memset(a, 0xA5, sizeof a);
    memset(b, 0xA5, sizeof b);
    uint64_t x = plain_replay(plan, len, events, events_len, start, 1, 2, 3, a, out_len);
    uint64_t y = steamfiddle_replay(plan, len, events, events_len, start, 1, 2, 3, b, out_len);
    if (x != y || memcmp(a, b, sizeof a) != 0) fail("a replay", x, y, (const uint8_t *)plan, 4 * len);
    for (size_t i = 0; i < y; i++) {
        by_answer[b[EVENT * i]]++;
        by_state[b[EVENT * i + 1]]++;
    }
    replays++;
}

static void compare_load(const uint32_t *plan, size_t len, const uint8_t *events, size_t events_len) {
    uint32_t x = plain_load(plan, len), y = steamfiddle_load(plan, len);
    if (x != y) fail("the answer of load", x, y, (const uint8_t *)plan, 4 * len);
    loads++;
    taken += y == 0;
    if (y == 0 || loads % 64 == 0) compare_replay(plan, len, events, events_len, 0, events_len);
}

/* Every word of the plan, changed in turn to values at the edges of the ranges; one word more and less. */
static void compare_plans(const uint32_t *plan, size_t len, uint64_t seed) {
    static const uint32_t edges[] = {0,    1,    2,    3,         4,         5,         6,         7,          8,          9,           16,
                                     17,   23,   24,   31,        32,        33,        34,        35,         64,         65,          255,
                                     2047, 2048, 2049, 536870911, 536870912, 536870913, 999999999, 1000000000, 1000000001, 4294967294u, 4294967295u};
    static uint32_t words[PLAN_ROOM + 1];
    static uint8_t few[EVENT * 32], events[EVENT * EVENTS];
    make_events(events, EVENTS, 1, seed);
    make_events(few, 32, 1, seed + 1);
    memcpy(words, plan, 4 * len);
    words[len] = 0;
    compare_replay(words, len, events, sizeof events, 0, sizeof events);
    compare_replay(words, len, events, sizeof events, 4294967295u - 60, sizeof events);
    compare_replay(words, len, events, sizeof events, 4294967295u, sizeof events);
    compare_replay(words, len, events, EVENT * 9 + 31, 0, sizeof events);
    compare_replay(words, len, events, sizeof events, 0, EVENT * 9 + 31);
    compare_load(words, len + 1, few, sizeof few);
    for (size_t n = 0; n <= len; n++) compare_load(words, n, few, sizeof few);
    for (size_t i = 0; i < len; i++) {
        for (size_t k = 0; k < sizeof edges / sizeof *edges + 3; k++) {
            words[i] = k < sizeof edges / sizeof *edges ? edges[k] : k % 3 == 0 ? plan[i] + 1 : k % 3 == 1 ? plan[i] - 1 : draw(&seed, 40);
            compare_load(words, len, few, sizeof few);
        }
        words[i] = plan[i];
    }
}

/* Frames that bring out every answer: random times, a plan as it is converted. */
static void compare_events(const struct text *t, uint64_t seed) {
    static uint32_t plan[PLAN_ROOM];
    static uint8_t events[EVENT * EVENTS];
    uint64_t words = steamfiddle_convert(t->bytes, t->len, plan, PLAN_ROOM);
    if (words >> 32) return;
    for (int k = 0; k < 4; k++) {
        make_events(events, EVENTS, k % 2, seed + k);
        compare_replay(plan, words, events, sizeof events, 0, sizeof events);
        plan[2] = k == 2;
    }
}

/* A place where a line begins. */
static size_t line_from(const struct text *t, size_t at) {
    while (at > 0 && t->bytes[at - 1] != '\n') at--;
    return at;
}

static void remove_part(struct text *t, size_t at, size_t n) {
    memmove(t->bytes + at, t->bytes + at + n, t->len - at - n);
    t->len -= n;
}

static void insert(struct text *t, size_t at, const void *p, size_t n) {
    uint8_t part[512];
    memcpy(part, p, n);
    memmove(t->bytes + at + n, t->bytes + at, t->len - at);
    memcpy(t->bytes + at, part, n);
    t->len += n;
}

/* From `at` on, the next of two bytes. */
static size_t next_of(const struct text *t, size_t at, uint8_t a, uint8_t b) {
    while (at < t->len && t->bytes[at] != a && t->bytes[at] != b) at++;
    return at;
}

#define ANY(list) list[draw(seed, sizeof list / sizeof *list)]

static const char odd_bytes[] = "<>/=\"-&!?_ \t\n\r(A0x9\x01\x7f\x80";
static const char *const pieces[] = {"<!-- -->",  "<X/>", "x",    "-->",  "<A><B>t</B></A>", "NOT ", " AND ", "(", ")", "&amp;",
                                     "<![CDATA[", "1",    "<!--", "<?p?>"};
static const char *const elements[] = {"<PARAMETERS_FD/>",
                                       "<TRIGGER_TIMER/>",
                                       "<EXTERNAL_PULSE/>",
                                       "<ACTION_START_LOG/>",
                                       "<FLAGS_PASS/>",
                                       "<CHANNEL>0</CHANNEL>",
                                       "<CHANNEL/>",
                                       "<VERSION>2.0</VERSION>",
                                       "<MODE/>",
                                       "<EXPRESSION/>",
                                       "<ACTIONS>x</ACTIONS>",
                                       "stray",
                                       "<STATEMENTS/>",
                                       "<FILTERS/>",
                                       "<TRIGGER_STARTUP name=\"b\" timeout=\"-1\"/>",
                                       "<ACTION_STOP_LOG_COMPLETELY/>"};
static const char *const attributes[] = {" a=\"\"",         " iso=\"\"",        " can_fd=\"YES\"", " can_fd=\"NO\"", " protocol=\"J1939\"",
                                         " msg_field=\"\"", " dlc=\"8\"",       " channel=\"0\"",  " sjw_brs='1'",   " name = \"x\"",
                                         "\tdlc_min=\"9\"", " a=\"1\" a=\"2\"", " timeout=\"0\""};
static const char *const values[] = {"-1",         "0",           "1",          "4",           "5",          "8",          "9",          "0x",
                                     "0x0",        "0X1",         "0xfFfFfFfF", "0x100000000", "255",        "256",        "1000000",    "1000001",
                                     "2047",       "2048",        "536870911",  "536870912",   "1000000000", "1000000001", "4294967295", "4294967296",
                                     "9999999999", "00000000001", "YES",        "NO",          "yes",        "NONE",       "J1939",      "AND",
                                     "NOT",        "And",         "",           " 1",          "1,500",      "never",      "pedal_0",    "brake_1"};

/* One small edit of a file: a byte or a line deleted, doubled, changed or moved; a piece, an element or an attribute put in; a value changed. */
static void edit(struct text *t, uint64_t *seed) {
    if (t->len == 0) return;
    size_t at = draw(seed, t->len), from = line_from(t, at), to = next_of(t, at, '\n', '\n');
    size_t n = to + (to < t->len) - from;
    const char *piece = ANY(pieces);
    n = n > 512 ? 512 : n;
    switch (draw(seed, 11)) {
    case 0: remove_part(t, at, 1); break;
    case 1: insert(t, at, t->bytes + at, 1); break;
    case 2: t->bytes[at] = ANY(odd_bytes); break;
    case 3: t->bytes[at] = draw(seed, 3) ? '0' + draw(seed, 10) : draw(seed, 256); break;
    case 4: remove_part(t, from, n); break;
    case 5: insert(t, from, t->bytes + from, n); break;
    case 6: insert(t, line_from(t, draw(seed, t->len)), t->bytes + from, n); break;
    case 7: insert(t, at, piece, strlen(piece)); break;
    case 8:
        piece = ANY(elements);
        insert(t, next_of(t, at, '<', '<'), piece, strlen(piece));
        break;
    case 9:
        piece = ANY(attributes);
        insert(t, next_of(t, at, '>', '/'), piece, strlen(piece));
        break;
    default:
        piece = ANY(values);
        from = next_of(t, next_of(t, at, '=', '='), '"', '"') + 1;
        if (from < t->len) {
            remove_part(t, from, next_of(t, from, '"', '\n') - from);
            insert(t, from, piece, strlen(piece));
        }
    }
}

static void compare_edits(const struct text *original, int count, int most, uint64_t seed) {
    static struct text t;
    for (int i = 0; i < count; i++) {
        memcpy(&t, original, sizeof t);
        for (int k = draw(&seed, most); k >= 0; k--) edit(&t, &seed);
        compare_convert(t.bytes, t.len, PLAN_ROOM);
    }
}

/* The file with every room that matters, and what the plan does. */
static void compare_file(const struct text *t) {
    uint64_t x = compare_convert(t->bytes, t->len, PLAN_ROOM);
    compare_convert(t->bytes, t->len, 0);
    if (x >> 32 == 0) {
        compare_convert(t->bytes, t->len, x);
        compare_convert(t->bytes, t->len, x - 1);
    }
    compare_events(t, t->len);
}

/* A file with one trigger, of that timeout, and one statement, of that expression. */
static void compare_expression(const char *timeout, const char *expression) {
    static char text[4096];
    int n =
        snprintf(text, sizeof text,
                 "<KVASER><VERSION>2.0</VERSION><SETTINGS><MODE log_all='NO' fifo_mode='NO'/></SETTINGS><CAN_BUS><PARAMETERS channel='0' bitrate='1' "
                 "tseg1='1' tseg2='1' sjw='1' silent='NO'/></CAN_BUS><TRIGGERBLOCK><TRIGGERS><TRIGGER_STARTUP name='a' timeout='%s'/></TRIGGERS>"
                 "<STATEMENTS><STATEMENT pretrigger='0' posttrigger='0'><EXPRESSION>%s</EXPRESSION><ACTIONS/></STATEMENT></STATEMENTS>"
                 "</TRIGGERBLOCK><FILTERS/></KVASER>",
                 timeout, expression);
    for (int i = 0; i < n; i++) {
        if (text[i] == '\'') text[i] = '"';
    }
    compare_convert((const uint8_t *)text, n, PLAN_ROOM);
}

static void repeat(char *to, const char *what, int times) {
    *to = 0;
    for (int i = 0; i < times; i++) to += sprintf(to, "%s", what);
}

/* Limits that edits seldom reach: tokens, brackets, digits, words, the height of the stack. */
static void compare_edges(void) {
    static const char *const expressions[] = {
        "",      "a",         "a AND",     "a b",     "NOT", "()",  "(a",  "a)",         "a)(a",           "a NOT",       "NOT(a)a",
        "AND a", "a OR OR a", "a<!-- -->", "A<X/>ND", "d",   "and", "a,a", "a AND d OR", "a<!-- -->AND a", "a A<X/>ND a", "a AND(NOT a OR a)",
        "\x80",  "a\ta"};
    static char text[1024], opened[64], closed[64];
    for (size_t i = 0; i < sizeof expressions / sizeof *expressions; i++) compare_expression("1", expressions[i]);
    for (int n = 0; n <= 70; n++) {
        repeat(text, "NOT ", n);
        compare_expression("1", strcat(text, "a"));
        repeat(text, "a OR ", n / 2);
        compare_expression("1", strcat(text, n % 2 ? "NOT a" : "a"));
        repeat(text, "a", n);
        compare_expression("1", text);
    }
    for (int n = 1; n <= 12; n++) {
        repeat(opened, "a OR(", n);
        repeat(closed, ")", n);
        snprintf(text, sizeof text, "%sa%s", opened, closed);
        compare_expression("1", text);
        snprintf(text, sizeof text, "0x%0*d", n, 1);
        compare_expression(text, "a");
        compare_expression(text + 2, "a");
    }
    for (uint32_t n = 1; n <= 32; n++) {
        uint32_t plan[6 + 6 + 3 + 64] = {1, 1, 0, 1, 0, 1, 4}, *line = plan + 12;
        line[2] = 2 * n - 1;
        for (uint32_t i = 0; i < n - 1; i++) line[3 + n + i] = 32 + i % 2;
        compare_load(plan, 12 + 3 + 2 * n - 1, (const uint8_t *)plan, EVENT);
    }
}

/* A null pointer with length 0, in each place: answered as an empty buffer, and not followed. */
static void compare_null(const struct text *file) {
    static uint32_t plan[PLAN_ROOM];
    static uint8_t events[EVENT], out[EVENT], event[EVENT];
    uint64_t x = steamfiddle_convert(file->bytes, file->len, plan, PLAN_ROOM);
    int same = steamfiddle_convert(NULL, 0, plan, PLAN_ROOM) == steamfiddle_convert(file->bytes, 0, plan, PLAN_ROOM);
    same = same && steamfiddle_convert(file->bytes, file->len, NULL, 0) == steamfiddle_convert(file->bytes, file->len, plan, 0);
    same = same && steamfiddle_load(NULL, 0) == steamfiddle_load(plan, 0);
    same = same && steamfiddle_replay(NULL, 0, event, EVENT, 1, 2, 3, 4, out, EVENT) == 1 && out[0] == 20 && out[16] == 1;
    same = same && steamfiddle_replay(plan, (uint32_t)x, NULL, 0, 0, 0, 0, 0, out, EVENT) == 0;
    same = same && steamfiddle_replay(plan, (uint32_t)x, events, EVENT, 0, 0, 0, 0, NULL, 0) == 0;
    if (!same) {
        printf("check: a null pointer with length 0 is answered otherwise than an empty buffer\n");
        exit(1);
    }
}

static void print_counts(const char *what, const unsigned long *counts, int n) {
    printf("check: %s:", what);
    for (int i = 0; i < n; i++) {
        if (counts[i]) printf("  %d: %lu", i, counts[i]);
    }
    printf("\n");
}

int main(void) {
    static struct text small, typical, full, t;
    static uint32_t plan[PLAN_ROOM];
    make_small(&small);
    make_file(&typical, &typical_file);
    make_file(&full, &full_file);
    compare_null(&small);
    compare_file(&small);
    compare_file(&typical);
    compare_file(&full);
    for (size_t n = 0; n <= small.len; n++) compare_convert(small.bytes, n, PLAN_ROOM);
    for (size_t n = 0; n <= typical.len; n++) compare_convert(typical.bytes, n, PLAN_ROOM);
    memset(full.bytes + full.len, ' ', 32770 - full.len);
    for (size_t n = 32766; n <= 32770; n++) compare_convert(full.bytes, n, PLAN_ROOM);
    memcpy(&t, &small, sizeof t);
    t.bytes[1] = t.bytes[t.len - 7] = 'k';
    compare_convert(t.bytes, t.len, PLAN_ROOM);
    compare_edits(&t, 200, 2, 10);
    compare_edges();
    compare_edits(&small, 6000, 3, 11);
    compare_edits(&typical, 6000, 1, 12);
    compare_edits(&typical, 3000, 4, 13);
    compare_edits(&full, 400, 2, 14);
    for (uint64_t i = 0; i < 300; i++) {
        uint64_t seed = 100 + i;
        int channels = 1 + draw(&seed, 5), triggers = 2 + draw(&seed, 31), filters = draw(&seed, 33), statements = draw(&seed, 17);
        int tokens = 1 + draw(&seed, 64), actions = 1 + draw(&seed, 6), marks = 1 + draw(&seed, 5);
        struct sizes s = {channels, triggers, filters, statements, tokens, actions, marks, 0, i};
        make_file(&t, &s);
        compare_file(&t);
        compare_edits(&t, 10, 2, 1000 + i);
    }
    const struct sizes *plans[] = {&no_trigger_plan, &typical_plan, &full_plan};
    for (int i = 0; i < 3; i++) {
        make_file(&t, plans[i]);
        compare_convert(t.bytes, t.len, PLAN_ROOM);
        uint64_t words = steamfiddle_convert(t.bytes, t.len, plan, PLAN_ROOM);
        if (words >> 32) fail("a file of the benchmark is refused, which", 0, words, t.bytes, t.len);
        compare_plans(plan, words, 7 + i);
    }
    printf("check: plain C and proved agree on %lu conversions, %lu loads (%lu taken), %lu replays\n", conversions, loads, taken, replays);
    print_counts("answers of convert by number", by_number, 32);
    print_counts("answers of replay by number", by_answer, 32);
    print_counts("logging states behind them", by_state, 5);
    return 0;
}
