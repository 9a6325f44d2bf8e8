/* Prints how many bytes of stack each call takes at most: on files with every level of elements and with texts in pieces, on the largest plans, on
   events of every kind. The call runs on a stack of its own that was filled before and is looked at after. */
#define _XOPEN_SOURCE 700
#include "inputs.h"
#include "proved.h"

#include <stdio.h>
#include <string.h>
#include <ucontext.h>

enum { ROOM = 1 << 20, EVENTS = 4096 };

static uint8_t room[ROOM];
static ucontext_t caller, called;
static struct text file;
static uint32_t plan[PLAN_ROOM];
static size_t words;
static uint8_t events[EVENT * EVENTS], answers[EVENT * EVENTS];
static uint64_t answer;

static void nothing(void) { answer = 0; }
static void convert(void) { answer = steamfiddle_convert(file.bytes, file.len, plan, PLAN_ROOM); }
static void load(void) { answer = steamfiddle_load(plan, words); }
static void replay(void) { answer = steamfiddle_replay(plan, words, events, sizeof events, 0, 0, 0, 0, answers, sizeof answers); }

/* So many bytes at the stack's end are no longer as they were filled. */
static size_t stack_filled(void (*work)(void), int fill) {
    memset(room, fill, ROOM);
    getcontext(&called);
    called.uc_stack.ss_sp = room;
    called.uc_stack.ss_size = ROOM;
    called.uc_link = &caller;
    makecontext(&called, work, 0);
    swapcontext(&caller, &called);
    size_t untouched = 0;
    while (untouched < ROOM && room[untouched] == fill) untouched++;
    return ROOM - untouched;
}

static size_t most(size_t a, size_t b) { return a < b ? b : a; }

/* A byte may be written as it was filled: two fills. */
static size_t stack_of(void (*work)(void)) { return most(stack_filled(work, 0xA5), stack_filled(work, 0x5A)); }

static void set_file(const char *text) {
    file.len = strlen(text);
    memcpy(file.bytes, text, file.len);
}

/* Known elements at every level, unknown ones below them to the eighth; texts in one piece and in several. */
#define HEAD "<KVASER><VERSION>2<!-- -->.0</VERSION><SETTINGS><MODE log_all=\"NO\" fifo_mode=\"NO\"/></SETTINGS><CAN_BUS><PARAMETERS channel=\"0\" " \
    "bitrate=\"500000\" tseg1=\"5\" tseg2=\"2\" sjw=\"1\" silent=\"NO\"/></CAN_BUS><TRIGGERBLOCK><TRIGGERS><TRIGGER_STARTUP name=\"boot\" " \
    "timeout=\"0\"/></TRIGGERS><STATEMENTS><STATEMENT pretrigger=\"0\" posttrigger=\"0\"><EXPRESSION>bo<!-- -->ot%s</EXPRESSION><ACTIONS>" \
    "<ACTION_START_LOG>%s</ACTION_START_LOG></ACTIONS></STATEMENT></STATEMENTS></TRIGGERBLOCK><FILTERS><MESSAGE_PASS msgid=\"1\" msgid_min=\"0\" " \
    "can_ext=\"NO\"><CHANNEL>%s</CHANNEL></MESSAGE_PASS></FILTERS></KVASER>"
static const char *const insides[] = {"", "<e/>", "<!-- -->", "<e><f/></e>", "<e><f>x<!-- -->y</f></e>", "<e><f><g/></f></e>"};

int main(void) {
    size_t own = stack_of(nothing), converting = 0, loading = 0, replaying = 0;
    const struct sizes *const plans[] = {&no_trigger_plan, &typical_plan, &full_plan};
    for (size_t i = 0; i < sizeof insides / sizeof insides[0]; i++) {
        char text[4096], channel[256];
        snprintf(channel, sizeof channel, "0%s%s", i % 2 ? "<!-- -->" : "", i < 5 ? insides[i] : "<e><f><g><h/></g></f></e>");
        snprintf(text, sizeof text, HEAD, insides[i], i < 3 ? insides[i] : "<e><f/></e>", channel);
        set_file(text);
        converting = most(converting, stack_of(convert));
        if (answer >> 32) printf("stack: a file is refused: %u at %u\n", (unsigned)(answer >> 32), (unsigned)answer);
    }
    for (int i = 0; i < 6; i++) {
        make_events(events, EVENTS, i / 3, 9);
        make_file(&file, plans[i % 3]);
        converting = most(converting, stack_of(convert));
        words = (uint32_t)answer;
        loading = most(loading, stack_of(load));
        replaying = most(replaying, stack_of(replay));
    }
    make_file(&file, &full_file);
    converting = most(converting, stack_of(convert));
    printf("stack in bytes, the measuring's own %zu in each: convert %zu, load %zu, replay %zu\n", own, converting, loading, replaying);
    return 0;
}
