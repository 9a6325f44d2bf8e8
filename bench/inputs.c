#include "inputs.h"

#include <stdarg.h>
#include <stdio.h>
#include <string.h>

const struct sizes typical_file = {2, 12, 10, 8, 9, 1, 2, 8192, 1};
const struct sizes full_file = {4, 32, 32, 16, 64, 6, 5, 32760, 2};
const struct sizes no_trigger_plan = {4, 0, 0, 0, 0, 0, 0, 0, 3};
const struct sizes typical_plan = {4, 8, 6, 4, 7, 1, 2, 0, 5};
const struct sizes full_plan = {4, 32, 32, 16, 64, 6, 4, 0, 5};

/* The identifier of the one trigger that lets the last statement stop completely. */
enum { NEVER = 0x7FE };

uint32_t draw(uint64_t *seed, uint32_t n) {
    *seed = *seed * 6364136223846793005ull + 1442695040888963407ull;
    return (uint32_t)(*seed >> 33) % n;
}

static void put(struct text *t, const char *form, ...) {
    va_list words;
    va_start(words, form);
    t->len += vsnprintf((char *)t->bytes + t->len, FILE_ROOM - t->len, form, words);
    va_end(words);
}

void make_small(struct text *t) {
    t->len = 0;
    put(t, "<KVASER><VERSION>2.0</VERSION><SETTINGS><MODE log_all=\"NO\" fifo_mode=\"NO\"/></SETTINGS><CAN_BUS><PARAMETERS channel=\"0\" "
           "bitrate=\"500000\" tseg1=\"11\" tseg2=\"4\" sjw=\"1\" silent=\"YES\"/></CAN_BUS><TRIGGERBLOCK><TRIGGERS/><STATEMENTS/></TRIGGERBLOCK>"
           "<FILTERS/></KVASER>");
}

static const char *const subjects[] = {"pedal", "brake", "door", "engine", "gear", "wheel", "lamp", "battery"};

static void put_name(struct text *t, const struct sizes *s, uint32_t i) {
    if (i + 1 == (uint32_t)s->triggers)
        put(t, "never");
    else
        put(t, "%s_%u", subjects[i % 8], (unsigned)i);
}

static void put_ids(struct text *t, uint32_t span, uint64_t *seed) {
    int ext = draw(seed, 4) == 0;
    uint32_t low = ext ? 0x10000 + draw(seed, 0x8000) : draw(seed, 0x7FF - span), high = low + draw(seed, ext ? 0x20 * span : span);
    if (draw(seed, 2))
        put(t, "msgid=\"0x%X\" msgid_min=\"0x%X\"", (unsigned)high, (unsigned)low);
    else
        put(t, "msgid=\"%u\" msgid_min=\"%u\"", (unsigned)high, (unsigned)low);
    put(t, " can_ext=\"%s\"", ext ? "YES" : "NO");
}

static void put_trigger(struct text *t, const struct sizes *s, uint32_t i, uint64_t *seed) {
    static const char *const timeouts[] = {"0", "1", "5", "20", "100", "0x1F4", "3", "-1"};
    static const char *const elements[] = {"TRIGGER_MSG_ID", "TRIGGER_MSG_DLC", "TRIGGER_MSG_ERROR_FRAME", "TRIGGER_STARTUP"};
    int last = i + 1 == (uint32_t)s->triggers, kind = last || i % 8 < 5 ? 0 : i % 8 - 4;
    put(t, "      <%s name=\"", elements[kind]);
    put_name(t, s, i);
    put(t, "\" timeout=\"%s\"", timeouts[draw(seed, i % 8 == 0 ? 8 : 7)]);
    if (kind != 3) put(t, " channel=\"%u\"", (unsigned)draw(seed, s->channels));
    if (last) {
        put(t, " msgid=\"%d\" msgid_min=\"%d\" can_ext=\"NO\"", NEVER, NEVER);
    } else if (kind == 0) {
        put(t, " ");
        put_ids(t, 0x60, seed);
    } else if (kind == 1) {
        uint32_t low = draw(seed, 9);
        put(t, " dlc=\"%u\" dlc_min=\"%u\"", (unsigned)(low + draw(seed, 9 - low)), (unsigned)low);
    }
    put(t, "/>\n");
}

static void put_chain(struct text *t, const struct sizes *s, int left, int depth, uint64_t *seed) {
    for (;;) {
        if (left >= 2 && draw(seed, 4) == 0) {
            put(t, "NOT ");
            left--;
        }
        if (left >= 5 && depth < 8 && draw(seed, 3) == 0) {
            int inner = 3 + (int)draw(seed, left - 4);
            put(t, "(");
            put_chain(t, s, inner, depth + 1, seed);
            put(t, ")");
            left -= inner + 2;
        } else {
            put_name(t, s, draw(seed, s->triggers - 1));
            left--;
        }
        if (left < 2) return;
        put(t, draw(seed, 2) ? " AND " : " OR ");
        left--;
    }
}

static void put_statement(struct text *t, const struct sizes *s, int i, uint64_t *seed) {
    static const char *const actions[] = {"ACTION_START_LOG", "ACTION_STOP_LOG", "ACTION_STOP_LOG_COMPLETELY"};
    int last = i + 1 == s->statements;
    put(t, "      <STATEMENT pretrigger=\"0\" posttrigger=\"%u\">\n        <EXPRESSION>", (unsigned)draw(seed, 50));
    if (last && s->tokens > 4) {
        put(t, "(");
        put_chain(t, s, s->tokens - 4, 1, seed);
        put(t, ") AND never");
    } else if (last) {
        put(t, "never");
    } else {
        put_chain(t, s, s->tokens, 0, seed);
    }
    put(t, "</EXPRESSION>\n        <ACTIONS>\n");
    for (int k = 0; k < s->actions; k++) put(t, "          <%s/>\n", actions[last && k + 1 == s->actions ? 2 : (i + k) % 2]);
    put(t, "        </ACTIONS>\n      </STATEMENT>\n");
}

static void put_filter(struct text *t, const struct sizes *s, int i, uint64_t *seed) {
    const char *element = i % 3 == 2 ? "MESSAGE_STOP" : "MESSAGE_PASS";
    put(t, "    <%s ", element);
    /* with few filters the usual ones are wide; many are narrow, so that a frame meets several */
    if (i % 3 == 0 && s->filters < 16)
        put(t, "msgid=\"0x6FF\" msgid_min=\"0x%X\" can_ext=\"NO\"", (unsigned)draw(seed, 0x100));
    else
        put_ids(t, i % 3 == 2 ? 0x60 : 0x200, seed);
    if (i % 4 == 1) put(t, " dlc=\"8\" dlc_min=\"%u\"", (unsigned)draw(seed, 4));
    if (i % 5 == 2) put(t, " can_fd=\"NO\" protocol=\"NONE\"");
    put(t, ">\n");
    for (int k = 0; k < s->marks; k++) put(t, "      <CHANNEL>%d</CHANNEL>\n", (i + k) % s->channels);
    put(t, "    </%s>\n", element);
}

/* A remark as people write them, now and then. */
static void put_remark(struct text *t, const struct sizes *s, const char *indent, int i) {
    static const char *const remarks[] = {
        "The pedal comes first: everything else waits for it.",
        "Measured on the test track; see the list of identifiers in the workshop.",
        "TODO: ask whether this one is still needed",
        "gateway, both directions",
    };
    if (s->bytes && i % 3 == 0) put(t, "\n%s<!-- %s -->\n", indent, remarks[i / 3 % 4]);
}

/* Comment lines up to the wanted size, `behind` bytes being still to come. */
static void fill(struct text *t, const struct sizes *s, size_t behind) {
    static const char line[] = "       Changes: new identifiers for the second gateway, timeouts as agreed with the bench, old ones kept.\n";
    size_t begin = strlen("  <!--\n"), end = strlen("  -->\n");
    if (t->len + begin + end + behind >= s->bytes) return;
    put(t, "  <!--\n");
    for (size_t left = s->bytes - behind - end - t->len; left > 1;) {
        size_t n = left < sizeof line - 1 ? left : sizeof line - 1;
        put(t, "%.*s\n", (int)n - 1, line);
        left -= n;
    }
    put(t, "  -->\n");
}

void make_file(struct text *t, const struct sizes *s) {
    static const char tail[] = "</KVASER>\n";
    uint64_t seed = s->seed;
    t->len = 0;
    put(t, "<?xml version=\"1.0\" encoding=\"UTF-8\"?>\n<!-- Logger configuration, made by rule. -->\n<KVASER>\n  <VERSION>2.0</VERSION>\n");
    put(t, "  <BINARY_VERSION>5.0</BINARY_VERSION>\n  <SETTINGS>\n    <MODE log_all=\"NO\" fifo_mode=\"YES\"/>\n    <CANPOWER timeout=\"10000\"/>\n");
    put(t, "    <COMMENT>Test vehicle 3,\n      winter tyres</COMMENT>\n  </SETTINGS>\n\n  <CAN_BUS>\n");
    for (int i = 0; i < s->channels; i++)
        put(t, "    <PARAMETERS channel=\"%d\" bitrate=\"%s\" tseg1=\"11\" tseg2=\"4\" sjw=\"1\" silent=\"%s\"/>\n", i, i % 2 ? "250000" : "500000",
            i % 2 ? "NO" : "YES");
    put(t, "  </CAN_BUS>\n\n  <TRIGGERBLOCK>\n    <TRIGGERS>\n");
    for (int i = 0; i < s->triggers; i++) {
        put_remark(t, s, "      ", i);
        put_trigger(t, s, i, &seed);
    }
    put(t, "    </TRIGGERS>\n    <STATEMENTS>\n");
    for (int i = 0; i < s->statements; i++) {
        put_remark(t, s, "      ", i + 1);
        put_statement(t, s, i, &seed);
    }
    put(t, "    </STATEMENTS>\n  </TRIGGERBLOCK>\n\n  <FILTERS>\n");
    for (int i = 0; i < s->filters; i++) {
        put_remark(t, s, "    ", i + 2);
        put_filter(t, s, i, &seed);
    }
    put(t, "  </FILTERS>\n\n");
    fill(t, s, sizeof tail - 1);
    put(t, "%s", tail);
}

static void put_event(uint8_t *e, uint64_t time, int wild, uint64_t *seed) {
    int ext = draw(seed, 4) == 0;
    uint32_t id = ext ? 0x10000 + draw(seed, 0xA000) : draw(seed, NEVER);
    e[0] = draw(seed, 16) != 0;
    e[1] = (draw(seed, 20) == 0) + 2 * (draw(seed, 10) == 0) + 4 * ext;
    e[2] = draw(seed, 4);
    e[3] = draw(seed, 9);
    if (wild) {
        if (draw(seed, 40) == 0) e[0] = draw(seed, 256);
        if (draw(seed, 40) == 0) e[1] = draw(seed, 256);
        if (draw(seed, 40) == 0) e[2] = draw(seed, 8);
        if (draw(seed, 40) == 0) e[3] = draw(seed, 16);
        if (draw(seed, 40) == 0) id = draw(seed, 2) ? 2040 + draw(seed, 16) : 536870900 + draw(seed, 20);
        if (draw(seed, 60) == 0) time = draw(seed, 4) ? time - 1 - draw(seed, 100000) : 10000000000000000ull + draw(seed, 2);
    }
    memcpy(e + 4, &id, 4);
    memcpy(e + 8, &time, 8);
    for (int k = 16; k < EVENT; k++) e[k] = draw(seed, 256);
}

void make_events(uint8_t *events, size_t count, int wild, uint64_t seed) {
    uint64_t time = 0;
    for (size_t i = 0; i < count; i++) {
        time += draw(&seed, 8) == 0 ? 0 : draw(&seed, 2000);
        put_event(events + EVENT * i, time, wild, &seed);
    }
}
