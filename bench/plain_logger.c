/* The loader and the engine in plain C. Numbers in event and answer records have their low byte first, as on x86-64. */
#include "plain_limits.h"

#include <stdbool.h>
#include <string.h>

/* ---- the loader */

static inline bool ids_fit(const uint32_t *w) { return w[0] <= 1 && w[1] <= w[2] && w[2] <= (w[0] ? LAST_EXTENDED : LAST_STANDARD); }

static bool is_trigger(const uint32_t *t, uint32_t n) {
    if (t[1] >= n || (t[2] > LAST_MS && t[2] != FOREVER)) return false;
    switch (t[0]) {
    case 1: return ids_fit(t + 3);
    case 2: return t[3] == 0 && t[4] <= t[5] && t[5] <= LAST_DLC;
    case 3: return (t[3] | t[4] | t[5]) == 0;
    case 4: return (t[1] | t[3] | t[4] | t[5]) == 0;
    }
    return false;
}

static bool is_filter(const uint32_t *f, uint32_t n) {
    return f[0] - 1 <= 1 && f[1] - 1 < BIT(n) - 1 && ids_fit(f + 2) && f[5] <= f[6] && f[6] <= LAST_DLC;
}

static bool is_code(const uint32_t *code, uint32_t size, uint32_t triggers) {
    uint32_t height = 0;
    for (uint32_t i = 0; i < size; i++) {
        uint32_t w = code[i];
        if (w <= PUSH_LAST) {
            if (w >= triggers || height == MOST_STACK) return false;
            height++;
        } else if (w == CODE_NOT) {
            if (height == 0) return false;
        } else {
            if (w > CODE_NOT || height < 2) return false;
            height--;
        }
    }
    return height == 1;
}

uint32_t plain_load(const uint32_t *plan, size_t len) {
    if (len < 6 || plan[0] != 1 || plan[1] - 1 >= MOST_CHANNELS || plan[2] > 1) return 20;
    uint32_t n = plan[1], triggers = plan[3], filters = plan[4], statements = plan[5];
    if (triggers > MOST_TRIGGERS || filters > MOST_FILTERS || statements > MOST_STATEMENTS) return 20;
    if (len < 6 + 6 * triggers + 7 * filters) return 20;
    const uint32_t *w = plan + 6, *end = plan + len;
    for (; triggers; triggers--, w += 6) {
        if (!is_trigger(w, n)) return 20;
    }
    for (; filters; filters--, w += 7) {
        if (!is_filter(w, n)) return 20;
    }
    for (; statements; statements--) {
        if (end - w < 3 || w[0] > LAST_MS || w[1] > MOST_ACTIONS || w[2] - 1 >= MOST_TOKENS || end - w < 3 + w[1] + w[2]) return 20;
        for (uint32_t i = 0; i < w[1]; i++) {
            if (w[3 + i] - 1 > 2) return 20;
        }
        if (!is_code(w + 3 + w[1], w[2], plan[3])) return 20;
        w += 3 + w[1] + w[2];
    }
    return w == end ? 0 : 20;
}

/* ---- the engine */

enum { RECORDED, IDLE, STOPPED, HALTED_FRAME, TICKED };
enum { OFF, ON, ENDING, ENDING_COMPLETELY, HALTED };

/* A range of identifiers, ext in the top bit, so that one comparison does. */
struct match {
    uint32_t low, width;
    uint8_t dlc_low, dlc_width, pass;
    uint32_t trigger;
};

/* The plan as the engine wants it: filters and triggers by channel, pass filters first. */
struct engine {
    const uint32_t *statement[MOST_STATEMENTS];
    uint32_t n, log_all, statements;
    struct {
        uint32_t filters, ids, dlcs, errors;
        bool has_pass;
        struct match filter[MOST_FILTERS], id[MOST_TRIGGERS], dlc[MOST_TRIGGERS];
    } on[MOST_CHANNELS];
    uint64_t lasts[MOST_TRIGGERS]; /* 1000 x timeout */
    uint64_t until[MOST_TRIGGERS]; /* a live trigger is true before this */
    uint64_t first_end;            /* no live trigger ends before this */
    uint32_t live, startup, seen;
    uint32_t truth;
    bool evaluated;
    uint32_t state;
    uint64_t end, last;
    uint32_t count[4];
};

static inline bool within(const struct match *m, uint32_t key) { return key - m->low <= m->width; }

static struct match match_ids(const uint32_t *w) {
    struct match m = {.low = w[0] << 31 | w[1], .width = w[2] - w[1]};
    return m;
}

static void add_trigger(struct engine *e, const uint32_t *t, uint32_t i) {
    uint32_t c = t[1];
    struct match m = match_ids(t + 3);
    m.trigger = i;
    e->lasts[i] = t[2] == FOREVER ? UINT64_MAX : 1000ull * t[2];
    switch (t[0]) {
    case 1: e->on[c].id[e->on[c].ids++] = m; break;
    case 2: e->on[c].dlc[e->on[c].dlcs++] = m; break;
    case 3: e->on[c].errors |= BIT(i); break;
    default: e->startup |= BIT(i);
    }
}

static void add_filter(struct engine *e, const uint32_t *f) {
    struct match m = match_ids(f + 2);
    m.dlc_low = f[5];
    m.dlc_width = f[6] - f[5];
    m.pass = f[0] == 1;
    for (uint32_t c = 0; c < e->n; c++) {
        if (f[1] >> c & 1) {
            e->on[c].filter[e->on[c].filters++] = m;
            e->on[c].has_pass |= m.pass;
        }
    }
}

static void set_up(struct engine *e, const uint32_t *plan) {
    const uint32_t *w = plan + 6, *filters = w + 6 * plan[3];
    e->n = plan[1];
    e->log_all = plan[2];
    e->statements = plan[5];
    for (uint32_t c = 0; c < MOST_CHANNELS; c++) {
        e->on[c].filters = e->on[c].ids = e->on[c].dlcs = e->on[c].errors = 0;
        e->on[c].has_pass = false;
    }
    e->startup = 0;
    for (uint32_t i = 0; i < plan[3]; i++, w += 6) add_trigger(e, w, i);
    for (uint32_t pass = 1; pass <= 2; pass++) {
        w = filters;
        for (uint32_t i = 0; i < plan[4]; i++, w += 7) {
            if (w[0] == pass) add_filter(e, w);
        }
    }
    for (uint32_t i = 0; i < plan[5]; i++) {
        e->statement[i] = w;
        w += 3 + w[1] + w[2];
    }
    e->live = e->seen = e->truth = 0;
    e->evaluated = false;
    e->first_end = UINT64_MAX;
}

static bool passes(const struct engine *e, uint32_t channel, bool error, uint32_t key, uint32_t dlc) {
    if (!error) {
        const struct match *m = e->on[channel].filter, *end = m + e->on[channel].filters;
        for (; m < end; m++) {
            if (within(m, key) && dlc - m->dlc_low <= m->dlc_width) return m->pass;
        }
    }
    return !e->on[channel].has_pass;
}

/* The triggers that fire at a frame. */
static uint32_t fired_by(const struct engine *e, uint32_t channel, bool error, uint32_t key, uint32_t dlc) {
    uint32_t fired = 0;
    if (error) return e->on[channel].errors;
    const struct match *m = e->on[channel].id, *end = m + e->on[channel].ids;
    for (; m < end; m++) fired |= (uint32_t)within(m, key) << m->trigger;
    m = e->on[channel].dlc;
    end = m + e->on[channel].dlcs;
    for (; m < end; m++) fired |= (uint32_t)within(m, dlc) << m->trigger;
    return fired;
}

/* The triggers that are true at u, where `fired` fire: live ones run out, fired ones are live from now on. */
static uint32_t states_at(struct engine *e, uint32_t fired, uint64_t u) {
    if (u >= e->first_end) {
        e->first_end = UINT64_MAX;
        for (uint32_t left = e->live; left; left &= left - 1) {
            uint32_t i = __builtin_ctz(left);
            if (u >= e->until[i])
                e->live &= ~BIT(i);
            else if (e->until[i] < e->first_end)
                e->first_end = e->until[i];
        }
    }
    for (uint32_t left = fired; left; left &= left - 1) {
        uint32_t i = __builtin_ctz(left);
        e->until[i] = e->lasts[i] == UINT64_MAX ? UINT64_MAX : u + e->lasts[i];
        if (e->until[i] < e->first_end) e->first_end = e->until[i];
    }
    return e->live |= fired;
}

/* The stack is a word, its top the lowest bit. */
static inline uint32_t evaluate(const uint32_t *code, uint32_t size, uint32_t states) {
    uint32_t stack = 0;
    for (uint32_t i = 0; i < size; i++) {
        uint32_t w = code[i];
        if (w <= PUSH_LAST)
            stack = stack << 1 | (states >> w & 1);
        else if (w == CODE_AND)
            stack = stack >> 1 & (stack | ~1u);
        else if (w == CODE_OR)
            stack = stack >> 1 | (stack & 1);
        else
            stack ^= 1;
    }
    return stack & 1;
}

static void act(struct engine *e, const uint32_t *s, uint64_t u) {
    for (uint32_t i = 0; i < s[1]; i++) {
        switch (s[3 + i]) {
        case 1:
            if (e->state == OFF || e->state == ENDING) e->state = ON;
            break;
        case 2:
            if (e->state == ON) {
                e->state = ENDING;
                e->end = u + 1000ull * s[0];
            }
            break;
        default:
            if (e->state == OFF) {
                e->state = HALTED;
            } else if (e->state == ON) {
                e->state = ENDING_COMPLETELY;
                e->end = u + 1000ull * s[0];
            } else if (e->state == ENDING) {
                e->state = ENDING_COMPLETELY;
            }
        }
    }
}

/* Step 6. Where no trigger's state has changed since the last evaluation, no expression has, so none rises. */
static void run_statements(struct engine *e, uint32_t states, uint64_t u) {
    uint32_t truth = 0;
    if (e->evaluated && states == e->seen) return;
    for (uint32_t i = 0; i < e->statements; i++) {
        const uint32_t *s = e->statement[i];
        truth |= evaluate(s + 3 + s[1], s[2], states) << i;
    }
    for (uint32_t risen = truth & ~e->truth; risen; risen &= risen - 1) act(e, e->statement[__builtin_ctz(risen)], u);
    e->truth = truth;
    e->seen = states;
    e->evaluated = true;
}

static inline void end_by(struct engine *e, uint64_t u) {
    if ((e->state == ENDING || e->state == ENDING_COMPLETELY) && u >= e->end) e->state = e->state == ENDING ? OFF : HALTED;
}

struct event {
    uint8_t kind, flags, channel, dlc;
    uint32_t id;
    uint64_t time;
};

static uint32_t refusal_of(const struct engine *e, const struct event *v) {
    bool late = v->time < e->last || v->time > LAST_TIME;
    if (v->kind == 0) return late ? 22 : 0;
    if (v->channel >= e->n) return 21;
    if (late) return 22;
    if (!(v->flags & 1) && (v->id > (v->flags & 4 ? LAST_EXTENDED : LAST_STANDARD) || v->dlc > LAST_DLC)) return 23;
    if ((uint64_t)e->count[0] + e->count[1] + e->count[2] + e->count[3] >= 0xFFFFFFFFu) return 24;
    return 0;
}

/* The seven steps; a tick answers Ticked wherever a frame would answer. */
static uint32_t process(struct engine *e, const struct event *v) {
    bool tick = v->kind == 0, error = v->flags & 1;
    uint32_t key = (uint32_t)(v->flags & 4) << 29 | v->id, fired = 0;
    uint64_t u = v->time;
    e->last = u;
    end_by(e, u);
    if (e->state == HALTED) return HALTED_FRAME;
    if (!tick && !passes(e, v->channel, error, key, v->dlc)) return STOPPED;
    if (e->log_all) return RECORDED;
    if (!tick) fired = fired_by(e, v->channel, error, key, v->dlc);
    fired |= e->startup;
    e->startup = 0;
    run_statements(e, states_at(e, fired, u), u);
    end_by(e, u);
    return e->state == OFF || e->state == HALTED ? IDLE : RECORDED;
}

static void put_answer(uint8_t *out, const struct engine *e, uint32_t answer) {
    uint64_t head = answer | e->state << 8, end = e->state == ENDING || e->state == ENDING_COMPLETELY ? e->end : 0;
    memcpy(out, &head, 8);
    memcpy(out + 8, &end, 8);
    memcpy(out + 16, e->count, 16);
}

uint64_t plain_replay(const uint32_t *plan, size_t plan_len, const uint8_t *events, size_t events_len, uint32_t recorded, uint32_t idle,
                      uint32_t stopped, uint32_t halted, uint8_t *out, size_t out_len) {
    size_t n = events_len < out_len ? events_len / 32 : out_len / 32;
    struct engine engine, *e = &engine;
    bool taken = plain_load(plan, plan_len) == 0;
    e->state = OFF;
    e->end = e->last = 0;
    e->count[0] = recorded;
    e->count[1] = idle;
    e->count[2] = stopped;
    e->count[3] = halted;
    if (taken) set_up(e, plan);
    for (size_t i = 0; i < n; i++, events += 32, out += 32) {
        struct event v;
        memcpy(&v, events, sizeof v);
        uint32_t answer = taken ? refusal_of(e, &v) : 20;
        if (answer == 0) {
            answer = process(e, &v);
            if (v.kind == 0)
                answer = TICKED;
            else
                e->count[answer]++;
        }
        put_answer(out, e, answer);
    }
    return n;
}
