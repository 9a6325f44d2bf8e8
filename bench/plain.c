/* The converter in plain C. The file is read in one pass: its shape is checked and its elements are judged together.
   A fault of an element is kept and the pass goes on, since a fault of shape further down comes first. */
#include "plain_limits.h"

#include <stdbool.h>
#include <string.h>

enum { LONGEST_FILE = 32768, DEEPEST = 8, MOST_BRACKETS = 8, LONGEST_NAME = 32 };

/* ---- bytes */

enum { BLANK = 1, FIRST = 2, NAME = 4, VALUE = 8, DECL = 16 };

/* FIRST begins a name, NAME goes on with it; VALUE may stand in an attribute's value, DECL in the declaration. */
static const uint8_t class_of[256] = {
    ['\t'] = BLANK | DECL, ['\n'] = BLANK | DECL, ['\r'] = BLANK | DECL, [' '] = BLANK | VALUE | DECL,
    ['!'] = VALUE | DECL, ['"'] = DECL, ['#' ... '%'] = VALUE | DECL, ['&'] = DECL, ['\'' ... '/'] = VALUE | DECL,
    ['0' ... '9'] = NAME | VALUE | DECL,
    [':' ... ';'] = VALUE | DECL, ['<'] = DECL, ['=' ... '>'] = VALUE | DECL, ['?'] = VALUE, ['@'] = VALUE | DECL,
    ['A' ... 'Z'] = FIRST | NAME | VALUE | DECL, ['a' ... 'z'] = FIRST | NAME | VALUE | DECL, ['_'] = FIRST | NAME | VALUE | DECL,
    ['[' ... '^'] = VALUE | DECL, ['`'] = VALUE | DECL, ['{' ... '~'] = VALUE | DECL,
};

#define EACH(b) (0x0101010101010101ull * (uint8_t)(b))

static inline uint64_t eight_at(const uint8_t *p) {
    uint64_t x;
    memcpy(&x, p, 8);
    return x;
}

/* Of eight bytes, the lowest marked one is below n (n up to 128); unmarked where none is. */
static inline uint64_t below(uint64_t x, uint8_t n) { return (x - EACH(n)) & ~x & EACH(0x80); }

static inline uint64_t equal(uint64_t x, uint8_t c) { return below(x ^ EACH(c), 1); }

/* The first byte from p on that is a, b or below 0x20; eight at a time, since comments and text are most of a file. */
static inline const uint8_t *find(const uint8_t *p, const uint8_t *end, uint8_t a, uint8_t b) {
    while (end - p >= 8) {
        uint64_t x = eight_at(p), hit = below(x, 0x20) | equal(x, a) | equal(x, b);
        if (hit) return p + (__builtin_ctzll(hit) >> 3);
        p += 8;
    }
    while (p < end && *p >= 0x20 && *p != a && *p != b) p++;
    return p;
}

static inline const uint8_t *skip_blanks(const uint8_t *p, const uint8_t *end) {
    while (p < end && class_of[*p] & BLANK) p += end - p >= 8 && eight_at(p) == EACH(' ') ? 8 : 1;
    return p;
}

static inline const uint8_t *skip_name(const uint8_t *p, const uint8_t *end) {
    while (p < end && class_of[*p] & NAME) p++;
    return p;
}

/* ---- elements and attributes */

enum kind {
    SKIPPED, NOT_CARRIED, KVASER, VERSION, SETTINGS, MODE, CAN_BUS, PARAMETERS, TRIGGERBLOCK, TRIGGERS, MSG_ID, MSG_DLC, ERROR_FRAME, STARTUP,
    STATEMENTS, STATEMENT, EXPRESSION, ACTIONS, START_LOG, STOP_LOG, STOP_COMPLETELY, FILTERS, PASS, STOP, CHANNEL, KINDS,
};

#define IS(text) (n == sizeof(text) - 1 && memcmp(p, text, sizeof(text) - 1) == 0)
#define IF(text, k) if (IS(text)) return k;

/* The kind of the element with the name p, n under an element of the kind `parent`. */
static enum kind kind_of(enum kind parent, const uint8_t *p, size_t n) {
    switch (parent) {
    case KVASER:
        IF("VERSION", VERSION) IF("SETTINGS", SETTINGS) IF("CAN_BUS", CAN_BUS) IF("TRIGGERBLOCK", TRIGGERBLOCK) IF("FILTERS", FILTERS)
        break;
    case SETTINGS: IF("MODE", MODE) break;
    case CAN_BUS: IF("PARAMETERS", PARAMETERS) IF("PARAMETERS_FD", NOT_CARRIED) break;
    case TRIGGERBLOCK: IF("TRIGGERS", TRIGGERS) IF("STATEMENTS", STATEMENTS) break;
    case TRIGGERS:
        IF("TRIGGER_MSG_ID", MSG_ID) IF("TRIGGER_MSG_DLC", MSG_DLC) IF("TRIGGER_MSG_ERROR_FRAME", ERROR_FRAME)
        IF("TRIGGER_STARTUP", STARTUP) IF("TRIGGER_SIGVAL", NOT_CARRIED) IF("TRIGGER_EXTERNAL", NOT_CARRIED)
        IF("TRIGGER_TIMER", NOT_CARRIED) IF("TRIGGER_DISK_FULL", NOT_CARRIED)
        break;
    case STATEMENTS: IF("STATEMENT", STATEMENT) break;
    case STATEMENT: IF("EXPRESSION", EXPRESSION) IF("ACTIONS", ACTIONS) break;
    case ACTIONS:
        IF("ACTION_START_LOG", START_LOG) IF("ACTION_STOP_LOG", STOP_LOG) IF("ACTION_STOP_LOG_COMPLETELY", STOP_COMPLETELY)
        IF("ACTION_EXTERNAL_PULSE", NOT_CARRIED) IF("EXTERNAL_PULSE", NOT_CARRIED) IF("ACTION_ACTIVATE_AUTO_TRANSMIT_LIST", NOT_CARRIED)
        IF("ACTION_DEACTIVATE_AUTO_TRANSMIT_LIST", NOT_CARRIED)
        break;
    case FILTERS:
        IF("MESSAGE_PASS", PASS) IF("MESSAGE_STOP", STOP) IF("SIGNAL_PASS", NOT_CARRIED) IF("SIGNAL_STOP", NOT_CARRIED)
        IF("FLAG_PASS", NOT_CARRIED) IF("FLAG_STOP", NOT_CARRIED) IF("FLAGS_PASS", NOT_CARRIED) IF("FLAGS_STOP", NOT_CARRIED)
        IF("MESSAGE_COUNTING_PASS", NOT_CARRIED) IF("SIGNAL_COUNTING_PASS", NOT_CARRIED) IF("FLAG_COUNTING_PASS", NOT_CARRIED)
        break;
    case PASS: case STOP: IF("CHANNEL", CHANNEL) break;
    default:
        break;
    }
    return SKIPPED;
}

/* What an element may hold: each kind once (most is 0), or `most` elements in all; `least` of them, or each of `holds`. */
static const struct {
    uint8_t most, least;
    uint32_t holds;
} holding[KINDS] = {
    [KVASER] = {0, 0, BIT(VERSION) | BIT(SETTINGS) | BIT(CAN_BUS) | BIT(TRIGGERBLOCK) | BIT(FILTERS)},
    [SETTINGS] = {0, 0, BIT(MODE)},
    [TRIGGERBLOCK] = {0, 0, BIT(TRIGGERS) | BIT(STATEMENTS)},
    [STATEMENT] = {0, 0, BIT(EXPRESSION) | BIT(ACTIONS)},
    [CAN_BUS] = {MOST_CHANNELS, 1, 0},
    [TRIGGERS] = {MOST_TRIGGERS, 0, 0},
    [STATEMENTS] = {MOST_STATEMENTS, 0, 0},
    [ACTIONS] = {MOST_ACTIONS, 0, 0},
    [FILTERS] = {MOST_FILTERS, 0, 0},
    [PASS] = {5, 1, 0},
    [STOP] = {5, 1, 0},
};

enum attribute {
    A_CHANNEL, A_BITRATE, A_TSEG1, A_TSEG2, A_SJW, A_SILENT, A_BITRATE_BRS, A_TSEG1_BRS, A_TSEG2_BRS, A_SJW_BRS, A_ISO, A_NAME, A_TIMEOUT, A_MSGID,
    A_MSGID_MIN, A_CAN_EXT, A_DLC, A_DLC_MIN, A_CAN_FD, A_PROTOCOL, A_MSG_FIELD, A_LOG_ALL, A_FIFO_MODE, A_PRETRIGGER, A_POSTTRIGGER, ATTRIBUTES,
};

static enum attribute attribute_of(const uint8_t *p, size_t n) {
    switch (n) {
    case 3: IF("dlc", A_DLC) IF("sjw", A_SJW) IF("iso", A_ISO) break;
    case 4: IF("name", A_NAME) break;
    case 5: IF("msgid", A_MSGID) IF("tseg1", A_TSEG1) IF("tseg2", A_TSEG2) break;
    case 6: IF("can_fd", A_CAN_FD) IF("silent", A_SILENT) break;
    case 7:
        IF("channel", A_CHANNEL) IF("timeout", A_TIMEOUT) IF("can_ext", A_CAN_EXT) IF("dlc_min", A_DLC_MIN) IF("bitrate", A_BITRATE)
        IF("log_all", A_LOG_ALL) IF("sjw_brs", A_SJW_BRS)
        break;
    case 8: IF("protocol", A_PROTOCOL) break;
    case 9:
        IF("msgid_min", A_MSGID_MIN) IF("msg_field", A_MSG_FIELD) IF("fifo_mode", A_FIFO_MODE) IF("tseg1_brs", A_TSEG1_BRS)
        IF("tseg2_brs", A_TSEG2_BRS)
        break;
    case 10: IF("pretrigger", A_PRETRIGGER) break;
    case 11: IF("posttrigger", A_POSTTRIGGER) IF("bitrate_brs", A_BITRATE_BRS) break;
    }
    return ATTRIBUTES;
}

#define IDS (BIT(A_MSGID) | BIT(A_MSGID_MIN) | BIT(A_CAN_EXT))
#define DLCS (BIT(A_DLC) | BIT(A_DLC_MIN))
#define EXTRAS (BIT(A_CAN_FD) | BIT(A_PROTOCOL) | BIT(A_MSG_FIELD))
#define NAMED (BIT(A_NAME) | BIT(A_TIMEOUT))
#define FD (BIT(A_BITRATE_BRS) | BIT(A_TSEG1_BRS) | BIT(A_TSEG2_BRS) | BIT(A_SJW_BRS) | BIT(A_ISO))

/* The attributes that an element must have, and those that it may have besides. */
static const struct {
    uint32_t must, may;
} asked[KINDS] = {
    [MODE] = {BIT(A_LOG_ALL) | BIT(A_FIFO_MODE), 0},
    [PARAMETERS] = {BIT(A_CHANNEL) | BIT(A_BITRATE) | BIT(A_TSEG1) | BIT(A_TSEG2) | BIT(A_SJW) | BIT(A_SILENT), FD},
    [MSG_ID] = {NAMED | BIT(A_CHANNEL) | IDS, EXTRAS},
    [MSG_DLC] = {NAMED | BIT(A_CHANNEL) | DLCS, BIT(A_CAN_FD)},
    [ERROR_FRAME] = {NAMED | BIT(A_CHANNEL), 0},
    [STARTUP] = {NAMED, 0},
    [STATEMENT] = {BIT(A_PRETRIGGER) | BIT(A_POSTTRIGGER), 0},
    [PASS] = {IDS, DLCS | EXTRAS},
    [STOP] = {IDS, DLCS | EXTRAS},
};

/* ---- values */

static bool read_number(const uint8_t *p, size_t n, uint64_t *answer) {
    uint64_t x = 0;
    if (n > 2 && p[0] == '0' && p[1] == 'x') {
        if (n > 10) return false;
        for (size_t i = 2; i < n; i++) {
            unsigned d = p[i] - '0', l = (p[i] | 0x20) - 'a';
            if (d > 9 && l > 5) return false;
            x = 16 * x + (d <= 9 ? d : l + 10);
        }
    } else {
        if (n == 0 || n > 10) return false;
        for (size_t i = 0; i < n; i++) {
            unsigned d = p[i] - '0';
            if (d > 9) return false;
            x = 10 * x + d;
        }
    }
    *answer = x;
    return true;
}

static bool in_range(const uint8_t *p, size_t n, uint32_t low, uint32_t high, uint32_t *v) {
    uint64_t x;
    if (!read_number(p, n, &x) || x < low || x > high) return false;
    *v = (uint32_t)x;
    return true;
}

static bool yes_or_no(const uint8_t *p, size_t n, uint32_t *v) {
    *v = IS("YES");
    return *v || IS("NO");
}

static bool is_name(const uint8_t *p, size_t n) {
    return n >= 1 && n <= LONGEST_NAME && skip_name(p, p + n) == p + n && !(IS("AND") || IS("OR") || IS("NOT"));
}

/* What the attributes of one element say. */
struct said {
    uint32_t has;
    bool five, six, seven;
    const uint8_t *name;
    size_t name_len;
    uint32_t v[ATTRIBUTES];
};

static void judge(struct said *s, enum kind kind, const uint8_t *name, size_t name_len, const uint8_t *p, size_t n) {
    enum attribute a = attribute_of(name, name_len);
    uint32_t *v = &s->v[a], bit = BIT(a);
    bool good = true;
    if (!((asked[kind].must | asked[kind].may) & bit) || s->has & bit) {
        s->five = true;
        return;
    }
    s->has |= bit;
    switch (a) {
    case A_CHANNEL: good = in_range(p, n, 0, MOST_CHANNELS - 1, v); break;
    case A_BITRATE: good = in_range(p, n, 1, 1000000, v); break;
    case A_TSEG1: case A_TSEG2: case A_SJW: good = in_range(p, n, 1, 255, v); break;
    case A_SILENT: case A_CAN_EXT: case A_LOG_ALL: case A_FIFO_MODE: good = yes_or_no(p, n, v); break;
    case A_NAME:
        good = is_name(p, n);
        s->name = p;
        s->name_len = n;
        break;
    case A_TIMEOUT:
        *v = FOREVER;
        good = IS("-1") || in_range(p, n, 0, LAST_MS, v);
        break;
    case A_MSGID: case A_MSGID_MIN: good = in_range(p, n, 0, LAST_EXTENDED, v); break;
    case A_DLC: case A_DLC_MIN: good = in_range(p, n, 0, LAST_DLC, v); break;
    case A_CAN_FD:
        good = yes_or_no(p, n, v);
        s->seven |= *v;
        break;
    case A_PROTOCOL:
        good = IS("NONE") || IS("J1939");
        s->seven |= n == 5;
        break;
    case A_PRETRIGGER:
        good = in_range(p, n, 0, LAST_MS, v);
        s->seven |= good && *v;
        break;
    case A_POSTTRIGGER: good = in_range(p, n, 0, LAST_MS, v); break;
    case A_MSG_FIELD:
        break;
    default:
        s->seven = true;
        break;
    }
    s->six |= !good;
}

/* ---- the pass over the file */

/* The faults of one element in their order; a fault is kept as place * 8 + rank, the least one is given. */
enum rank { OTHER_ROOT, OVER, BARRED, ATTRIBUTE, BAD_VALUE, BARRED_VALUE };

static const uint8_t number_of[] = {3, 4, 7, 5, 6, 7};

#define NONE 0xFFFFFFFFu

struct frame {
    const uint8_t *name;
    uint32_t name_len, place, seen;
    uint8_t kind, count;
};

struct statement {
    const uint8_t *text;
    uint32_t text_len, place, posttrigger, actions;
    uint32_t action[MOST_ACTIONS];
};

struct reader {
    const uint8_t *file, *at, *end; /* where the shape is broken, `at` is the place of refusal 2 */
    uint32_t fault, root;
    bool lacking;
    uint32_t depth;
    struct frame frames[DEEPEST + 1];
    /* the text of the open VERSION, CHANNEL or EXPRESSION; more than one piece is joined in `joined` */
    const uint8_t *text;
    uint32_t text_len, used;
    bool is_joined;
    /* what the elements say */
    uint32_t log_all, can_bus, parameters, channel_mask, first_with[MOST_CHANNELS];
    uint32_t triggers, filters, statements;
    uint32_t trigger[MOST_TRIGGERS][6], filter[MOST_FILTERS][7];
    uint32_t trigger_place[MOST_TRIGGERS];
    struct {
        const uint8_t *p;
        size_t n;
    } name[MOST_TRIGGERS];
    struct statement statement[MOST_STATEMENTS];
    uint8_t joined[LONGEST_FILE];
};

static inline void refuse(struct reader *r, uint32_t place, enum rank rank) {
    uint32_t fault = place * 8 + rank;
    if (fault < r->fault) r->fault = fault;
}

static void name_channel(struct reader *r, uint32_t channel, uint32_t place) {
    if (r->first_with[channel] == NONE) r->first_with[channel] = place;
}

static void keep_trigger(struct reader *r, const struct said *s, enum kind kind, uint32_t place) {
    uint32_t i = r->triggers++, *t = r->trigger[i];
    memset(t, 0, sizeof r->trigger[i]);
    r->trigger_place[i] = place;
    r->name[i].p = s->name;
    r->name[i].n = s->name_len;
    t[0] = kind - MSG_ID + 1;
    t[2] = s->v[A_TIMEOUT];
    if (kind != STARTUP) {
        t[1] = s->v[A_CHANNEL];
        name_channel(r, t[1], place);
    }
    if (kind == MSG_ID) {
        t[3] = s->v[A_CAN_EXT];
        t[4] = s->v[A_MSGID_MIN];
        t[5] = s->v[A_MSGID];
    } else if (kind == MSG_DLC) {
        t[4] = s->v[A_DLC_MIN];
        t[5] = s->v[A_DLC];
    }
}

static void keep_filter(struct reader *r, const struct said *s, enum kind kind) {
    uint32_t *f = r->filter[r->filters++];
    bool dlc = s->has & BIT(A_DLC);
    f[0] = kind - PASS + 1;
    f[1] = 0;
    f[2] = s->v[A_CAN_EXT];
    f[3] = s->v[A_MSGID_MIN];
    f[4] = s->v[A_MSGID];
    f[5] = dlc ? s->v[A_DLC_MIN] : 0;
    f[6] = dlc ? s->v[A_DLC] : LAST_DLC;
}

/* Keeps what an element without faults says by its attributes. */
static void keep(struct reader *r, const struct said *s, enum kind kind, uint32_t place) {
    struct statement *last = &r->statement[r->statements];
    switch (kind) {
    case MODE: r->log_all = s->v[A_LOG_ALL]; break;
    case CAN_BUS: r->can_bus = place; break;
    case PARAMETERS:
        r->parameters++;
        r->channel_mask |= BIT(s->v[A_CHANNEL]);
        break;
    case MSG_ID:
    case MSG_DLC:
    case ERROR_FRAME:
    case STARTUP: keep_trigger(r, s, kind, place); break;
    case PASS:
    case STOP: keep_filter(r, s, kind); break;
    case STATEMENT:
        last->posttrigger = s->v[A_POSTTRIGGER];
        last->actions = 0;
        r->statements++;
        break;
    case EXPRESSION: last[-1].place = place; break;
    case START_LOG:
    case STOP_LOG:
    case STOP_COMPLETELY: last[-1].action[last[-1].actions++] = kind - START_LOG + 1; break;
    default: break;
    }
}

static bool crossed(const struct said *s, enum kind kind) {
    const uint32_t *v = s->v;
    if (kind == MSG_ID || kind == PASS || kind == STOP) {
        if (v[A_MSGID_MIN] > v[A_MSGID] || (!v[A_CAN_EXT] && v[A_MSGID] > LAST_STANDARD)) return true;
    }
    return s->has & BIT(A_DLC) && v[A_DLC_MIN] > v[A_DLC];
}

/* The element's own faults but those of its text, all attributes read. */
static void judge_element(struct reader *r, const struct said *s, enum kind kind, uint32_t place) {
    uint32_t dlcs = s->has & DLCS;
    if (s->five || asked[kind].must & ~s->has || (dlcs && dlcs != DLCS))
        refuse(r, place, ATTRIBUTE);
    else if (s->six || crossed(s, kind))
        refuse(r, place, BAD_VALUE);
    else if (s->seven)
        refuse(r, place, BARRED_VALUE);
    else
        keep(r, s, kind, place);
}

static inline bool takes_text(enum kind kind) { return kind == VERSION || kind == CHANNEL || kind == EXPRESSION; }

/* Text that belongs to the open element. */
static void add_text(struct reader *r, const uint8_t *p, size_t n) {
    if (r->text_len == 0) {
        r->text = p;
        r->is_joined = false;
    } else {
        if (!r->is_joined) {
            memcpy(r->joined + r->used, r->text, r->text_len);
            r->text = r->joined + r->used;
            r->used += r->text_len;
            r->is_joined = true;
        }
        memcpy(r->joined + r->used, p, n);
        r->used += n;
    }
    r->text_len += n;
}

/* The end of an element: what it lacks, and its text. */
static void close_element(struct reader *r, const struct frame *f) {
    if (f->kind <= NOT_CARRIED) return;
    r->lacking |= (holding[f->kind].holds & ~f->seen) != 0 || f->count < holding[f->kind].least;
    if (!takes_text(f->kind) || r->fault != NONE) return;
    const uint8_t *p = r->text;
    size_t n = r->text_len;
    if (f->kind == EXPRESSION) {
        r->statement[r->statements - 1].text = p;
        r->statement[r->statements - 1].text_len = n;
        return;
    }
    while (n && class_of[p[0]] & BLANK) p++, n--;
    while (n && class_of[p[n - 1]] & BLANK) n--;
    uint32_t channel;
    if (f->kind == VERSION) {
        if (!IS("2.0")) refuse(r, f->place, BAD_VALUE);
    } else if (in_range(p, n, 0, MOST_CHANNELS - 1, &channel)) {
        r->filter[r->filters - 1][1] |= BIT(channel);
        name_channel(r, channel, f->place);
    } else {
        refuse(r, f->place, BAD_VALUE);
    }
}

/* Behind `<!`: the rest of a comment. */
static bool read_comment(struct reader *r) {
    const uint8_t *p = r->at, *end = r->end;
    for (int i = 0; i < 2; i++, p++) {
        if (p == end || *p != '-') return r->at = p, false;
    }
    for (;;) {
        p = find(p, end, '-', '-');
        if (p == end) return r->at = p, false;
        if (*p == '-') {
            p++;
            if (p < end && *p == '-') {
                p++;
                r->at = p;
                if (p == end || *p != '>') return false;
                r->at = p + 1;
                return true;
            }
        } else if (class_of[*p] & BLANK) {
            p++;
        } else {
            return r->at = p, false;
        }
    }
}

/* Blanks and comments around the root, up to the byte behind the next `<`; at the end of the file `at` is `end`. */
static bool read_around(struct reader *r) {
    for (;;) {
        r->at = skip_blanks(r->at, r->end);
        if (r->at == r->end) return true;
        if (*r->at != '<') return false;
        r->at++;
        if (r->at == r->end || *r->at != '!') return true;
        r->at++;
        if (!read_comment(r)) return false;
    }
}

/* `<?xml .. ?>`, at the very start. */
static bool read_declaration(struct reader *r) {
    static const char begin[] = "<?xml";
    const uint8_t *p = r->at, *end = r->end;
    for (int i = 0; i < 5; i++, p++) {
        if (p == end || *p != begin[i]) return r->at = p, false;
    }
    while (p < end && class_of[*p] & DECL) p++;
    if (p == end || *p != '?') return r->at = p, false;
    p++;
    r->at = p;
    if (p == end || *p != '>') return false;
    r->at = p + 1;
    return true;
}

/* One attribute, `at` on the first letter of its name. `s` is null where nobody asks. */
static inline bool read_attribute(struct reader *r, struct said *s, enum kind kind) {
    const uint8_t *end = r->end, *name = r->at, *p = skip_name(name, end);
    size_t n = p - name;
    p = skip_blanks(p, end);
    if (p == end || *p != '=') return r->at = p, false;
    p = skip_blanks(p + 1, end);
    if (p == end || *p != '"') return r->at = p, false;
    const uint8_t *value = ++p;
    while (p < end && class_of[*p] & VALUE) p++;
    r->at = p;
    if (p == end || *p != '"') return false;
    r->at = p + 1;
    if (s) judge(s, kind, name, n, value, p - value);
    return true;
}

/* The kind of a new element, with its faults 3, 4 and 7 for its kind. Behind a fault only the shape is looked at. */
static enum kind meet(struct reader *r, struct frame *f) {
    struct frame *parent = f - 1;
    if (r->fault != NONE) return SKIPPED;
    if (r->depth == 0) {
        const uint8_t *p = f->name;
        size_t n = f->name_len;
        r->root = f->place;
        if (IS("KVASER")) return KVASER;
        refuse(r, f->place, OTHER_ROOT);
        return SKIPPED;
    }
    enum kind kind = kind_of(parent->kind, f->name, f->name_len);
    if (kind == SKIPPED) return kind;
    if (kind == NOT_CARRIED) {
        refuse(r, f->place, BARRED);
        return kind;
    }
    uint32_t most = holding[parent->kind].most;
    if (most ? parent->count == most : (parent->seen & BIT(kind)) != 0) refuse(r, f->place, OVER);
    parent->count++;
    parent->seen |= BIT(kind);
    return kind;
}

/* A start tag, `at` on the first byte of its name. */
static bool read_start(struct reader *r) {
    const uint8_t *end = r->end, *p = r->at;
    if (p == end || !(class_of[*p] & FIRST) || r->depth == DEEPEST) return false;
    struct frame *f = &r->frames[r->depth + 1];
    f->name = p;
    p = skip_name(p, end);
    f->name_len = p - f->name;
    f->place = f->name - r->file - 1;
    f->seen = 0;
    f->count = 0;
    enum kind kind = f->kind = meet(r, f);
    struct said said, *s = NULL;
    if (kind > NOT_CARRIED && r->fault == NONE) {
        s = &said;
        s->has = 0;
        s->five = s->six = s->seven = false;
    }
    for (;;) {
        const uint8_t *q = skip_blanks(p, end);
        r->at = q;
        if (q == end) return false;
        if (*q == '>' || *q == '/') break;
        if (q == p || !(class_of[*q] & FIRST)) return false;
        if (!read_attribute(r, s, kind)) return false;
        p = r->at;
    }
    if (s) judge_element(r, s, kind, f->place);
    if (takes_text(kind)) r->text_len = 0;
    if (*r->at++ == '>') {
        r->depth++;
        return true;
    }
    if (r->at == end || *r->at != '>') return false;
    r->at++;
    close_element(r, f);
    return true;
}

/* An end tag, `at` behind its `</`. */
static bool read_end(struct reader *r) {
    struct frame *f = &r->frames[r->depth];
    const uint8_t *p = r->at, *end = r->end;
    uint32_t n = f->name_len, i = 0;
    if ((size_t)(end - p) >= n && memcmp(p, f->name, n) == 0)
        i = n;
    else
        while (i < n && p + i < end && p[i] == f->name[i]) i++;
    p += i;
    if (i == n) p = skip_blanks(p, end);
    r->at = p;
    if (i < n || p == end || *p != '>') return false;
    r->at = p + 1;
    close_element(r, f);
    r->depth--;
    return true;
}

/* Text in the open element, up to a `<`. */
static inline bool read_text(struct reader *r) {
    const struct frame *f = &r->frames[r->depth];
    const uint8_t *begin = r->at, *end = r->end, *p = skip_blanks(begin, end);
    bool blank = p < end && *p == '<';
    for (;;) {
        p = find(p, end, '<', '&');
        if (p == end || !(class_of[*p] & BLANK)) break;
        p++;
    }
    r->at = p;
    if (p == end || *p != '<') return false;
    if (takes_text(f->kind)) {
        if (p > begin) add_text(r, begin, p - begin);
    } else if (!blank && f->kind > NOT_CARRIED) {
        refuse(r, f->place, BAD_VALUE);
    }
    return true;
}

/* The whole file; false where its shape is broken. */
static bool read_file(struct reader *r) {
    if (r->end - r->at >= 2 && r->at[0] == '<' && r->at[1] == '?' && !read_declaration(r)) return false;
    if (!read_around(r) || !read_start(r)) return false;
    while (r->depth) {
        if (!read_text(r)) return false;
        r->at++;
        if (r->at == r->end) return false;
        uint8_t c = *r->at;
        if (c == '/') {
            r->at++;
            if (!read_end(r)) return false;
        } else if (c == '!') {
            r->at++;
            if (!read_comment(r)) return false;
        } else if (!read_start(r)) {
            return false;
        }
    }
    return read_around(r) && r->at == r->end && r->end[-1] != '<';
}

/* ---- expressions */

/* The triggers' names by their hash; 0 is an empty slot. */
struct names {
    uint8_t slot[64];
};

static inline uint32_t hash_byte(uint32_t h, uint8_t b) { return (h ^ b) * 16777619u; }

/* The slot of a name, or the empty one where it would stand. */
static uint8_t *slot_of(const struct reader *r, struct names *names, const uint8_t *p, size_t n, uint32_t hash) {
    uint32_t i = hash >> 26;
    while (names->slot[i]) {
        uint32_t t = names->slot[i] - 1u;
        if (r->name[t].n == n && memcmp(r->name[t].p, p, n) == 0) break;
        i = (i + 1) & 63;
    }
    return &names->slot[i];
}

/* The postfix code of an expression: 0, or 11 or 12. Operators wait on a stack until one that binds no tighter comes. */
static uint32_t compile(const struct reader *r, struct names *names, const uint8_t *p, const uint8_t *end, uint32_t *code, uint32_t *size) {
    enum { BRACKET, OR, AND, NOT };
    static const uint8_t code_of[] = {0, CODE_OR, CODE_AND, CODE_NOT};
    uint8_t waiting[MOST_TOKENS];
    uint32_t n_waiting = 0, n_code = 0, tokens = 0, depth = 0, answer = 0;
    bool operand = true; /* an operand comes next */
    for (;;) {
        while (p < end && class_of[*p] & BLANK) p++;
        if (p == end) break;
        if (tokens++ == MOST_TOKENS) return 11;
        if (*p == '(') {
            if (!operand || depth == MOST_BRACKETS) return 11;
            waiting[n_waiting++] = BRACKET;
            depth++;
            p++;
            continue;
        }
        if (*p == ')') {
            if (operand || depth == 0) return 11;
            while (waiting[--n_waiting] != BRACKET) code[n_code++] = code_of[waiting[n_waiting]];
            depth--;
            p++;
            continue;
        }
        const uint8_t *word = p;
        uint32_t hash = 2166136261u;
        while (p < end && class_of[*p] & NAME) hash = hash_byte(hash, *p++);
        size_t n = p - word;
        if (n == 0) return 11;
        uint8_t op = n == 3 && memcmp(word, "AND", 3) == 0   ? AND
                     : n == 2 && memcmp(word, "OR", 2) == 0  ? OR
                     : n == 3 && memcmp(word, "NOT", 3) == 0 ? NOT
                                                             : BRACKET;
        if (op == AND || op == OR) {
            if (operand) return 11;
            while (n_waiting && waiting[n_waiting - 1] >= op) code[n_code++] = code_of[waiting[--n_waiting]];
            waiting[n_waiting++] = op;
            operand = true;
        } else {
            if (!operand) return 11;
            if (op == NOT) {
                waiting[n_waiting++] = NOT;
            } else {
                uint8_t t = *slot_of(r, names, word, n, hash);
                if (!t) answer = 12;
                code[n_code++] = t - 1u;
                operand = false;
            }
        }
    }
    if (operand || depth) return 11;
    while (n_waiting) code[n_code++] = code_of[waiting[--n_waiting]];
    *size = n_code;
    return answer;
}

/* ---- the converter */

static inline uint64_t answer(uint64_t number, uint64_t value) { return number << 32 | value; }

uint64_t plain_convert(const uint8_t *file, size_t len, uint32_t *plan, size_t room) {
    struct reader reader, *r = &reader;
    struct names names = {{0}};
    uint32_t lines[MOST_STATEMENTS * (3 + MOST_ACTIONS + MOST_TOKENS)], used = 0, place = NONE;
    if (len > LONGEST_FILE) return answer(1, LONGEST_FILE);
    memset(r, 0, offsetof(struct reader, trigger));
    memset(r->first_with, 0xFF, sizeof r->first_with);
    r->file = r->at = file;
    r->end = file + len;
    r->fault = NONE;
    if (!read_file(r)) return answer(2, r->at - file);
    if (r->fault != NONE) return answer(number_of[r->fault & 7], r->fault >> 3);
    if (r->lacking) return answer(8, r->root);

    for (uint32_t i = 0; i < r->triggers; i++) {
        uint32_t hash = 2166136261u;
        for (size_t k = 0; k < r->name[i].n; k++) hash = hash_byte(hash, r->name[i].p[k]);
        uint8_t *slot = slot_of(r, &names, r->name[i].p, r->name[i].n, hash);
        if (*slot) return answer(9, r->trigger_place[i]);
        *slot = i + 1;
    }

    if (r->channel_mask != BIT(r->parameters) - 1) return answer(10, r->can_bus);
    for (uint32_t c = r->parameters; c < MOST_CHANNELS; c++) {
        if (r->first_with[c] < place) place = r->first_with[c];
    }
    if (place != NONE) return answer(10, place);

    for (uint32_t i = 0; i < r->statements; i++) {
        const struct statement *s = &r->statement[i];
        uint32_t *line = lines + used;
        uint32_t number = compile(r, &names, s->text, s->text + s->text_len, line + 3 + s->actions, line + 2);
        if (number) return answer(number, s->place);
        line[0] = s->posttrigger;
        line[1] = s->actions;
        memcpy(line + 3, s->action, 4 * s->actions);
        used += 3 + s->actions + line[2];
    }

    size_t words = 6 + 6 * r->triggers + 7 * r->filters + used;
    if (words > room) return answer(13, words);
    uint32_t head[6] = {1, r->parameters, r->log_all, r->triggers, r->filters, r->statements};
    memcpy(plan, head, sizeof head);
    plan += 6;
    memcpy(plan, r->trigger, 24 * r->triggers);
    plan += 6 * r->triggers;
    memcpy(plan, r->filter, 28 * r->filters);
    plan += 7 * r->filters;
    memcpy(plan, lines, 4 * used);
    return words;
}
