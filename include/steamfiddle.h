/* Steamfiddle for hosts in C and C++: configuration files of CAN bus loggers to plans, and plans run on events.

   Two libraries, for x86-64 (x86-64-v2: processors with SSE4.2); `./steamfiddle install DIR` puts them into DIR/lib and this header into DIR/include:
     libsteamfiddle_converter.a   steamfiddle_convert
     libsteamfiddle_logger.a      steamfiddle_load, steamfiddle_replay; nothing in it knows of files
   Either is linked alone or both together. All they take from the C library is memcpy, memmove and memset; the logger takes nothing.

   For all calls:
   - A pointer is valid for its length and aligned for its type. The proofs are for pointers that are not null. A null pointer with length 0, as
     an empty std::vector gives it, is not followed by the compiled code, which answers as for any empty buffer; that was tried, not proved.
   - The buffer that a call writes to (`plan` of steamfiddle_convert, `out` of steamfiddle_replay) overlaps no other buffer of that call.
   - Lengths count elements: bytes of uint8_t, words of uint32_t.
   - Within these rules every call answers, whatever the buffers hold. No call allocates, and none stops the program.
   - Nothing is kept between calls, so calls may run in parallel threads, as long as no buffer that one writes is used by another.

   Each function is proved to meet the contract in its crate: crates/converter_archive/src/lib.rt, crates/logger_archive/src/lib.rt. The rules that
   the contracts cite stand in specs/ of the crates; docs/FILES.md and docs/EVENTS.md tell them in words. */
#ifndef STEAMFIDDLE_H
#define STEAMFIDDLE_H

#include <stddef.h>
#include <stdint.h>

#ifdef __cplusplus
extern "C" {
#endif

/* The first number is that of the plans: the word with which each begins. A loader takes no other. */
#define STEAMFIDDLE_VERSION "1.0.0"
#define STEAMFIDDLE_PLAN_FIRST 1

/* No plan has more words: a buffer of this size is never too short. */
#define STEAMFIDDLE_PLAN_WORDS 1590

/* No file that is accepted has more bytes. */
#define STEAMFIDDLE_FILE_BYTES 32768

/* An event has this many bytes, and so has an answer. */
#define STEAMFIDDLE_RECORD_BYTES 32

/* Bytes of stack that a call needs, as measured by bench/stack.c, with some to spare. Loading and replaying are small enough for firmware. */
#define STEAMFIDDLE_CONVERT_STACK 98304 /* measured: 60,392 at most */
#define STEAMFIDDLE_LOAD_STACK 1024     /* measured: 180 */
#define STEAMFIDDLE_REPLAY_STACK 2048   /* measured: 1,380 */

/* ---- Refusals: of files 1 to 13, of plans and events 20 to 25 */
enum steamfiddle_refusal {
    STEAMFIDDLE_FILE_TOO_LONG = 1,
    STEAMFIDDLE_BROKEN_SHAPE = 2,
    STEAMFIDDLE_WRONG_ROOT = 3,
    STEAMFIDDLE_TOO_MANY = 4,
    STEAMFIDDLE_BAD_ATTRIBUTES = 5,
    STEAMFIDDLE_BAD_VALUE = 6,
    STEAMFIDDLE_NOT_CARRIED = 7,
    STEAMFIDDLE_ELEMENT_LACKING = 8,
    STEAMFIDDLE_NAME_USED = 9,
    STEAMFIDDLE_BAD_CHANNELS = 10,
    STEAMFIDDLE_BAD_EXPRESSION = 11,
    STEAMFIDDLE_UNKNOWN_NAME = 12,
    STEAMFIDDLE_PLAN_TOO_SHORT = 13,
    STEAMFIDDLE_NO_PLAN = 20,
    STEAMFIDDLE_NO_SUCH_CHANNEL = 21,
    STEAMFIDDLE_BAD_TIME = 22,
    STEAMFIDDLE_BAD_FRAME = 23,
    STEAMFIDDLE_COUNTS_FULL = 24,
    STEAMFIDDLE_CODE_FAULT = 25
};

/* ---- Files to plans: libsteamfiddle_converter.a

   Writes the plan of the configuration file `file` into `plan`, or refuses the file. The answer is two numbers in one: */
#define STEAMFIDDLE_NUMBER(answer) ((uint32_t)((uint64_t)(answer) >> 32)) /* 0 where the plan is written, else the refusal's number */
#define STEAMFIDDLE_VALUE(answer) ((uint32_t)(answer))                    /* the plan's length in words, or the refusal's place */

/* Both fit for every file. A plan stands in the first words of `plan`, and the words behind it stay as they were; a refusal leaves all words
   as they were. The first refusal in this order is given: 1, 2, 3; then the elements in file order, each 4, 7 for its kind, 5, 6, 7 for a
   value; then 8, 9, 10; then the statements in order, 11 before 12; then 13.

     number  when                                                        place
     1       the file is longer than 32,768 bytes                        32768
     2       the file's shape is broken                                  length of the longest prefix that some well-shaped text starts with
     3       the root element is not KVASER                              the root
     4       an element is over a limit or given twice                   the element
     5       an attribute is unknown, repeated or lacking                the element
     6       a bad value or stray text                                   the element
     7       known, but not carried                                      the element
     8       a required element is lacking                               the root
     9       a trigger's name is used earlier                            the first such trigger
     10      the channels of PARAMETERS are not exactly 0 to n-1;        CAN_BUS;
             else a trigger or CHANNEL names n or more                   else the first such element
     11      an expression breaks its rules                              the EXPRESSION
     12      a word in an expression names no trigger                    the EXPRESSION
     13      `plan` is too short                                         words needed

   An element's place is the offset of its `<` in the file. The call needs STEAMFIDDLE_CONVERT_STACK bytes of stack, beside what its thread needs. */
uint64_t steamfiddle_convert(const uint8_t *file, size_t file_len, uint32_t *plan, size_t plan_len);

/* ---- Plans: libsteamfiddle_logger.a

   Whether the `len` words at `plan` are a plan: 0 taken, or 20. Every plan that steamfiddle_convert writes is taken. */
uint32_t steamfiddle_load(const uint32_t *plan, size_t len);

/* ---- Plans run on events: libsteamfiddle_logger.a

   Feeds a fresh engine (logging is off, nothing has fired), the host's counts starting at the four numbers, with
   min(events_len / 32, out_len / 32) events in order, writes an answer for each and answers how many. The plan is checked once for the whole
   call; where it is none, each answer is 20. Bytes of `out` behind the last whole answer stay as they were. Numbers have their low byte first.

   A call starts anew each time. The four counts are what it starts to count from, and nothing else: they do not bring back whether it was
   logging, which triggers had fired or which expressions were true. To go on with a history, lend it again from its first event on, with the new
   events behind it and the counts it began with.

   What a tick is for: time passes only by events. An expression is evaluated, and an ending noticed, at the first event behind its moment, be it a
   frame or a tick; on a bus that has fallen silent there is no frame. Example: the trigger `alive` fires on each frame 100 and has a timeout of 200,
   the statement `NOT alive` starts the log. Frames 100 at 0.0 s and 1.0 s, and nothing between: at each of them `alive` is true, `NOT alive` never
   rises, and no later frame is recorded. With a tick at 0.2 s the same frames are: the tick finds `alive` false, the log starts.
   How often: as often as a timeout or an ending should be noticed on a silent bus. Every 10 ms is plenty for settings of 100 ms and more; a tick
   costs what a frame costs that fires nothing. Ticks may come at any time that is not before the last event, also at the same microsecond. */
enum steamfiddle_kind {
    STEAMFIDDLE_TICK = 0,
    STEAMFIDDLE_FRAME = 1 /* and every other value */
};

/* Flags of a frame, summed; higher bits are not looked at. */
enum steamfiddle_flag {
    STEAMFIDDLE_ERROR = 1,
    STEAMFIDDLE_REMOTE = 2,
    STEAMFIDDLE_EXT = 4
};

/* An event, 32 bytes:
     0      enum steamfiddle_kind
     1      flags
     2      channel
     3      dlc
     4-7    id
     8-15   time in microseconds
     16-23  data
     24-31  not looked at
   Of a tick only kind and time are looked at; of an error frame neither remote, ext, id, dlc nor data. */

enum steamfiddle_answer {
    STEAMFIDDLE_RECORDED = 0,
    STEAMFIDDLE_IDLE = 1,
    STEAMFIDDLE_STOPPED = 2,
    STEAMFIDDLE_HALTED = 3,
    STEAMFIDDLE_TICKED = 4 /* or a refusal, 20 to 25 */
};

enum steamfiddle_logging {
    STEAMFIDDLE_LOGGING_OFF = 0,
    STEAMFIDDLE_LOGGING_ON = 1,
    STEAMFIDDLE_LOGGING_ENDING = 2,
    STEAMFIDDLE_LOGGING_ENDING_COMPLETELY = 3,
    STEAMFIDDLE_LOGGING_HALTED = 4
};

/* An answer, 32 bytes:
     0      enum steamfiddle_answer, or the number of a refusal
     1      enum steamfiddle_logging after the event
     2-7    zero
     8-15   the time at which an ending ends, or 0
     16-19  count of Recorded
     20-23  count of Idle
     24-27  count of Stopped
     28-31  count of Halted

   A refused event changes nothing:
     20     the words are no plan
     21     frame: its channel is not one of the plan's
     22     its time is below that of the last accepted event, or above 10^16
     23     frame: identifier out of range (above 2,047, or 536,870,911 with ext) or dlc above 8
     24     frame: the four counts already sum to 4,294,967,295 or more
     25     fault in an expression's code: no plan that is taken gives it */
uint64_t steamfiddle_replay(const uint32_t *plan, size_t plan_len, const uint8_t *events, size_t events_len, uint32_t recorded, uint32_t idle,
                            uint32_t stopped, uint32_t halted, uint8_t *out, size_t out_len);

#ifdef __cplusplus
}
#endif

#endif
