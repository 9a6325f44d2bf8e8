/* Numbers of the paper that plain.c and plain_logger.c share. */
#ifndef PLAIN_LIMITS_H
#define PLAIN_LIMITS_H

#include "plain.h"

enum { MOST_CHANNELS = 5, MOST_TRIGGERS = 32, MOST_FILTERS = 32, MOST_STATEMENTS = 16, MOST_ACTIONS = 6, MOST_TOKENS = 64, MOST_STACK = 24 };
enum { LAST_STANDARD = 2047, LAST_EXTENDED = 536870911, LAST_MS = 1000000000, LAST_DLC = 8 };
enum { PUSH_LAST = 31, CODE_AND, CODE_OR, CODE_NOT };

#define FOREVER 0xFFFFFFFFu
#define LAST_TIME 10000000000000000ull
#define BIT(k) (1u << (k))

#endif
