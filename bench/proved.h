/* The proved libraries under test. */
#include "../include/steamfiddle.h"
