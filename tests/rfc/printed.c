/* The transforms that sections 14.3 and 14.4 of RFC 6386 print, as functions that can be linked. */
#include "section14.h"
