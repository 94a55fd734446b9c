/* How a long row goes in parts: see parts.h. */
#include "parts.h"

/* What comes together at a member: an engine holds some four times as much. */
enum { MOST_TOGETHER = 64 << 20 };

size_t longest_part(int blocks, size_t unit) { return MOST_TOGETHER / (size_t)blocks / unit * unit; }
