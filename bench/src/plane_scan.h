/* The plain scan compiled for city block in the plane alone, beside which instructions are counted. */
#ifndef BENCH_PLANE_SCAN_H
#define BENCH_PLANE_SCAN_H

#include "contestant.h"

extern const struct contestant plane_scan;

#endif
