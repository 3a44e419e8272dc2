/*
 * The tree built a second way. The model and the library enter claims one by one, each from the root. This builder enters none from
 * the root: it goes over the claims once for each node, in rising order, and hands those that wait there out to its two sides.
 */
#ifndef SECOND_BUILDER_H
#define SECOND_BUILDER_H

#include <stddef.h>
#include <stdint.h>

/* The nodes of n claims, six numbers each; gives how many. */
size_t second_build(uint8_t measure, size_t d, const int32_t *coordinates, size_t n, uint64_t *nodes);

#endif
