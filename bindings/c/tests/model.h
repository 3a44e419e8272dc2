/*
 * The rules told again in plain C: every call as measuring every claim and sorting gives it, with a tree of linked nodes for the
 * nodes alone. It shares no code with the library; of nearby.h it uses the structs.
 */
#ifndef MODEL_H
#define MODEL_H

#include "nearby.h"

#include <stdbool.h>

/* A table with the memory that it is lent. */
typedef struct {
    nearby_table table;
    uint32_t *references;
    size_t references_length;
    int32_t *coordinates;
    size_t coordinates_length;
    uint64_t *nodes;
    size_t nodes_length;
} store;

/* Slices that are lent for reading, and rooms that may be written. */
typedef struct {
    const int32_t *at;
    size_t length;
} points;
typedef struct {
    const uint8_t *at;
    size_t length;
} text;
typedef struct {
    uint64_t *at;
    size_t length;
} room;
typedef struct {
    uint8_t *at;
    size_t length;
} output;

uint64_t model_distance(uint8_t measure, size_t d, const int32_t *a, const int32_t *b);

/* The nodes that entering n claims one by one gives, six numbers each; gives how many. */
size_t model_build(uint8_t measure, size_t d, const int32_t *coordinates, size_t n, uint64_t *nodes);

/* The claims within reach among the first `snapshot`, in an order, as items; gives how many. */
size_t model_listed(const store *s, uint8_t order, const int32_t *probe, uint64_t reach, size_t snapshot, uint64_t *items);

nearby_tabled model_make(uint32_t number, uint8_t measure, size_t d, size_t capacity, const store *lent);
uint8_t model_test(const store *s);
nearby_tabled model_enter(store *s, const uint32_t *given, size_t given_length, points run);
nearby_item model_nearest(const store *s, points probe, uint64_t reach);
nearby_item model_farthest(const store *s, points probe);
nearby_filled model_page(const store *s, uint8_t order, points probe, uint64_t reach, nearby_start start, size_t size, room out);
nearby_written model_answer(const store *s, text line, output out);

nearby_listed model_open(uint8_t order, uint32_t table, uint8_t measure, size_t d, points probe, uint64_t reach);
nearby_written model_write_ask(nearby_list list, room items, size_t size, output out);
nearby_listed model_take(nearby_list list, room items, text line);

nearby_written model_ask_line(uint8_t order, uint32_t table, uint8_t measure, uint8_t d, points probe, nearby_scope scope,
                              uint8_t size, output out);
nearby_written model_answer_line(uint8_t order, uint32_t table, uint8_t measure, uint8_t d, points probe, nearby_scope scope,
                                 uint8_t last, uint8_t count, room items, output out);
nearby_written model_claim_line(uint32_t table, uint8_t measure, uint8_t d, uint32_t reference, points coordinates, output out);
nearby_ask_read model_read_ask(text line);
nearby_answer_read model_read_answer(text line);
nearby_claim_read model_read_claim(text line);

uint8_t model_many_nearest(const store *s, points probes, room reaches, room out);
uint8_t model_many_farthest(const store *s, points probes, size_t n, room out);
uint8_t model_many_pages(const store *s, points probes, room reaches, room starts, size_t size, room outcomes, room items);
nearby_answered model_many_answers(const store *s, text asks, room outcomes, output out);

#endif
