// The unproved archive's functions in their C form, those that a bench asks: there a slice is the address of a pointer and a length.
#include "urszovely.h"

struct slice { const void *at; size_t length; };
void raw_urszovely_verdict(const uint64_t *, uint64_t, struct slice *, uint64_t *);
void raw_urszovely_place(const uint64_t *, uint64_t, const uint64_t *, const uint64_t *, struct slice *, uint64_t *);
void raw_urszovely_read(struct slice *, uint64_t *, uint64_t *, uint64_t *);
void raw_urszovely_mask(uint64_t, uint64_t, uint64_t, struct slice *, uint64_t *);
void raw_urszovely_carry(const uint64_t *, uint64_t, const uint64_t *, uint64_t, struct slice *, struct slice *, struct slice *, uint64_t *);
void raw_urszovely_plan(const uint64_t *, uint64_t, const uint64_t *, uint64_t, struct slice *, struct slice *, struct slice *, uint64_t *);

void urszovely_verdict(const uint64_t *card, uint64_t marks, uint32_t *table, size_t length, uint64_t *answer) {
    raw_urszovely_verdict(card, marks, &(struct slice){table, length}, answer);
}
void urszovely_place(const uint64_t *card, uint64_t marks, const uint64_t *shape, const uint64_t *coordinates, uint32_t *memory, size_t length, uint64_t *answer) {
    raw_urszovely_place(card, marks, shape, coordinates, &(struct slice){memory, length}, answer);
}
void urszovely_read(const uint8_t *text, size_t length, uint64_t *card, uint64_t *marks, uint64_t *answer) {
    raw_urszovely_read(&(struct slice){text, length}, card, marks, answer);
}
void urszovely_mask(uint64_t m, uint64_t n, uint64_t descriptor, uint8_t *mask, size_t length, uint64_t *answer) {
    raw_urszovely_mask(m, n, descriptor, &(struct slice){mask, length}, answer);
}
void urszovely_carry(const uint64_t *one, uint64_t marks, const uint64_t *two, uint64_t others, const uint64_t *plan, size_t copies, uint32_t *first, size_t cells, uint32_t *second, size_t more, uint64_t *answer) {
    raw_urszovely_carry(one, marks, two, others, &(struct slice){plan, copies}, &(struct slice){first, cells}, &(struct slice){second, more}, answer);
}
void urszovely_plan(const uint64_t *one, uint64_t marks, const uint64_t *two, uint64_t others, uint64_t *plan, size_t copies, uint32_t *first, size_t cells, uint32_t *second, size_t more, uint64_t *answer) {
    raw_urszovely_plan(one, marks, two, others, &(struct slice){plan, copies}, &(struct slice){first, cells}, &(struct slice){second, more}, answer);
}

// Those on values have no slices, and their C form as they stand.
void raw_urszovely_deal(uint64_t, uint64_t, const uint8_t *, const float *, const double *, uint8_t *, float *, double *, uint64_t *);
void raw_urszovely_collect(uint64_t, uint64_t, const uint8_t *, const float *, const double *, uint8_t *, float *, double *, uint64_t *);
void raw_urszovely_deal_f64(uint64_t, uint64_t, const uint8_t *, const float *, const double *, double *, uint64_t *);
void raw_urszovely_collect_f64(uint64_t, uint64_t, const double *, uint8_t *, float *, double *, uint64_t *);

void urszovely_deal(uint64_t kind, uint64_t computation, const uint8_t *from, const float *singles, const double *doubles, uint8_t *to, float *single, double *twice, uint64_t *answer) {
    raw_urszovely_deal(kind, computation, from, singles, doubles, to, single, twice, answer);
}
void urszovely_collect(uint64_t kind, uint64_t computation, const uint8_t *from, const float *singles, const double *doubles, uint8_t *to, float *single, double *twice, uint64_t *answer) {
    raw_urszovely_collect(kind, computation, from, singles, doubles, to, single, twice, answer);
}
void urszovely_deal_f64(uint64_t kind, uint64_t computation, const uint8_t *from, const float *singles, const double *doubles, double *holdings, uint64_t *answer) {
    raw_urszovely_deal_f64(kind, computation, from, singles, doubles, holdings, answer);
}
void urszovely_collect_f64(uint64_t kind, uint64_t computation, const double *holdings, uint8_t *to, float *single, double *twice, uint64_t *answer) {
    raw_urszovely_collect_f64(kind, computation, holdings, to, single, twice, answer);
}
