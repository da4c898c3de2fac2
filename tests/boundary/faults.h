/* Faults that the harness has to notice: what a faulty store does, once a right call is done. And what a right store may do, of which
 * it must not take notice. */
#ifndef FAULTS_H
#define FAULTS_H

#include "calls.h"

struct done {
    const struct call *call;
    sweep_answer answer;
    const uint8_t *tables, *pages; /* before the call; the tables where they had their length */
};

struct fault {
    const char *name;
    void (*does)(struct done *done); /* 0: nothing */
    int noticed;                     /* whether it has to be */
};
#define FAULT(name) {#name, name, 1}
#define ALLOWED(name) {#name, name, 0}

#define LENT(buffer) (done->call->lent[buffer])
#define START(buffer) (LENT(buffer).at)
#define END(buffer) (START(buffer) + LENT(buffer).length)
#define IS(which) (done->call->name == which)
#define TOOK(which) (IS(which) && done->answer.number == SWEEP_OK)
#define REFUSED(which) (IS(which) && done->answer.number != SWEEP_OK)

/* A byte read, and a byte written with the value it has. */
void look(const uint8_t *at);
void touch(uint8_t *at);

/* A byte changed beside a buffer that stands with its other end against a page without access. */
void change_before(struct slice lent);
void change_past(struct slice lent);

/* Those of a compaction (compaction_faults.c), and those of marking and of the converter with marked files (marking_faults.c). */
extern const struct fault compaction_faults[], marking_faults[];
extern const int compaction_fault_count, marking_fault_count;

#endif
