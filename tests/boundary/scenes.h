/* Short lists of calls in which files are marked in nearly full stores, with what each call gives. */
#ifndef SCENES_H
#define SCENES_H

#include "calls.h"

enum { SCENE_STEPS = 24 };

/* A call: its numbers, and how many bytes its data or its read buffer has. */
struct step {
    unsigned name;
    uint32_t n[MOST_NUMBERS];
    uint32_t bytes;
    sweep_answer gives;
};

/* They are done after a format of so many blocks and a reset of the front panel's registers; a step behind the last is a format. */
struct scene {
    const char *name;
    uint32_t blocks;
    struct step steps[SCENE_STEPS];
};
extern const struct scene scenes[];
extern const int scene_count;

/* Looks at what a call gave and left. */
typedef void looks(const struct scene *scene, const struct step *step, sweep_answer given, const struct buffers *after);

/* Does a scene in these buffers; the turn of its first call says where the buffers stand. */
void run_scene(const struct scene *scene, struct buffers *world, caller how, unsigned turn, looks *look);

#endif
