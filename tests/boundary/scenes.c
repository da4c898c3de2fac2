/* Short lists of calls in which files are marked in nearly full stores, with what each call gives, worked out by hand. */
#include <string.h>
#include "scenes.h"

enum { PAGE = SWEEP_PAGE_BYTES };

/* File 0 throughout. PUT writes so many whole pages, narrow; PUT_EIGHTS by groups of eight. */
#define GIVES(...) {__VA_ARGS__}
#define CREATES(set) {CREATE, {set, 0}, 0, GIVES(0, 0, 0, 0)}
#define MAKES(parent, set) {MAKE, {parent, set, 1}, 0, GIVES(0, 0, 0, 0)}
#define MAKES_READ_ONLY(parent, set) {MAKE, {parent, set, 0}, 0, GIVES(0, 0, 0, 0)}
#define PUT(set, page, count, ...) {WRITE_NARROW, {set, 0, PAGE * (page)}, PAGE * (count), GIVES(__VA_ARGS__)}
#define PUT_EIGHTS(set, page, count, ...) {WRITE, {set, 0, PAGE * (page)}, PAGE * (count), GIVES(__VA_ARGS__)}
#define CUTS(set, size, ...) {TRUNCATE, {set, 0, size}, 0, GIVES(__VA_ARGS__)}
#define DELETES(set, ...) {DELETE, {set, 0}, 0, GIVES(__VA_ARGS__)}
#define LEFT(blocks) {FREE, {0}, 0, GIVES(0, blocks, 0, 0)}
#define READS(set, page, maps) {READ, {set, 0, PAGE * (page)}, PAGE, GIVES(0, PAGE, maps, 0)}
#define IS_MARKED(set) {SIZE, {set, 0}, 0, GIVES(SWEEP_MARKED, 0, 0, 0)}

const struct scene scenes[] = {
    /* page 0 is copied, page 1 finds no block; the copy counts, its block is free, and page 1 is not tried again */
    {"one child, one block free", 3,
     {CREATES(0), PUT(0, 0, 2, 0, 2, 0, 0), MAKES(0, 1), LEFT(1), PUT(0, 0, 2, 0, 0, 1, 1), LEFT(1), IS_MARKED(1),
      {READ, {1, 0, 0}, PAGE, GIVES(SWEEP_MARKED, 0, 0, 0)}, {WRITE, {1, 0, 0}, PAGE, GIVES(SWEEP_MARKED, 0, 0, 0)},
      PUT(1, 0, 0, SWEEP_MARKED, 0, 0, 0), CUTS(1, 0, SWEEP_MARKED, 0, 0, 0), {CREATE, {1, 0}, 0, GIVES(SWEEP_PRESENT, 0, 0, 0)},
      DELETES(1, 0, 0, 0, 0), LEFT(1), CREATES(1), PUT(1, 5, 1, 0, 1, 0, 0), LEFT(0)}},
    /* at page 1 the first is marked, and the second takes its block */
    {"two children, two blocks free", 4,
     {CREATES(0), PUT(0, 0, 2, 0, 2, 0, 0), MAKES(0, 1), MAKES(0, 2), PUT(0, 0, 2, 0, 0, 3, 1), LEFT(0), IS_MARKED(1), READS(2, 0, 1),
      READS(2, 1, 1)}},
    /* one block comes free twice: child 1 had it for page 0, child 2 takes it for page 1 */
    {"four children, four blocks free", 8,
     {CREATES(0), PUT(0, 0, 4, 0, 4, 0, 0), MAKES(0, 1), MAKES(0, 2), MAKES(0, 3), MAKES(0, 4), PUT(0, 0, 4, 0, 0, 8, 3), LEFT(0),
      IS_MARKED(1), IS_MARKED(2), IS_MARKED(3), READS(4, 3, 1)}},
    {"seven children, seven blocks free", 10,
     {CREATES(0), PUT(0, 0, 3, 0, 3, 0, 0), MAKES(0, 1), MAKES(0, 2), MAKES(0, 3), MAKES(0, 4), MAKES(0, 5), MAKES(0, 6), MAKES(0, 7),
      PUT(0, 0, 3, 0, 0, 12, 5), LEFT(1), IS_MARKED(1), READS(2, 2, 1), IS_MARKED(3), IS_MARKED(4), IS_MARKED(5), READS(6, 0, 1),
      IS_MARKED(7)}},
    /* the children in order of making, not by number */
    {"children made out of order", 4,
     {CREATES(0), PUT(0, 0, 2, 0, 2, 0, 0), MAKES(0, 6), MAKES(0, 2), PUT(0, 0, 2, 0, 0, 3, 1), IS_MARKED(6), READS(2, 1, 1)}},
    /* the block that marking child 2 frees serves the extra page 2 of child 1; the narrow write leaves it free */
    {"an extra page takes a freed block", 6,
     {CREATES(0), PUT(0, 0, 3, 0, 3, 0, 0), MAKES(0, 1), MAKES(0, 2), PUT_EIGHTS(0, 0, 2, 0, 0, 4, 1), LEFT(0), IS_MARKED(2),
      READS(1, 2, 1), PUT(0, 2, 1, 0, 0, 0, 0)}},
    {"the same, narrow", 6,
     {CREATES(0), PUT(0, 0, 3, 0, 3, 0, 0), MAKES(0, 1), MAKES(0, 2), PUT(0, 0, 2, 0, 0, 3, 1), LEFT(1), IS_MARKED(2), READS(1, 2, 2)}},
    /* an extra page that finds none free marks nothing */
    {"an extra page without a block", 3,
     {CREATES(0), PUT(0, 0, 2, 0, 2, 0, 0), MAKES(0, 1), PUT_EIGHTS(0, 0, 1, 0, 0, 1, 0), LEFT(0), READS(1, 1, 2)}},
    /* set 2 takes page 0 over, is marked at page 1, and set 3 takes that block for page 1: the call does not free it */
    {"a block handed over, freed and taken, by delete", 3,
     {CREATES(0), PUT(0, 1, 1, 0, 1, 0, 0), MAKES(0, 1), PUT(1, 0, 1, 0, 1, 0, 0), MAKES(1, 2), MAKES(1, 3), PUT(3, 0, 1, 0, 1, 0, 0),
      LEFT(0), DELETES(1, 0, 0, 1, 1), LEFT(0), IS_MARKED(2), READS(3, 0, 1), READS(3, 1, 1), READS(0, 1, 1)}},
    {"the same, by truncate", 3,
     {CREATES(0), PUT(0, 1, 1, 0, 1, 0, 0), MAKES(0, 1), PUT(1, 0, 1, 0, 1, 0, 0), MAKES(1, 2), MAKES(1, 3), PUT(3, 0, 1, 0, 1, 0, 0),
      CUTS(1, 0, 0, 0, 1, 1), LEFT(0), IS_MARKED(2), READS(3, 0, 1), READS(3, 1, 1), READS(0, 1, 1)}},
    /* the same without set 3: nobody takes the block, and it is free once */
    {"a block handed over and freed", 2,
     {CREATES(0), PUT(0, 1, 1, 0, 1, 0, 0), MAKES(0, 1), PUT(1, 0, 1, 0, 1, 0, 0), MAKES(1, 2), LEFT(0), DELETES(1, 0, 0, 0, 1), LEFT(1),
      IS_MARKED(2), PUT(0, 0, 1, 0, 1, 0, 0), LEFT(0)}},
    /* child 1 is marked at the part page and gives its block to child 2, which then takes page 1 over */
    {"a cut inside a page", 3,
     {CREATES(0), PUT(0, 0, 2, 0, 2, 0, 0), MAKES(0, 1), MAKES(0, 2), PUT(1, 2, 1, 0, 1, 0, 0), LEFT(0), CUTS(0, 100, 0, 0, 1, 1), LEFT(0),
      IS_MARKED(1), READS(2, 0, 1), READS(2, 1, 1)}},
    /* the only child is marked at the part page, so page 1 goes to nobody and is freed */
    {"a cut inside a page, one child", 2,
     {CREATES(0), PUT(0, 0, 2, 0, 2, 0, 0), MAKES(0, 1), CUTS(0, 1, 0, 0, 0, 1), LEFT(1), IS_MARKED(1)}},
    /* own blocks come first; what marking frees is free after the call */
    {"an own block and a mark", 4,
     {CREATES(0), PUT(0, 1, 2, 0, 2, 0, 0), MAKES(0, 1), PUT(1, 0, 1, 0, 1, 0, 0), LEFT(1), PUT(0, 0, 2, 0, 1, 0, 1), LEFT(1), IS_MARKED(1)}},
    /* number 8 is judged before anything is marked, though a mark would free the block that the write needs */
    {"number 8 before marks", 3,
     {CREATES(0), PUT(0, 0, 2, 0, 2, 0, 0), MAKES(0, 1), PUT(1, 0, 1, 0, 1, 0, 0), PUT(0, 0, 3, SWEEP_FULL, 0, 0, 0), LEFT(0),
      READS(1, 1, 2), PUT(0, 1, 1, 0, 0, 0, 1), LEFT(1), PUT(0, 2, 1, 0, 1, 0, 0), LEFT(0)}},
    /* dependents give their blocks back too, down to level 5 */
    {"a dependent", 2,
     {CREATES(0), PUT(0, 0, 1, 0, 1, 0, 0), MAKES(0, 1), MAKES(1, 2), PUT(2, 1, 1, 0, 1, 0, 0), LEFT(0), PUT(0, 0, 1, 0, 0, 0, 2), LEFT(1),
      IS_MARKED(1), IS_MARKED(2)}},
    {"dependents down to level 5", 6,
     {CREATES(0), PUT(0, 0, 1, 0, 1, 0, 0), MAKES(0, 1), PUT(1, 1, 1, 0, 1, 0, 0), MAKES(1, 2), PUT(2, 2, 1, 0, 1, 0, 0), MAKES(2, 3),
      PUT(3, 3, 1, 0, 1, 0, 0), MAKES(3, 4), PUT(4, 4, 1, 0, 1, 0, 0), MAKES(4, 5), PUT(5, 5, 1, 0, 1, 0, 0), LEFT(0),
      PUT(0, 0, 1, 0, 0, 0, 5), LEFT(5), IS_MARKED(1), IS_MARKED(5), READS(0, 0, 1)}},
    /* the blocks of a dependent of child 1 serve child 3 */
    {"a dependent's block is taken", 3,
     {CREATES(0), PUT(0, 0, 1, 0, 1, 0, 0), MAKES(0, 1), MAKES(1, 2), PUT(2, 1, 2, 0, 2, 0, 0), MAKES(0, 3), LEFT(0), PUT(0, 0, 1, 0, 0, 1, 2),
      LEFT(1), IS_MARKED(2), READS(3, 0, 1)}},
    /* the file of set 2 has no unmapped page: it is not marked and keeps its block */
    {"no dependent", 3,
     {CREATES(0), PUT(0, 0, 1, 0, 1, 0, 0), MAKES(0, 1), MAKES(1, 2), DELETES(2, 0, 0, 0, 0), CREATES(2), PUT(2, 0, 1, 0, 1, 0, 0),
      PUT(1, 1, 1, 0, 1, 0, 0), LEFT(0), PUT(0, 0, 1, 0, 0, 0, 1), LEFT(1), IS_MARKED(1), READS(2, 0, 1)}},
    /* 63 blocks of one file */
    {"a child with 63 pages of its own", 64,
     {CREATES(0), PUT(0, 0, 1, 0, 1, 0, 0), MAKES(0, 1), PUT(1, 1, 63, 0, 63, 0, 0), LEFT(0), PUT(0, 0, 1, 0, 0, 0, 1), LEFT(63),
      IS_MARKED(1)}},
    /* marked copies of marked files; a delete and a removal of them free nothing */
    {"copies of a marked file", 2,
     {CREATES(0), PUT(0, 0, 2, 0, 2, 0, 0), MAKES(0, 1), PUT(0, 0, 1, 0, 0, 0, 1), MAKES(1, 2), MAKES_READ_ONLY(1, 3), IS_MARKED(2), IS_MARKED(3),
      DELETES(3, SWEEP_READ_ONLY, 0, 0, 0), DELETES(2, 0, 0, 0, 0), {REMOVE, {3}, 0, GIVES(0, 0, 0, 0)}, LEFT(0),
      DELETES(0, 0, 0, 0, 0), LEFT(2)}},
    /* through the front panel: child 1 takes both pages over; child 2 gets a copy of page 0, is marked at page 1 and gives it back */
    {"a delete of the front panel", 3,
     {CREATES(0), PUT(0, 0, 2, 0, 2, 0, 0), MAKES_READ_ONLY(0, 1), MAKES_READ_ONLY(0, 2), LEFT(1),
      {PANEL_WRITE, {SWEEP_PANEL_COMMAND, SWEEP_PANEL_DELETE}, 0, GIVES(0, 0, 0, 0)}, {PANEL_READ, {SWEEP_PANEL_SECOND}, 0, GIVES(0, 1, 0, 0)},
      {PANEL_READ, {SWEEP_PANEL_THIRD}, 0, GIVES(0, 1, 0, 0)},
      {PANEL_READ, {SWEEP_PANEL_CAUSE}, 0, GIVES(0, SWEEP_PANEL_ACCEPTED | SWEEP_PANEL_MARKED, 0, 0)}, LEFT(1), READS(1, 1, 1), IS_MARKED(2)}},
};
const int scene_count = sizeof scenes / sizeof *scenes;

void run_scene(const struct scene *scene, struct buffers *world, caller how, unsigned turn, looks *look)
{
    const struct call format = {FORMAT, {0}, {{0, 0}}}, reset = {PANEL_RESET, {0}, {{0, 0}}};
    memset(world, 0x5A, sizeof *world);
    memset(world->length, 0, sizeof world->length);
    world->length[TABLES] = SWEEP_TABLES_BYTES;
    world->length[PAGES] = PAGE * scene->blocks;
    world->length[REGISTERS] = SWEEP_PANEL_REGISTERS;
    do_call(&exported, how, world, &format, turn);
    do_call(&exported, how, world, &reset, turn);
    for (int i = 0; i < SCENE_STEPS && scene->steps[i].name != FORMAT; i++) {
        const struct step *step = &scene->steps[i];
        struct call call = {step->name, {0}, {{0, 0}}};
        memcpy(call.n, step->n, sizeof call.n);
        world->length[BYTES] = step->bytes;
        memset(world->of[BYTES], i + 1, step->bytes);
        sweep_answer given = do_call(&exported, how, world, &call, turn + (unsigned)i);
        if (look)
            look(scene, step, given, world);
    }
}
