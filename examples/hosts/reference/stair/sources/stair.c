/*
 * A stair, after the Stair of the Reference FMUs: a counter that goes up each second, and asks for the end at 10. Inside it
 * goes in steps of a fifth of a second, so a step of another size ends before its bound.
 */
#include "model_variables.h"

struct model {
    fmi3Int32 counter;
    int fifths; /* how many have passed */
};

static const char token[] = "{stair}";
static const struct model start = {1, 0};

static const struct variable variables[] = {VARIABLE(1, Int32, counter)};

static void initialize(struct model *model)
{
    (void)model;
}

static bool step(struct model *model, double point, double size, double *end)
{
    while ((model->fifths + 1) / 5.0 <= point + size + 1e-9)
        model->fifths++;
    *end = model->fifths / 5.0;
    return true;
}

static void update(struct model *model, bool *terminate)
{
    if (model->fifths >= 5 * model->counter)
        model->counter++;
    *terminate = model->counter > 10;
}

#include "model.h"
