/* A car on a straight road: a force moves its mass against a drag that grows with the speed. One step of Euler a step. */
#include "model_variables.h"

struct model {
    fmi3Float64 mass, drag, force, v;
};

static const char token[] = "{plant}";
static const struct model start = {1200.0, 30.0, 0.0, 20.0};

static const struct variable variables[] = {
    VARIABLE(1, Float64, mass), VARIABLE(2, Float64, drag), VARIABLE(3, Float64, force), VARIABLE(4, Float64, v),
};

static void initialize(struct model *model)
{
    (void)model;
}

static bool step(struct model *model, double point, double size, double *end)
{
    model->v = model->v + size * ((model->force - model->drag * model->v) / model->mass);
    *end = point + size;
    return true;
}

static void update(struct model *model, bool *terminate)
{
    (void)model, (void)terminate;
}

#include "model.h"
