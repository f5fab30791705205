/* A controller of a speed: proportional and integral, on the difference between the speed that is wanted and that of `v`. */
#include "model_variables.h"

struct model {
    fmi3Float64 wanted, kp, ki, v, force, sum;
};

static const char token[] = "{controller}";
static const struct model start = {25.0, 800.0, 40.0, 0.0, 0.0, 0.0};

static const struct variable variables[] = {
    VARIABLE(1, Float64, wanted), VARIABLE(2, Float64, kp), VARIABLE(3, Float64, ki), VARIABLE(4, Float64, v),
    VARIABLE(5, Float64, force),
};

static void initialize(struct model *model)
{
    (void)model;
}

static bool step(struct model *model, double point, double size, double *end)
{
    double error = model->wanted - model->v;
    model->sum = model->sum + error * size;
    model->force = model->kp * error + model->ki * model->sum;
    *end = point + size;
    return true;
}

static void update(struct model *model, bool *terminate)
{
    (void)model, (void)terminate;
}

#include "model.h"
