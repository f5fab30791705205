/*
 * A feedthrough, after the Feedthrough of the Reference FMUs: each output is the input of its type. An output has the place
 * of its input. What has no words here, the String and the Binaries, is described, and nobody asks for it.
 */
#include "model_variables.h"

struct model {
    fmi3Float32 single_real;
    fmi3Float64 parameter, continuous, discrete;
    fmi3Int32 whole;
    fmi3Boolean truth;
    fmi3Int64 option;
};

static const char token[] = "{feedthrough}";
static const struct model start = {-0.1f, 0.0, -0.1, -0.0, 0, true, 1};

static const struct variable variables[] = {
    VARIABLE(1, Float32, single_real), VARIABLE(2, Float32, single_real), VARIABLE(5, Float64, parameter),
    VARIABLE(7, Float64, continuous), VARIABLE(8, Float64, continuous), VARIABLE(9, Float64, discrete),
    VARIABLE(10, Float64, discrete), VARIABLE(19, Int32, whole), VARIABLE(20, Int32, whole),
    VARIABLE(27, Boolean, truth), VARIABLE(28, Boolean, truth), VARIABLE(32, Int64, option),
    VARIABLE(33, Int64, option),
};

static void initialize(struct model *model)
{
    (void)model;
}

static bool step(struct model *model, double point, double size, double *end)
{
    (void)model;
    *end = point + size;
    return true;
}

static void update(struct model *model, bool *terminate)
{
    (void)model, (void)terminate;
}

#include "model.h"
