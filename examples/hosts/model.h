/*
 * The C functions of an FMU for Co-Simulation of FMI 3.0, around the few lines that make one model: those that
 * hosts/fmi3_host.c calls, and not the others. A model's file ends with `#include "model.h"`, and has before it:
 *
 *     struct model                  what an instance has
 *     static const char token[]     its instantiationToken
 *     static const struct model start
 *     static const struct variable variables[]      {reference, type, place in the struct}, by VARIABLE
 *     static void initialize(struct model *)        at ExitInitializationMode
 *     static bool step(struct model *, double point, double size, double *end)      false is an Error
 *     static void update(struct model *, bool *terminate)
 */
#include <stdlib.h>
#include <string.h>

fmi3Instance fmi3InstantiateCoSimulation(fmi3String instanceName, fmi3String instantiationToken,
                                         fmi3String resourcePath, fmi3Boolean visible, fmi3Boolean loggingOn,
                                         fmi3Boolean eventModeUsed, fmi3Boolean earlyReturnAllowed,
                                         const fmi3ValueReference requiredIntermediateVariables[],
                                         size_t nRequiredIntermediateVariables,
                                         fmi3InstanceEnvironment instanceEnvironment,
                                         fmi3LogMessageCallback logMessage,
                                         fmi3IntermediateUpdateCallback intermediateUpdate)
{
    (void)instanceName, (void)resourcePath, (void)visible, (void)eventModeUsed, (void)earlyReturnAllowed;
    (void)requiredIntermediateVariables, (void)nRequiredIntermediateVariables, (void)intermediateUpdate;
    if (strcmp(instantiationToken, token) != 0) {
        logMessage(instanceEnvironment, fmi3Error, "logStatusError", "the token isn't that of this FMU");
        return NULL;
    }
    if (loggingOn)
        logMessage(instanceEnvironment, fmi3OK, "logAll", "an instance is made");
    struct model *model = malloc(sizeof *model);
    if (model != NULL)
        *model = start;
    return model;
}

void fmi3FreeInstance(fmi3Instance instance)
{
    free(instance);
}

fmi3Status fmi3EnterInitializationMode(fmi3Instance instance, fmi3Boolean toleranceDefined, fmi3Float64 tolerance,
                                       fmi3Float64 startTime, fmi3Boolean stopTimeDefined, fmi3Float64 stopTime)
{
    (void)instance, (void)toleranceDefined, (void)tolerance, (void)startTime, (void)stopTimeDefined, (void)stopTime;
    return fmi3OK;
}

fmi3Status fmi3ExitInitializationMode(fmi3Instance instance)
{
    initialize(instance);
    return fmi3OK;
}

#define NOTHING_TO_DO(name) \
    fmi3Status fmi3##name(fmi3Instance instance) \
    { \
        (void)instance; \
        return fmi3OK; \
    }
NOTHING_TO_DO(EnterEventMode)
NOTHING_TO_DO(EnterStepMode)
NOTHING_TO_DO(Terminate)

fmi3Status fmi3DoStep(fmi3Instance instance, fmi3Float64 currentCommunicationPoint, fmi3Float64 communicationStepSize,
                      fmi3Boolean noSetFMUStatePriorToCurrentPoint, fmi3Boolean *eventHandlingNeeded,
                      fmi3Boolean *terminateSimulation, fmi3Boolean *earlyReturn, fmi3Float64 *lastSuccessfulTime)
{
    (void)noSetFMUStatePriorToCurrentPoint;
    *eventHandlingNeeded = *terminateSimulation = *earlyReturn = fmi3False;
    return step(instance, currentCommunicationPoint, communicationStepSize, lastSuccessfulTime) ? fmi3OK : fmi3Error;
}

fmi3Status fmi3UpdateDiscreteStates(fmi3Instance instance, fmi3Boolean *discreteStatesNeedUpdate,
                                    fmi3Boolean *terminateSimulation, fmi3Boolean *nominalsOfContinuousStatesChanged,
                                    fmi3Boolean *valuesOfContinuousStatesChanged, fmi3Boolean *nextEventTimeDefined,
                                    fmi3Float64 *nextEventTime)
{
    *discreteStatesNeedUpdate = *terminateSimulation = *nominalsOfContinuousStatesChanged = fmi3False;
    *valuesOfContinuousStatesChanged = *nextEventTimeDefined = fmi3False;
    *nextEventTime = 0.0;
    update(instance, terminateSimulation);
    return fmi3OK;
}

/* The place of a variable of a type in an instance, or NULL. */
static void *place_of(fmi3Instance instance, fmi3ValueReference reference, enum type type)
{
    for (size_t i = 0; i < sizeof variables / sizeof *variables; i++)
        if (variables[i].reference == reference && variables[i].type == type)
            return (char *)instance + variables[i].place;
    return NULL;
}

#define GET_AND_SET(name) \
    fmi3Status fmi3Get##name(fmi3Instance instance, const fmi3ValueReference valueReferences[], \
                             size_t nValueReferences, fmi3##name values[], size_t nValues) \
    { \
        for (size_t i = 0; i < nValueReferences; i++) { \
            const fmi3##name *place = place_of(instance, valueReferences[i], TYPE_##name); \
            if (place == NULL || nValues != nValueReferences) \
                return fmi3Error; \
            values[i] = *place; \
        } \
        return fmi3OK; \
    } \
    fmi3Status fmi3Set##name(fmi3Instance instance, const fmi3ValueReference valueReferences[], \
                             size_t nValueReferences, const fmi3##name values[], size_t nValues) \
    { \
        for (size_t i = 0; i < nValueReferences; i++) { \
            fmi3##name *place = place_of(instance, valueReferences[i], TYPE_##name); \
            if (place == NULL || nValues != nValueReferences) \
                return fmi3Error; \
            *place = values[i]; \
        } \
        return fmi3OK; \
    }
GET_AND_SET(Float64)
GET_AND_SET(Float32)
GET_AND_SET(Int32)
GET_AND_SET(Int64)
GET_AND_SET(Boolean)
