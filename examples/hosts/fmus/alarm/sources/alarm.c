/*
 * An FMU for Co-Simulation that may return early from a step: where a step would pass the point `at`, in thousandths of a
 * second, it ends there, and `y` counts how often.
 *
 *     cc -std=c99 -fPIC -shared -I ../../../../../hosts -o ../binaries/x86_64-linux/alarm.so alarm.c
 *
 * It has the functions of FMI 3.0 that hosts/fmi3_host.c calls for it. One for every importer exports the others too. What
 * an importer does wrong with its states is answered with Error, and one that is left when it is freed is told.
 */
#include "fmi3_functions.h"

#include <stdlib.h>
#include <string.h>

/* Value references, as in modelDescription.xml. */
enum { AT = 1, Y = 2 };

struct state {
    double now;
    int32_t at, count;
};

struct alarm {
    fmi3InstanceEnvironment environment;
    fmi3LogMessageCallback log_message;
    struct state state;
    bool may_return_early;
    struct state *saved; /* an importer here has one at a time */
};

fmi3Instance fmi3InstantiateCoSimulation(fmi3String instanceName, fmi3String instantiationToken,
                                         fmi3String resourcePath, fmi3Boolean visible, fmi3Boolean loggingOn,
                                         fmi3Boolean eventModeUsed, fmi3Boolean earlyReturnAllowed,
                                         const fmi3ValueReference requiredIntermediateVariables[],
                                         size_t nRequiredIntermediateVariables,
                                         fmi3InstanceEnvironment instanceEnvironment,
                                         fmi3LogMessageCallback logMessage,
                                         fmi3IntermediateUpdateCallback intermediateUpdate)
{
    (void)instanceName, (void)resourcePath, (void)visible, (void)loggingOn;
    (void)requiredIntermediateVariables, (void)nRequiredIntermediateVariables, (void)intermediateUpdate;
    if (strcmp(instantiationToken, "{alarm}") != 0 || !eventModeUsed) {
        if (logMessage != NULL)
            logMessage(instanceEnvironment, fmi3Error, "logStatusError", "wrong token, or without event mode");
        return NULL;
    }
    struct alarm *alarm = malloc(sizeof *alarm);
    if (alarm != NULL)
        *alarm = (struct alarm){instanceEnvironment, logMessage, {0.0, 7, 0}, earlyReturnAllowed, NULL};
    return alarm;
}

void fmi3FreeInstance(fmi3Instance instance)
{
    struct alarm *alarm = instance;
    if (alarm->saved != NULL && alarm->log_message != NULL)
        alarm->log_message(alarm->environment, fmi3Warning, "logStatusWarning", "a state is left");
    free(alarm->saved);
    free(alarm);
}

fmi3Status fmi3EnterInitializationMode(fmi3Instance instance, fmi3Boolean toleranceDefined, fmi3Float64 tolerance,
                                       fmi3Float64 startTime, fmi3Boolean stopTimeDefined, fmi3Float64 stopTime)
{
    struct alarm *alarm = instance;
    (void)toleranceDefined, (void)tolerance, (void)stopTimeDefined, (void)stopTime;
    alarm->state.now = startTime;
    return fmi3OK;
}

#define NOTHING_TO_DO(name) \
    fmi3Status fmi3##name(fmi3Instance instance) \
    { \
        (void)instance; \
        return fmi3OK; \
    }
NOTHING_TO_DO(ExitInitializationMode)
NOTHING_TO_DO(EnterEventMode)
NOTHING_TO_DO(EnterStepMode)
NOTHING_TO_DO(Terminate)

static bool is_later(double time, double other)
{
    return time > other + 1e-9;
}

/* Each step begins where the last one ended that wasn't undone. */
fmi3Status fmi3DoStep(fmi3Instance instance, fmi3Float64 currentCommunicationPoint, fmi3Float64 communicationStepSize,
                      fmi3Boolean noSetFMUStatePriorToCurrentPoint, fmi3Boolean *eventHandlingNeeded,
                      fmi3Boolean *terminateSimulation, fmi3Boolean *earlyReturn, fmi3Float64 *lastSuccessfulTime)
{
    struct alarm *alarm = instance;
    double end = currentCommunicationPoint + communicationStepSize, ring = alarm->state.at / 1000.0;
    bool rings = alarm->may_return_early && is_later(ring, currentCommunicationPoint) && is_later(end, ring);
    (void)noSetFMUStatePriorToCurrentPoint;
    if (is_later(alarm->state.now, currentCommunicationPoint) || is_later(currentCommunicationPoint, alarm->state.now))
        return fmi3Error;
    alarm->state.now = rings ? ring : end;
    alarm->state.count += rings ? 1 : 0;
    *eventHandlingNeeded = rings;
    *terminateSimulation = fmi3False;
    *earlyReturn = rings;
    *lastSuccessfulTime = alarm->state.now;
    return fmi3OK;
}

fmi3Status fmi3UpdateDiscreteStates(fmi3Instance instance, fmi3Boolean *discreteStatesNeedUpdate,
                                    fmi3Boolean *terminateSimulation, fmi3Boolean *nominalsOfContinuousStatesChanged,
                                    fmi3Boolean *valuesOfContinuousStatesChanged, fmi3Boolean *nextEventTimeDefined,
                                    fmi3Float64 *nextEventTime)
{
    (void)instance;
    *discreteStatesNeedUpdate = fmi3False;
    *terminateSimulation = fmi3False;
    *nominalsOfContinuousStatesChanged = fmi3False;
    *valuesOfContinuousStatesChanged = fmi3False;
    *nextEventTimeDefined = fmi3False;
    *nextEventTime = 0.0;
    return fmi3OK;
}

fmi3Status fmi3GetInt32(fmi3Instance instance, const fmi3ValueReference valueReferences[], size_t nValueReferences,
                        fmi3Int32 values[], size_t nValues)
{
    const struct alarm *alarm = instance;
    if (nValueReferences != 1 || nValues != 1 || valueReferences[0] != Y)
        return fmi3Error;
    values[0] = alarm->state.count;
    return fmi3OK;
}

fmi3Status fmi3SetInt32(fmi3Instance instance, const fmi3ValueReference valueReferences[], size_t nValueReferences,
                        const fmi3Int32 values[], size_t nValues)
{
    struct alarm *alarm = instance;
    if (nValueReferences != 1 || nValues != 1 || valueReferences[0] != AT)
        return fmi3Error;
    alarm->state.at = values[0];
    return fmi3OK;
}

/* A state that is handed in is written anew (2.2.6). */
fmi3Status fmi3GetFMUState(fmi3Instance instance, fmi3FMUState *FMUState)
{
    struct alarm *alarm = instance;
    if (*FMUState != alarm->saved)
        return fmi3Error;
    if (alarm->saved == NULL)
        alarm->saved = malloc(sizeof *alarm->saved);
    if (alarm->saved == NULL)
        return fmi3Error;
    *alarm->saved = alarm->state;
    *FMUState = alarm->saved;
    return fmi3OK;
}

fmi3Status fmi3SetFMUState(fmi3Instance instance, fmi3FMUState FMUState)
{
    struct alarm *alarm = instance;
    if (FMUState == NULL || FMUState != alarm->saved)
        return fmi3Error;
    alarm->state = *alarm->saved;
    return fmi3OK;
}

fmi3Status fmi3FreeFMUState(fmi3Instance instance, fmi3FMUState *FMUState)
{
    struct alarm *alarm = instance;
    if (*FMUState != alarm->saved)
        return fmi3Error;
    free(alarm->saved);
    *FMUState = alarm->saved = NULL;
    return fmi3OK;
}
