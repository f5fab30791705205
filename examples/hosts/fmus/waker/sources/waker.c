/*
 * An FMU for Co-Simulation that names the time of its next event: until the point `at`, in thousandths of a second, each
 * Update names it, and the first Update that isn't before it is counted in `y`.
 *
 *     cc -std=c99 -fPIC -shared -I ../../../../../hosts -o ../binaries/x86_64-linux/waker.so waker.c
 *
 * It has the functions of FMI 3.0 that hosts/fmi3_host.c calls for it. One for every importer exports the others too.
 */
#include "fmi3_functions.h"

#include <stdlib.h>
#include <string.h>

/* Value references, as in modelDescription.xml. */
enum { AT = 1, Y = 2 };

struct waker {
    double now;
    bool is_waiting; /* the event hasn't come */
    int32_t at, count;
};

fmi3Instance fmi3InstantiateCoSimulation(fmi3String instanceName, fmi3String instantiationToken,
                                         fmi3String resourcePath, fmi3Boolean visible, fmi3Boolean loggingOn,
                                         fmi3Boolean eventModeUsed, fmi3Boolean earlyReturnAllowed,
                                         const fmi3ValueReference requiredIntermediateVariables[],
                                         size_t nRequiredIntermediateVariables,
                                         fmi3InstanceEnvironment instanceEnvironment,
                                         fmi3LogMessageCallback logMessage,
                                         fmi3IntermediateUpdateCallback intermediateUpdate)
{
    (void)instanceName, (void)resourcePath, (void)visible, (void)loggingOn, (void)earlyReturnAllowed;
    (void)requiredIntermediateVariables, (void)nRequiredIntermediateVariables, (void)intermediateUpdate;
    if (strcmp(instantiationToken, "{waker}") != 0 || !eventModeUsed) {
        if (logMessage != NULL)
            logMessage(instanceEnvironment, fmi3Error, "logStatusError", "wrong token, or without event mode");
        return NULL;
    }
    struct waker *waker = malloc(sizeof *waker);
    if (waker != NULL)
        *waker = (struct waker){0.0, false, 7, 0};
    return waker;
}

static double event_of(const struct waker *waker)
{
    return waker->at / 1000.0;
}

static bool is_before(double time, double other)
{
    return time < other - 1e-9;
}

void fmi3FreeInstance(fmi3Instance instance)
{
    free(instance);
}

fmi3Status fmi3EnterInitializationMode(fmi3Instance instance, fmi3Boolean toleranceDefined, fmi3Float64 tolerance,
                                       fmi3Float64 startTime, fmi3Boolean stopTimeDefined, fmi3Float64 stopTime)
{
    struct waker *waker = instance;
    (void)toleranceDefined, (void)tolerance, (void)stopTimeDefined, (void)stopTime;
    waker->now = startTime;
    waker->is_waiting = !is_before(event_of(waker), startTime);
    return fmi3OK;
}

#define NOTHING_TO_DO(name) \
    fmi3Status fmi3##name(fmi3Instance instance) \
    { \
        (void)instance; \
        return fmi3OK; \
    }
NOTHING_TO_DO(ExitInitializationMode)
NOTHING_TO_DO(EnterEventMode)
NOTHING_TO_DO(EnterStepMode)
NOTHING_TO_DO(Terminate)

fmi3Status fmi3DoStep(fmi3Instance instance, fmi3Float64 currentCommunicationPoint, fmi3Float64 communicationStepSize,
                      fmi3Boolean noSetFMUStatePriorToCurrentPoint, fmi3Boolean *eventHandlingNeeded,
                      fmi3Boolean *terminateSimulation, fmi3Boolean *earlyReturn, fmi3Float64 *lastSuccessfulTime)
{
    struct waker *waker = instance;
    (void)noSetFMUStatePriorToCurrentPoint;
    waker->now = currentCommunicationPoint + communicationStepSize;
    *eventHandlingNeeded = *terminateSimulation = *earlyReturn = fmi3False;
    *lastSuccessfulTime = waker->now;
    return fmi3OK;
}

fmi3Status fmi3UpdateDiscreteStates(fmi3Instance instance, fmi3Boolean *discreteStatesNeedUpdate,
                                    fmi3Boolean *terminateSimulation, fmi3Boolean *nominalsOfContinuousStatesChanged,
                                    fmi3Boolean *valuesOfContinuousStatesChanged, fmi3Boolean *nextEventTimeDefined,
                                    fmi3Float64 *nextEventTime)
{
    struct waker *waker = instance;
    bool is_to_come = is_before(waker->now, event_of(waker));
    waker->count += waker->is_waiting && !is_to_come ? 1 : 0;
    waker->is_waiting = is_to_come;
    *discreteStatesNeedUpdate = *terminateSimulation = *nominalsOfContinuousStatesChanged = fmi3False;
    *valuesOfContinuousStatesChanged = fmi3False;
    *nextEventTimeDefined = is_to_come;
    *nextEventTime = event_of(waker);
    return fmi3OK;
}

fmi3Status fmi3GetInt32(fmi3Instance instance, const fmi3ValueReference valueReferences[], size_t nValueReferences,
                        fmi3Int32 values[], size_t nValues)
{
    const struct waker *waker = instance;
    if (nValueReferences != 1 || nValues != 1 || valueReferences[0] != Y)
        return fmi3Error;
    values[0] = waker->count;
    return fmi3OK;
}

fmi3Status fmi3SetInt32(fmi3Instance instance, const fmi3ValueReference valueReferences[], size_t nValueReferences,
                        const fmi3Int32 values[], size_t nValues)
{
    struct waker *waker = instance;
    if (nValueReferences != 1 || nValues != 1 || valueReferences[0] != AT)
        return fmi3Error;
    waker->at = values[0];
    return fmi3OK;
}
