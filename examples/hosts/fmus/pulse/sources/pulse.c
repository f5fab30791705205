/*
 * An FMU for Co-Simulation with event mode and a changing Clock: `c` ticks first `s` thousandths of a second after the
 * start, and after each tick when `d` and the number of ticks before have passed. `y` counts the ticks.
 *
 *     cc -std=c99 -fPIC -shared -I ../../../../../hosts -o ../binaries/x86_64-linux/pulse.so pulse.c
 *
 * It has the functions of FMI 3.0 that hosts/fmi3_host.c calls for it, and tells its Clock's times as decimals alone. One
 * for every importer exports the others too.
 */
#include "fmi3_functions.h"

#include <stdlib.h>
#include <string.h>

/* Value references, as in modelDescription.xml. */
enum { C = 1, D = 2, S = 3, Y = 4 };

struct pulse {
    bool is_active;
    int32_t interval, shift, count;
};

fmi3Instance fmi3InstantiateCoSimulation(fmi3String instanceName, fmi3String instantiationToken,
                                         fmi3String resourcePath, fmi3Boolean visible, fmi3Boolean loggingOn,
                                         fmi3Boolean eventModeUsed, fmi3Boolean earlyReturnAllowed,
                                         const fmi3ValueReference requiredIntermediateVariables[],
                                         size_t nRequiredIntermediateVariables,
                                         fmi3InstanceEnvironment instanceEnvironment,
                                         fmi3LogMessageCallback logMessage,
                                         fmi3IntermediateUpdateCallback intermediateUpdate)
{
    (void)instanceName, (void)resourcePath, (void)visible, (void)loggingOn, (void)earlyReturnAllowed;
    (void)requiredIntermediateVariables, (void)nRequiredIntermediateVariables, (void)intermediateUpdate;
    if (strcmp(instantiationToken, "{pulse}") != 0 || !eventModeUsed) {
        if (logMessage != NULL)
            logMessage(instanceEnvironment, fmi3Error, "logStatusError", "wrong token, or without event mode");
        return NULL;
    }
    struct pulse *pulse = malloc(sizeof *pulse);
    if (pulse != NULL)
        *pulse = (struct pulse){false, 3, 2, 0};
    return pulse;
}

void fmi3FreeInstance(fmi3Instance instance)
{
    free(instance);
}

fmi3Status fmi3EnterInitializationMode(fmi3Instance instance, fmi3Boolean toleranceDefined, fmi3Float64 tolerance,
                                       fmi3Float64 startTime, fmi3Boolean stopTimeDefined, fmi3Float64 stopTime)
{
    const struct pulse *pulse = instance;
    (void)toleranceDefined, (void)tolerance, (void)startTime, (void)stopTimeDefined, (void)stopTime;
    return pulse->interval > 0 && pulse->shift >= 0 ? fmi3OK : fmi3Error;
}

#define NOTHING_TO_DO(name) \
    fmi3Status fmi3##name(fmi3Instance instance) \
    { \
        (void)instance; \
        return fmi3OK; \
    }
NOTHING_TO_DO(ExitInitializationMode)
NOTHING_TO_DO(EnterEventMode)
NOTHING_TO_DO(EnterStepMode)
NOTHING_TO_DO(Terminate)

fmi3Status fmi3DoStep(fmi3Instance instance, fmi3Float64 currentCommunicationPoint, fmi3Float64 communicationStepSize,
                      fmi3Boolean noSetFMUStatePriorToCurrentPoint, fmi3Boolean *eventHandlingNeeded,
                      fmi3Boolean *terminateSimulation, fmi3Boolean *earlyReturn, fmi3Float64 *lastSuccessfulTime)
{
    (void)instance, (void)noSetFMUStatePriorToCurrentPoint;
    *eventHandlingNeeded = *terminateSimulation = *earlyReturn = fmi3False;
    *lastSuccessfulTime = currentCommunicationPoint + communicationStepSize;
    return fmi3OK;
}

/* A tick is counted, and the Clock is inactive after it. */
fmi3Status fmi3UpdateDiscreteStates(fmi3Instance instance, fmi3Boolean *discreteStatesNeedUpdate,
                                    fmi3Boolean *terminateSimulation, fmi3Boolean *nominalsOfContinuousStatesChanged,
                                    fmi3Boolean *valuesOfContinuousStatesChanged, fmi3Boolean *nextEventTimeDefined,
                                    fmi3Float64 *nextEventTime)
{
    struct pulse *pulse = instance;
    pulse->count += pulse->is_active ? 1 : 0;
    pulse->is_active = false;
    *discreteStatesNeedUpdate = *terminateSimulation = *nominalsOfContinuousStatesChanged = fmi3False;
    *valuesOfContinuousStatesChanged = *nextEventTimeDefined = fmi3False;
    *nextEventTime = 0.0;
    return fmi3OK;
}

fmi3Status fmi3GetInt32(fmi3Instance instance, const fmi3ValueReference valueReferences[], size_t nValueReferences,
                        fmi3Int32 values[], size_t nValues)
{
    const struct pulse *pulse = instance;
    if (nValueReferences != 1 || nValues != 1 || valueReferences[0] != Y)
        return fmi3Error;
    values[0] = pulse->count;
    return fmi3OK;
}

fmi3Status fmi3SetInt32(fmi3Instance instance, const fmi3ValueReference valueReferences[], size_t nValueReferences,
                        const fmi3Int32 values[], size_t nValues)
{
    struct pulse *pulse = instance;
    if (nValueReferences != 1 || nValues != 1)
        return fmi3Error;
    switch (valueReferences[0]) {
    case D: pulse->interval = values[0]; return fmi3OK;
    case S: pulse->shift = values[0]; return fmi3OK;
    default: return fmi3Error;
    }
}

fmi3Status fmi3SetClock(fmi3Instance instance, const fmi3ValueReference valueReferences[], size_t nValueReferences,
                        const fmi3Clock values[])
{
    struct pulse *pulse = instance;
    if (nValueReferences != 1 || valueReferences[0] != C)
        return fmi3Error;
    pulse->is_active = values[0];
    return fmi3OK;
}

/* It is asked where the Clock ticks, before the tick is counted (2.2.9). */
fmi3Status fmi3GetIntervalDecimal(fmi3Instance instance, const fmi3ValueReference valueReferences[],
                                  size_t nValueReferences, fmi3Float64 intervals[], fmi3IntervalQualifier qualifiers[])
{
    const struct pulse *pulse = instance;
    if (nValueReferences != 1 || valueReferences[0] != C || !pulse->is_active)
        return fmi3Error;
    intervals[0] = (pulse->interval + pulse->count) / 1000.0;
    qualifiers[0] = fmi3IntervalChanged;
    return fmi3OK;
}

fmi3Status fmi3GetShiftDecimal(fmi3Instance instance, const fmi3ValueReference valueReferences[],
                               size_t nValueReferences, fmi3Float64 shifts[])
{
    const struct pulse *pulse = instance;
    if (nValueReferences != 1 || valueReferences[0] != C)
        return fmi3Error;
    shifts[0] = pulse->shift / 1000.0;
    return fmi3OK;
}
