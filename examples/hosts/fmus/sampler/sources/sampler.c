/*
 * An FMU for Co-Simulation with event mode: where its Clock `c` ticks, `y` shows `u`. The Clock is a fixed one, whose
 * interval is ic / ir seconds and whose shift is sc / ir.
 *
 *     cc -std=c99 -fPIC -shared -I ../../../../../hosts -o ../binaries/x86_64-linux/sampler.so sampler.c
 *
 * It has the functions of FMI 3.0 that hosts/fmi3_host.c calls for it. One for every importer exports the others too.
 */
#include "fmi3_functions.h"

#include <stdlib.h>
#include <string.h>

/* Value references, as in modelDescription.xml. */
enum { C = 1, U = 2, Y = 3, IC = 4, IR = 5, SC = 6 };

struct sampler {
    bool is_active;
    int32_t u;
    uint64_t interval, parts, shift;
};

fmi3Instance fmi3InstantiateCoSimulation(fmi3String instanceName, fmi3String instantiationToken,
                                         fmi3String resourcePath, fmi3Boolean visible, fmi3Boolean loggingOn,
                                         fmi3Boolean eventModeUsed, fmi3Boolean earlyReturnAllowed,
                                         const fmi3ValueReference requiredIntermediateVariables[],
                                         size_t nRequiredIntermediateVariables,
                                         fmi3InstanceEnvironment instanceEnvironment,
                                         fmi3LogMessageCallback logMessage,
                                         fmi3IntermediateUpdateCallback intermediateUpdate)
{
    (void)instanceName, (void)resourcePath, (void)visible, (void)loggingOn, (void)earlyReturnAllowed;
    (void)requiredIntermediateVariables, (void)nRequiredIntermediateVariables, (void)intermediateUpdate;
    if (strcmp(instantiationToken, "{s}") != 0 || !eventModeUsed) {
        if (logMessage != NULL)
            logMessage(instanceEnvironment, fmi3Error, "logStatusError", "wrong token, or without event mode");
        return NULL;
    }
    struct sampler *sampler = malloc(sizeof *sampler);
    if (sampler != NULL)
        *sampler = (struct sampler){false, 0, 1, 100, 0};
    return sampler;
}

void fmi3FreeInstance(fmi3Instance instance)
{
    free(instance);
}

fmi3Status fmi3EnterInitializationMode(fmi3Instance instance, fmi3Boolean toleranceDefined, fmi3Float64 tolerance,
                                       fmi3Float64 startTime, fmi3Boolean stopTimeDefined, fmi3Float64 stopTime)
{
    const struct sampler *sampler = instance;
    (void)toleranceDefined, (void)tolerance, (void)startTime, (void)stopTimeDefined, (void)stopTime;
    return sampler->parts != 0 ? fmi3OK : fmi3Error;
}

fmi3Status fmi3ExitInitializationMode(fmi3Instance instance)
{
    (void)instance;
    return fmi3OK;
}

fmi3Status fmi3EnterEventMode(fmi3Instance instance)
{
    (void)instance;
    return fmi3OK;
}

fmi3Status fmi3EnterStepMode(fmi3Instance instance)
{
    (void)instance;
    return fmi3OK;
}

fmi3Status fmi3Terminate(fmi3Instance instance)
{
    (void)instance;
    return fmi3OK;
}

fmi3Status fmi3DoStep(fmi3Instance instance, fmi3Float64 currentCommunicationPoint, fmi3Float64 communicationStepSize,
                      fmi3Boolean noSetFMUStatePriorToCurrentPoint, fmi3Boolean *eventHandlingNeeded,
                      fmi3Boolean *terminateSimulation, fmi3Boolean *earlyReturn, fmi3Float64 *lastSuccessfulTime)
{
    (void)instance, (void)noSetFMUStatePriorToCurrentPoint;
    *eventHandlingNeeded = fmi3False;
    *terminateSimulation = fmi3False;
    *earlyReturn = fmi3False;
    *lastSuccessfulTime = currentCommunicationPoint + communicationStepSize;
    return fmi3OK;
}

/* The Clock is inactive after it. */
fmi3Status fmi3UpdateDiscreteStates(fmi3Instance instance, fmi3Boolean *discreteStatesNeedUpdate,
                                    fmi3Boolean *terminateSimulation, fmi3Boolean *nominalsOfContinuousStatesChanged,
                                    fmi3Boolean *valuesOfContinuousStatesChanged, fmi3Boolean *nextEventTimeDefined,
                                    fmi3Float64 *nextEventTime)
{
    struct sampler *sampler = instance;
    sampler->is_active = false;
    *discreteStatesNeedUpdate = fmi3False;
    *terminateSimulation = fmi3False;
    *nominalsOfContinuousStatesChanged = fmi3False;
    *valuesOfContinuousStatesChanged = fmi3False;
    *nextEventTimeDefined = fmi3False;
    *nextEventTime = 0.0;
    return fmi3OK;
}

/* Clocked variables are read and set while their Clock is active. */
fmi3Status fmi3GetInt32(fmi3Instance instance, const fmi3ValueReference valueReferences[], size_t nValueReferences,
                        fmi3Int32 values[], size_t nValues)
{
    const struct sampler *sampler = instance;
    if (nValueReferences != 1 || nValues != 1 || valueReferences[0] != Y || !sampler->is_active)
        return fmi3Error;
    values[0] = sampler->u;
    return fmi3OK;
}

fmi3Status fmi3SetInt32(fmi3Instance instance, const fmi3ValueReference valueReferences[], size_t nValueReferences,
                        const fmi3Int32 values[], size_t nValues)
{
    struct sampler *sampler = instance;
    if (nValueReferences != 1 || nValues != 1 || valueReferences[0] != U || !sampler->is_active)
        return fmi3Error;
    sampler->u = values[0];
    return fmi3OK;
}

fmi3Status fmi3SetUInt64(fmi3Instance instance, const fmi3ValueReference valueReferences[], size_t nValueReferences,
                         const fmi3UInt64 values[], size_t nValues)
{
    struct sampler *sampler = instance;
    if (nValueReferences != 1 || nValues != 1)
        return fmi3Error;
    switch (valueReferences[0]) {
    case IC: sampler->interval = values[0]; return fmi3OK;
    case IR: sampler->parts = values[0]; return fmi3OK;
    case SC: sampler->shift = values[0]; return fmi3OK;
    default: return fmi3Error;
    }
}

fmi3Status fmi3GetClock(fmi3Instance instance, const fmi3ValueReference valueReferences[], size_t nValueReferences,
                        fmi3Clock values[])
{
    const struct sampler *sampler = instance;
    if (nValueReferences != 1 || valueReferences[0] != C)
        return fmi3Error;
    values[0] = sampler->is_active;
    return fmi3OK;
}

fmi3Status fmi3SetClock(fmi3Instance instance, const fmi3ValueReference valueReferences[], size_t nValueReferences,
                        const fmi3Clock values[])
{
    struct sampler *sampler = instance;
    if (nValueReferences != 1 || valueReferences[0] != C)
        return fmi3Error;
    sampler->is_active = values[0];
    return fmi3OK;
}

fmi3Status fmi3GetIntervalFraction(fmi3Instance instance, const fmi3ValueReference valueReferences[],
                                   size_t nValueReferences, fmi3UInt64 counters[], fmi3UInt64 resolutions[],
                                   fmi3IntervalQualifier qualifiers[])
{
    const struct sampler *sampler = instance;
    if (nValueReferences != 1 || valueReferences[0] != C)
        return fmi3Error;
    counters[0] = sampler->interval;
    resolutions[0] = sampler->parts;
    qualifiers[0] = fmi3IntervalChanged;
    return fmi3OK;
}

fmi3Status fmi3GetShiftFraction(fmi3Instance instance, const fmi3ValueReference valueReferences[],
                                size_t nValueReferences, fmi3UInt64 counters[], fmi3UInt64 resolutions[])
{
    const struct sampler *sampler = instance;
    if (nValueReferences != 1 || valueReferences[0] != C)
        return fmi3Error;
    counters[0] = sampler->shift;
    resolutions[0] = sampler->parts;
    return fmi3OK;
}
