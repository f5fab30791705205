/*
 * The counter without saved states, which crashes in its second step: so an FMU ends its host, and the run is told it.
 *
 *     cc -std=c99 -fPIC -shared -I ../../../../../hosts \
 *         -o ../binaries/x86_64-linux/crashing_counter.so crashing_counter.c
 */
#include "fmi3_functions.h"

#include <stdlib.h>

/* Value references, as in modelDescription.xml. */
enum { INC = 1, Y = 2 };

struct counter {
    int32_t inc;
    uint32_t count;
    int steps;
};

fmi3Instance fmi3InstantiateCoSimulation(fmi3String instanceName, fmi3String instantiationToken,
                                         fmi3String resourcePath, fmi3Boolean visible, fmi3Boolean loggingOn,
                                         fmi3Boolean eventModeUsed, fmi3Boolean earlyReturnAllowed,
                                         const fmi3ValueReference requiredIntermediateVariables[],
                                         size_t nRequiredIntermediateVariables,
                                         fmi3InstanceEnvironment instanceEnvironment,
                                         fmi3LogMessageCallback logMessage,
                                         fmi3IntermediateUpdateCallback intermediateUpdate)
{
    (void)instanceName, (void)instantiationToken, (void)resourcePath, (void)visible, (void)loggingOn;
    (void)eventModeUsed, (void)earlyReturnAllowed, (void)requiredIntermediateVariables;
    (void)nRequiredIntermediateVariables, (void)instanceEnvironment, (void)logMessage, (void)intermediateUpdate;
    struct counter *counter = malloc(sizeof *counter);
    if (counter != NULL)
        *counter = (struct counter){2, 0, 0};
    return counter;
}

void fmi3FreeInstance(fmi3Instance instance)
{
    free(instance);
}

fmi3Status fmi3EnterInitializationMode(fmi3Instance instance, fmi3Boolean toleranceDefined, fmi3Float64 tolerance,
                                       fmi3Float64 startTime, fmi3Boolean stopTimeDefined, fmi3Float64 stopTime)
{
    (void)instance, (void)toleranceDefined, (void)tolerance, (void)startTime, (void)stopTimeDefined, (void)stopTime;
    return fmi3OK;
}

fmi3Status fmi3ExitInitializationMode(fmi3Instance instance)
{
    (void)instance;
    return fmi3OK;
}

fmi3Status fmi3Terminate(fmi3Instance instance)
{
    (void)instance;
    return fmi3OK;
}

fmi3Status fmi3DoStep(fmi3Instance instance, fmi3Float64 currentCommunicationPoint, fmi3Float64 communicationStepSize,
                      fmi3Boolean noSetFMUStatePriorToCurrentPoint, fmi3Boolean *eventHandlingNeeded,
                      fmi3Boolean *terminateSimulation, fmi3Boolean *earlyReturn, fmi3Float64 *lastSuccessfulTime)
{
    struct counter *counter = instance;
    (void)noSetFMUStatePriorToCurrentPoint;
    counter->steps++;
    if (counter->steps == 2)
        abort();
    counter->count += (uint32_t)counter->inc;
    *eventHandlingNeeded = fmi3False;
    *terminateSimulation = fmi3False;
    *earlyReturn = fmi3False;
    *lastSuccessfulTime = currentCommunicationPoint + communicationStepSize;
    return fmi3OK;
}

fmi3Status fmi3GetInt32(fmi3Instance instance, const fmi3ValueReference valueReferences[], size_t nValueReferences,
                        fmi3Int32 values[], size_t nValues)
{
    const struct counter *counter = instance;
    if (nValueReferences != 1 || nValues != 1 || valueReferences[0] != Y)
        return fmi3Error;
    values[0] = (int32_t)counter->count;
    return fmi3OK;
}

fmi3Status fmi3SetInt32(fmi3Instance instance, const fmi3ValueReference valueReferences[], size_t nValueReferences,
                        const fmi3Int32 values[], size_t nValues)
{
    struct counter *counter = instance;
    if (nValueReferences != 1 || nValues != 1 || valueReferences[0] != INC)
        return fmi3Error;
    counter->inc = values[0];
    return fmi3OK;
}
