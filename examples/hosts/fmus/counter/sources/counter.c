/*
 * An FMU for Co-Simulation: each step adds `inc` to a count, and `y` shows it.
 *
 *     cc -std=c99 -fPIC -shared -I ../../../../../hosts -o ../binaries/x86_64-linux/counter.so counter.c
 *
 * It has the functions of FMI 3.0 that hosts/fmi3_host.c calls for it. One for every importer exports the others too.
 */
#include "fmi3_functions.h"

#include <stdlib.h>
#include <string.h>

/* Value references, as in modelDescription.xml. */
enum { INC = 1, Y = 2 };

static const char token[] = "{c}";

struct counter {
    int32_t inc;
    uint32_t count; /* without a sign, so that the sum wraps around */
};

fmi3Instance fmi3InstantiateCoSimulation(fmi3String instanceName, fmi3String instantiationToken,
                                         fmi3String resourcePath, fmi3Boolean visible, fmi3Boolean loggingOn,
                                         fmi3Boolean eventModeUsed, fmi3Boolean earlyReturnAllowed,
                                         const fmi3ValueReference requiredIntermediateVariables[],
                                         size_t nRequiredIntermediateVariables,
                                         fmi3InstanceEnvironment instanceEnvironment,
                                         fmi3LogMessageCallback logMessage,
                                         fmi3IntermediateUpdateCallback intermediateUpdate)
{
    (void)resourcePath, (void)visible, (void)loggingOn, (void)eventModeUsed, (void)earlyReturnAllowed;
    (void)requiredIntermediateVariables, (void)nRequiredIntermediateVariables, (void)intermediateUpdate;
    if (strcmp(instantiationToken, token) != 0) {
        if (logMessage != NULL)
            logMessage(instanceEnvironment, fmi3Error, "logStatusError", "the token isn't that of this FMU");
        return NULL;
    }
    (void)instanceName;
    struct counter *counter = malloc(sizeof *counter);
    if (counter != NULL)
        *counter = (struct counter){2, 0};
    return counter;
}

void fmi3FreeInstance(fmi3Instance instance)
{
    free(instance);
}

fmi3Status fmi3EnterInitializationMode(fmi3Instance instance, fmi3Boolean toleranceDefined, fmi3Float64 tolerance,
                                       fmi3Float64 startTime, fmi3Boolean stopTimeDefined, fmi3Float64 stopTime)
{
    (void)instance, (void)toleranceDefined, (void)tolerance, (void)startTime, (void)stopTimeDefined, (void)stopTime;
    return fmi3OK;
}

fmi3Status fmi3ExitInitializationMode(fmi3Instance instance)
{
    (void)instance;
    return fmi3OK;
}

fmi3Status fmi3Terminate(fmi3Instance instance)
{
    (void)instance;
    return fmi3OK;
}

fmi3Status fmi3DoStep(fmi3Instance instance, fmi3Float64 currentCommunicationPoint, fmi3Float64 communicationStepSize,
                      fmi3Boolean noSetFMUStatePriorToCurrentPoint, fmi3Boolean *eventHandlingNeeded,
                      fmi3Boolean *terminateSimulation, fmi3Boolean *earlyReturn, fmi3Float64 *lastSuccessfulTime)
{
    struct counter *counter = instance;
    (void)noSetFMUStatePriorToCurrentPoint;
    counter->count += (uint32_t)counter->inc;
    *eventHandlingNeeded = fmi3False;
    *terminateSimulation = fmi3False;
    *earlyReturn = fmi3False;
    *lastSuccessfulTime = currentCommunicationPoint + communicationStepSize;
    return fmi3OK;
}

fmi3Status fmi3GetInt32(fmi3Instance instance, const fmi3ValueReference valueReferences[], size_t nValueReferences,
                        fmi3Int32 values[], size_t nValues)
{
    const struct counter *counter = instance;
    if (nValues != nValueReferences)
        return fmi3Error;
    for (size_t i = 0; i < nValueReferences; i++) {
        switch (valueReferences[i]) {
        case INC: values[i] = counter->inc; break;
        case Y: values[i] = (int32_t)counter->count; break;
        default: return fmi3Error;
        }
    }
    return fmi3OK;
}

fmi3Status fmi3SetInt32(fmi3Instance instance, const fmi3ValueReference valueReferences[], size_t nValueReferences,
                        const fmi3Int32 values[], size_t nValues)
{
    struct counter *counter = instance;
    if (nValues != nValueReferences)
        return fmi3Error;
    for (size_t i = 0; i < nValueReferences; i++) {
        if (valueReferences[i] != INC)
            return fmi3Error;
        counter->inc = values[i];
    }
    return fmi3OK;
}

fmi3Status fmi3GetFMUState(fmi3Instance instance, fmi3FMUState *FMUState)
{
    if (*FMUState == NULL)
        *FMUState = malloc(sizeof(struct counter));
    if (*FMUState == NULL)
        return fmi3Error;
    memcpy(*FMUState, instance, sizeof(struct counter));
    return fmi3OK;
}

fmi3Status fmi3SetFMUState(fmi3Instance instance, fmi3FMUState FMUState)
{
    memcpy(instance, FMUState, sizeof(struct counter));
    return fmi3OK;
}

fmi3Status fmi3FreeFMUState(fmi3Instance instance, fmi3FMUState *FMUState)
{
    (void)instance;
    free(*FMUState);
    *FMUState = NULL;
    return fmi3OK;
}

/* A state as bytes is the struct's, which are read back by the same build of this library. */
fmi3Status fmi3SerializedFMUStateSize(fmi3Instance instance, fmi3FMUState FMUState, size_t *size)
{
    (void)instance, (void)FMUState;
    *size = sizeof(struct counter);
    return fmi3OK;
}

fmi3Status fmi3SerializeFMUState(fmi3Instance instance, fmi3FMUState FMUState, fmi3Byte serializedState[], size_t size)
{
    (void)instance;
    if (size < sizeof(struct counter))
        return fmi3Error;
    memcpy(serializedState, FMUState, sizeof(struct counter));
    return fmi3OK;
}

fmi3Status fmi3DeserializeFMUState(fmi3Instance instance, const fmi3Byte serializedState[], size_t size,
                                   fmi3FMUState *FMUState)
{
    (void)instance;
    if (size != sizeof(struct counter))
        return fmi3Error;
    if (*FMUState == NULL)
        *FMUState = malloc(sizeof(struct counter));
    if (*FMUState == NULL)
        return fmi3Error;
    memcpy(*FMUState, serializedState, sizeof(struct counter));
    return fmi3OK;
}
