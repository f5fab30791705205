/*
 * The part of FMI 3.0's C interface that fmi3_host.c calls: types, statuses and functions, by their standard names. The
 * standard's own headers (fmi3PlatformTypes.h, fmi3FunctionTypes.h, fmi3Functions.h) have these and the rest. Section
 * numbers are those of FMI 3.0.
 */
#ifndef FMI3_FUNCTIONS_H
#define FMI3_FUNCTIONS_H

#include <stdbool.h>
#include <stddef.h>
#include <stdint.h>

/* Types (2.2.2) */

typedef void *fmi3Instance;
typedef void *fmi3InstanceEnvironment;
typedef void *fmi3FMUState;
typedef uint32_t fmi3ValueReference;
typedef float fmi3Float32;
typedef double fmi3Float64;
typedef int8_t fmi3Int8;
typedef uint8_t fmi3UInt8;
typedef int16_t fmi3Int16;
typedef uint16_t fmi3UInt16;
typedef int32_t fmi3Int32;
typedef uint32_t fmi3UInt32;
typedef int64_t fmi3Int64;
typedef uint64_t fmi3UInt64;
typedef bool fmi3Boolean;
typedef uint8_t fmi3Byte;
typedef char fmi3Char;
typedef const fmi3Char *fmi3String;
typedef bool fmi3Clock;

#define fmi3True true
#define fmi3False false
#define fmi3ClockActive true
#define fmi3ClockInactive false

/* Status (2.2.3) */

typedef enum { fmi3OK, fmi3Warning, fmi3Discard, fmi3Error, fmi3Fatal } fmi3Status;

/* A function fmi3NAME that a library exports, with its type fmi3NAMETYPE. */
#define FMI3_FUNCTION(answer, name, ...) typedef answer fmi3##name##TYPE(__VA_ARGS__); fmi3##name##TYPE fmi3##name;

/* Instances (2.3) */

typedef void (*fmi3LogMessageCallback)(fmi3InstanceEnvironment instanceEnvironment, fmi3Status status,
                                       fmi3String category, fmi3String message);
typedef void (*fmi3IntermediateUpdateCallback)(
    fmi3InstanceEnvironment instanceEnvironment, fmi3Float64 intermediateUpdateTime,
    fmi3Boolean intermediateVariableSetRequested, fmi3Boolean intermediateVariableGetAllowed,
    fmi3Boolean intermediateStepFinished, fmi3Boolean canReturnEarly, fmi3Boolean *earlyReturnRequested,
    fmi3Float64 *earlyReturnTime);

FMI3_FUNCTION(fmi3Instance, InstantiateCoSimulation, fmi3String instanceName, fmi3String instantiationToken,
              fmi3String resourcePath, fmi3Boolean visible, fmi3Boolean loggingOn, fmi3Boolean eventModeUsed,
              fmi3Boolean earlyReturnAllowed, const fmi3ValueReference requiredIntermediateVariables[],
              size_t nRequiredIntermediateVariables, fmi3InstanceEnvironment instanceEnvironment,
              fmi3LogMessageCallback logMessage, fmi3IntermediateUpdateCallback intermediateUpdate)
FMI3_FUNCTION(void, FreeInstance, fmi3Instance instance)

/* From one state to the next (2.3 and 4.2.1) */

FMI3_FUNCTION(fmi3Status, EnterInitializationMode, fmi3Instance instance, fmi3Boolean toleranceDefined,
              fmi3Float64 tolerance, fmi3Float64 startTime, fmi3Boolean stopTimeDefined, fmi3Float64 stopTime)
FMI3_FUNCTION(fmi3Status, ExitInitializationMode, fmi3Instance instance)
FMI3_FUNCTION(fmi3Status, EnterEventMode, fmi3Instance instance)
FMI3_FUNCTION(fmi3Status, EnterStepMode, fmi3Instance instance)
FMI3_FUNCTION(fmi3Status, Terminate, fmi3Instance instance)

/* Steps (4.2.1.2) and discrete states (2.3) */

FMI3_FUNCTION(fmi3Status, DoStep, fmi3Instance instance, fmi3Float64 currentCommunicationPoint,
              fmi3Float64 communicationStepSize, fmi3Boolean noSetFMUStatePriorToCurrentPoint,
              fmi3Boolean *eventHandlingNeeded, fmi3Boolean *terminateSimulation, fmi3Boolean *earlyReturn,
              fmi3Float64 *lastSuccessfulTime)
FMI3_FUNCTION(fmi3Status, UpdateDiscreteStates, fmi3Instance instance, fmi3Boolean *discreteStatesNeedUpdate,
              fmi3Boolean *terminateSimulation, fmi3Boolean *nominalsOfContinuousStatesChanged,
              fmi3Boolean *valuesOfContinuousStatesChanged, fmi3Boolean *nextEventTimeDefined,
              fmi3Float64 *nextEventTime)

/* Values of variables (2.2). An Enumeration is read and set as an Int64 */

#define FMI3_GET_AND_SET(type) \
    FMI3_FUNCTION(fmi3Status, Get##type, fmi3Instance instance, const fmi3ValueReference valueReferences[], \
                  size_t nValueReferences, fmi3##type values[], size_t nValues) \
    FMI3_FUNCTION(fmi3Status, Set##type, fmi3Instance instance, const fmi3ValueReference valueReferences[], \
                  size_t nValueReferences, const fmi3##type values[], size_t nValues)
FMI3_GET_AND_SET(Float32)
FMI3_GET_AND_SET(Float64)
FMI3_GET_AND_SET(Int8)
FMI3_GET_AND_SET(UInt8)
FMI3_GET_AND_SET(Int16)
FMI3_GET_AND_SET(UInt16)
FMI3_GET_AND_SET(Int32)
FMI3_GET_AND_SET(UInt32)
FMI3_GET_AND_SET(Int64)
FMI3_GET_AND_SET(UInt64)
FMI3_GET_AND_SET(Boolean)

/* The complete state of an FMU (2.2.6) */

FMI3_FUNCTION(fmi3Status, GetFMUState, fmi3Instance instance, fmi3FMUState *FMUState)
FMI3_FUNCTION(fmi3Status, SetFMUState, fmi3Instance instance, fmi3FMUState FMUState)
FMI3_FUNCTION(fmi3Status, FreeFMUState, fmi3Instance instance, fmi3FMUState *FMUState)
FMI3_FUNCTION(fmi3Status, SerializedFMUStateSize, fmi3Instance instance, fmi3FMUState FMUState, size_t *size)
FMI3_FUNCTION(fmi3Status, SerializeFMUState, fmi3Instance instance, fmi3FMUState FMUState,
              fmi3Byte serializedState[], size_t size)
FMI3_FUNCTION(fmi3Status, DeserializeFMUState, fmi3Instance instance, const fmi3Byte serializedState[], size_t size,
              fmi3FMUState *FMUState)

/* Clocks (2.2.8 and 2.2.9) */

typedef enum { fmi3IntervalNotYetKnown, fmi3IntervalUnchanged, fmi3IntervalChanged } fmi3IntervalQualifier;

FMI3_FUNCTION(fmi3Status, GetClock, fmi3Instance instance, const fmi3ValueReference valueReferences[],
              size_t nValueReferences, fmi3Clock values[])
FMI3_FUNCTION(fmi3Status, SetClock, fmi3Instance instance, const fmi3ValueReference valueReferences[],
              size_t nValueReferences, const fmi3Clock values[])
FMI3_FUNCTION(fmi3Status, GetIntervalDecimal, fmi3Instance instance, const fmi3ValueReference valueReferences[],
              size_t nValueReferences, fmi3Float64 intervals[], fmi3IntervalQualifier qualifiers[])
FMI3_FUNCTION(fmi3Status, GetIntervalFraction, fmi3Instance instance, const fmi3ValueReference valueReferences[],
              size_t nValueReferences, fmi3UInt64 counters[], fmi3UInt64 resolutions[],
              fmi3IntervalQualifier qualifiers[])
FMI3_FUNCTION(fmi3Status, GetShiftDecimal, fmi3Instance instance, const fmi3ValueReference valueReferences[],
              size_t nValueReferences, fmi3Float64 shifts[])
FMI3_FUNCTION(fmi3Status, GetShiftFraction, fmi3Instance instance, const fmi3ValueReference valueReferences[],
              size_t nValueReferences, fmi3UInt64 counters[], fmi3UInt64 resolutions[])

#endif
