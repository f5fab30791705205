/*
 * What `ssprun run examples/SYSTEM --resolution 1000 --step 1 --stop N` writes, for the systems events, timer and relay, by a
 * plain program: it makes the same calls in the same order to the same machines, each by a function pointer and each call and
 * each reply 24 bytes, and writes the same bytes by one write for the header, one for each instant and one for the end line. It
 * tests no calling sequence.
 *
 *     cc -std=c99 -O2 -o plain_instants plain_instants.c
 *     plain_instants SYSTEM N
 */
#define _POSIX_C_SOURCE 200809L

#include <stdbool.h>

#include "plain_trace.h"

enum kind {
    INSTANTIATE = 1,
    ENTER_INITIALIZATION,
    EXIT_INITIALIZATION,
    ENTER_EVENT,
    ENTER_STEP,
    DO_STEP,
    UPDATE,
    GET,
    SET,
    GET_CLOCK,
    SET_CLOCK,
    GET_INTERVAL,
    TERMINATE = 17,
    FREE_INSTANCE
};

enum { INT32 = 5, EVENT_MODE = 1, NEEDS_UPDATE = 1, UNCHANGED = 1, CHANGED = 2, RESOLUTION = 1000 };

struct call {
    uint8_t kind, type;
    uint16_t zero;
    uint32_t reference;
    uint64_t a, b;
};

struct reply {
    uint8_t kind, status, flags, zero;
    uint32_t qualifier;
    uint64_t a, b;
};

/* ---- the machines */

struct machine {
    void (*answer)(struct machine *machine, const struct call *call, struct reply *reply);
    int64_t now, held, count;
    int64_t under[4]; /* the values of the variables, by reference */
    bool ticks, has_fired;
};

static void show(struct reply *reply, int64_t number)
{
    reply->a = (uint64_t)(int64_t)(int32_t)(uint32_t)(uint64_t)number;
}

/* What every machine does where its own part doesn't. */
static void answer_as_all(struct machine *machine, const struct call *call, struct reply *reply)
{
    switch (call->kind) {
    case ENTER_INITIALIZATION:
        machine->now = (int64_t)call->a;
        break;
    case DO_STEP:
        reply->a = call->a + call->b;
        machine->now = (int64_t)reply->a;
        break;
    case GET:
        show(reply, machine->under[call->reference & 3]);
        break;
    case SET:
        machine->under[call->reference & 3] = (int64_t)call->a;
        break;
    case SET_CLOCK:
        machine->ticks = true;
        break;
    case UPDATE:
        machine->ticks = false;
        break;
    default:
        break;
    }
}

static void counter(struct machine *machine, const struct call *call, struct reply *reply)
{
    if (call->kind == GET && call->reference == 2) {
        show(reply, machine->count);
        return;
    }
    if (call->kind == DO_STEP)
        machine->count = (int64_t)((uint64_t)machine->count + (uint64_t)machine->under[1]);
    answer_as_all(machine, call, reply);
}

static void gain(struct machine *machine, const struct call *call, struct reply *reply)
{
    if (call->kind == GET && call->reference == 3)
        show(reply, (int64_t)((uint64_t)machine->under[1] * (uint64_t)machine->under[2]));
    else
        answer_as_all(machine, call, reply);
}

static void settle(struct machine *machine, const struct call *call, struct reply *reply)
{
    if (call->kind == GET && call->reference == 2) {
        show(reply, machine->count);
        return;
    }
    if (call->kind == ENTER_EVENT)
        machine->count = 0;
    if (call->kind == UPDATE) {
        if (machine->count < machine->under[1])
            reply->flags = NEEDS_UPDATE;
        machine->count++;
    }
    answer_as_all(machine, call, reply);
}

static void timer(struct machine *machine, const struct call *call, struct reply *reply)
{
    bool is_due = machine->now == machine->under[1];
    if (call->kind == GET && call->reference == 3) {
        show(reply, machine->count);
        return;
    }
    if (call->kind == GET_INTERVAL) {
        reply->qualifier = machine->has_fired ? UNCHANGED : is_due ? CHANGED : 0;
        reply->b = !machine->has_fired && is_due ? RESOLUTION : 0;
    }
    if (call->kind == UPDATE) {
        machine->count += machine->ticks;
        machine->has_fired |= is_due;
    }
    answer_as_all(machine, call, reply);
}

static void relay(struct machine *machine, const struct call *call, struct reply *reply)
{
    if (call->kind == GET && call->reference == 3) {
        show(reply, machine->under[1]);
        return;
    }
    if (call->kind == GET_CLOCK)
        reply->a = machine->under[1] != machine->held;
    if (call->kind == UPDATE)
        machine->held = machine->under[1];
    answer_as_all(machine, call, reply);
}

static void sampler(struct machine *machine, const struct call *call, struct reply *reply)
{
    if (call->kind == GET && call->reference == 3) {
        show(reply, machine->ticks ? machine->under[2] : machine->held);
        return;
    }
    if (call->kind == UPDATE && machine->ticks)
        machine->held = machine->under[2];
    answer_as_all(machine, call, reply);
}

/* ---- calls */

static struct machine machines[3];
static int size;

static struct reply ask(int at, struct call call)
{
    struct reply reply = {.kind = call.kind};
    machines[at].answer(&machines[at], &call, &reply);
    if (reply.kind != call.kind || reply.status > 1)
        exit(6);
    return reply;
}

static int64_t get(int at, uint32_t reference)
{
    return (int64_t)ask(at, (struct call){.kind = GET, .type = INT32, .reference = reference}).a;
}

static void set(int at, uint32_t reference, int64_t value)
{
    ask(at, (struct call){.kind = SET, .type = INT32, .reference = reference, .a = (uint64_t)value});
}

static void tell_all(enum kind kind)
{
    for (int at = 0; at < size; at++)
        ask(at, (struct call){.kind = (uint8_t)kind});
}

/* ---- the systems: their values in an instant. Each adds its lines; whether another instant has to follow, but for updates. */

static char *put_value(char *at, int port, int64_t value)
{
    *at++ = (char)('0' + port);
    *at++ = ' ';
    at = put_number(at, value);
    *at++ = '\n';
    return at;
}

/* A counter feeds the input under a reference of the machine behind it. */
static char *feed(char *at, uint32_t reference)
{
    int64_t value = get(0, 2);
    set(1, reference, value);
    return put_value(put_value(at, 0, value), 1, value);
}

static bool settle_beside_gain(char **at)
{
    *at = feed(*at, 2);
    *at = put_value(*at, 2, get(1, 3));
    *at = put_value(*at, 3, get(2, 2));
    return false;
}

static bool count_down(char **at)
{
    static bool ticks;
    if (ticks)
        ask(0, (struct call){.kind = SET_CLOCK, .reference = 2});
    *at = put_value(*at, 0, ticks);
    *at = put_value(*at, 1, get(0, 3));
    struct reply interval = ask(0, (struct call){.kind = GET_INTERVAL, .reference = 2});
    ticks = interval.qualifier == CHANGED && interval.a == 0;
    return ticks;
}

static bool sample(char **at)
{
    *at = feed(*at, 1);
    bool ticks = ask(1, (struct call){.kind = GET_CLOCK, .reference = 2}).a;
    *at = put_value(*at, 2, ticks);
    int64_t value = ticks ? get(1, 3) : 0;
    if (ticks) {
        ask(2, (struct call){.kind = SET_CLOCK, .reference = 1});
        *at = put_value(*at, 3, value);
    }
    *at = put_value(*at, 4, ticks);
    if (ticks) {
        set(2, 2, value);
        *at = put_value(*at, 5, value);
        *at = put_value(*at, 6, get(2, 3));
    }
    return false;
}

static const struct system {
    const char *name, *ports;
    struct machine machines[3];
    int size;
    uint32_t input; /* of the second machine, which the first feeds */
    bool (*instant)(char **at);
} systems[] = {
    {"events", "port 0 Int32 c y\nport 1 Int32 g u\nport 2 Int32 g y\nport 3 Int32 s y\n",
     {{.answer = counter, .under = {0, 2}}, {.answer = gain, .under = {0, 3}}, {.answer = settle, .under = {0, 1}}}, 3, 2,
     settle_beside_gain},
    {"timer", "port 0 Clock t c\nport 1 Int32 t y\n", {{.answer = timer, .under = {0, 20}}}, 1, 0, count_down},
    {"relay",
     "port 0 Int32 c y\nport 1 Int32 r u\nport 2 Clock r o\nport 3 Int32 r y\nport 4 Clock s c\nport 5 Int32 s u\n"
     "port 6 Int32 s y\n",
     {{.answer = counter, .under = {0, 2}}, {.answer = relay}, {.answer = sampler}}, 3, 1, sample},
};

/* ---- the run */

static void initialize(uint32_t input, int64_t stop)
{
    for (int at = 0; at < size; at++)
        ask(at, (struct call){.kind = INSTANTIATE, .reference = EVENT_MODE, .a = 1});
    for (int at = 0; at < size; at++)
        ask(at, (struct call){.kind = ENTER_INITIALIZATION, .b = (uint64_t)stop});
    if (input != 0)
        set(1, input, get(0, 2));
    tell_all(EXIT_INITIALIZATION);
}

static void take_instants(const struct system *system, int64_t point)
{
    char buffer[256];
    bool another = true;
    for (int64_t number = 0; another; number++) {
        char *at = put_number(put_text(buffer, "at "), point);
        *at++ = ' ';
        at = put_number(at, number);
        *at++ = '\n';
        another = system->instant(&at);
        for (int one = 0; one < size; one++)
            another |= (ask(one, (struct call){.kind = UPDATE}).flags & NEEDS_UPDATE) != 0;
        put(buffer, at);
    }
}

static void run(const struct system *system, int64_t stop)
{
    memcpy(machines, system->machines, sizeof machines);
    size = system->size;
    initialize(system->input, stop);
    take_instants(system, 0);
    for (int64_t point = 0; point < stop; point++) {
        tell_all(ENTER_STEP);
        for (int at = 0; at < size; at++)
            if (ask(at, (struct call){.kind = DO_STEP, .a = (uint64_t)point, .b = 1}).a != (uint64_t)point + 1)
                exit(6);
        tell_all(ENTER_EVENT);
        take_instants(system, point + 1);
    }
    for (int at = 0; at < size; at++) {
        ask(at, (struct call){.kind = TERMINATE});
        ask(at, (struct call){.kind = FREE_INSTANCE});
    }
}

int main(int count, char **words)
{
    char buffer[256];
    const struct system *system = NULL;
    int64_t stop = count == 3 ? strtoll(words[2], NULL, 10) : -1;
    for (size_t at = 0; count == 3 && at < sizeof systems / sizeof systems[0]; at++)
        if (strcmp(words[1], systems[at].name) == 0)
            system = &systems[at];
    if (system == NULL || stop < 0)
        return 2;
    char *at = put_number(put_text(buffer, "trace 1 1000 0 "), stop);
    *at++ = '\n';
    put(buffer, put_text(at, system->ports));
    run(system, stop);
    at = put_number(put_text(buffer, "end stop "), stop);
    *at++ = '\n';
    put(buffer, at);
    return 0;
}
