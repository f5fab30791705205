/*
 * What `ssprun bench SEED N` counts, by a plain program: it generates the same system from the same draws, runs the same machines
 * by the same calls, each by a function pointer and each call and each reply 24 bytes, and writes the same line. It keeps no
 * trace and tests no calling sequence.
 *
 *     cc -std=c99 -O2 -o plain_bench plain_bench.c
 *     plain_bench [--early-first] SEED N
 *
 * With --early-first a step in which one component alone might return early asks that one first, and the others to where it ended;
 * nothing is saved then.
 */
#include <inttypes.h>
#include <stdbool.h>
#include <stdint.h>
#include <stdio.h>
#include <stdlib.h>
#include <string.h>

enum { MOST_COMPONENTS = 256, START = 0, STEP = 10, STOP = 100, LIMIT = 100, NOBODY = -1 };

enum kind {
    INSTANTIATE = 1,
    ENTER_INITIALIZATION,
    EXIT_INITIALIZATION,
    ENTER_EVENT,
    ENTER_STEP,
    DO_STEP,
    UPDATE,
    GET,
    SET,
    SAVE = 14,
    RESTORE,
    FREE,
    TERMINATE,
    FREE_INSTANCE
};

enum { INT32 = 5 };
enum { EVENT_MODE = 1, EARLY_RETURN = 2 };                 /* bits of Instantiate */
enum { EVENT_NEEDED = 1, ASKS_TO_END = 2, ENDED_EARLY = 4 }; /* flags of a reply to DoStep */
enum { NEEDS_UPDATE = 1 };                                 /* flag of a reply to Update; 2 asks to end there too */

struct call {
    uint8_t kind, type;
    uint16_t zero;
    uint32_t reference;
    uint64_t a, b;
};

struct reply {
    uint8_t kind, status, flags, zero;
    uint32_t qualifier;
    uint64_t a, b;
};

typedef char call_is_24_bytes[sizeof(struct call) == 24 ? 1 : -1];
typedef char reply_is_24_bytes[sizeof(struct reply) == 24 ? 1 : -1];

/* ---- the machines */

struct state {
    int64_t now, held, count;
    int64_t under[4]; /* the values of the variables, by reference */
};

struct machine {
    struct state state, saved;
    bool has_event_mode, may_return_early;
};

typedef void (*machine_call)(struct machine *machine, const struct call *call, struct reply *reply);

/* What every machine does; its own part comes before. */
static void answer(struct machine *machine, const struct call *call, struct reply *reply, int64_t shown)
{
    switch (call->kind) {
    case INSTANTIATE:
        machine->has_event_mode = call->reference & EVENT_MODE;
        machine->may_return_early = call->reference & EARLY_RETURN;
        break;
    case ENTER_INITIALIZATION:
        machine->state.now = (int64_t)call->a;
        break;
    case DO_STEP:
        if (!(reply->flags & ENDED_EARLY))
            reply->a = call->a + call->b;
        machine->state.now = (int64_t)reply->a;
        break;
    case GET:
        reply->a = (uint64_t)(int64_t)(int32_t)(uint32_t)(uint64_t)shown;
        break;
    case SET:
        machine->state.under[call->reference] = (int64_t)call->a;
        break;
    case SAVE:
        machine->saved = machine->state;
        break;
    case RESTORE:
        machine->state = machine->saved;
        break;
    default:
        break;
    }
}

static void begin(const struct call *call, struct reply *reply)
{
    memset(reply, 0, sizeof *reply);
    reply->kind = call->kind;
}

static void counter(struct machine *machine, const struct call *call, struct reply *reply)
{
    struct state *state = &machine->state;
    begin(call, reply);
    if (call->kind == DO_STEP) {
        int64_t longest = state->under[3];
        state->count = (int64_t)((uint64_t)state->count + (uint64_t)state->under[1]);
        if (longest > 0 && call->b >= (uint64_t)longest)
            reply->flags = ASKS_TO_END;
    }
    answer(machine, call, reply, call->reference == 2 ? state->count : state->under[call->reference & 3]);
}

static void gain(struct machine *machine, const struct call *call, struct reply *reply)
{
    struct state *state = &machine->state;
    begin(call, reply);
    if (call->kind == EXIT_INITIALIZATION || call->kind == UPDATE || call->kind == DO_STEP)
        state->held = state->under[2];
    int64_t product = (int64_t)((uint64_t)state->under[1] * (uint64_t)state->under[2]);
    answer(machine, call, reply, call->reference == 3 ? product : state->under[call->reference & 3]);
}

static void alarm_at(struct machine *machine, const struct call *call, struct reply *reply)
{
    struct state *state = &machine->state;
    begin(call, reply);
    if (call->kind == DO_STEP && machine->may_return_early) {
        int64_t point = state->under[1];
        if ((int64_t)call->a < point && point < (int64_t)(call->a + call->b)) {
            reply->flags = ENDED_EARLY | (machine->has_event_mode ? EVENT_NEEDED : 0);
            reply->a = (uint64_t)point;
            state->count = (int64_t)((uint64_t)state->count + 1);
        }
    }
    answer(machine, call, reply, call->reference == 2 ? state->count : state->under[call->reference & 3]);
}

/* ---- the system */

struct component {
    machine_call call;
    struct machine machine;
    uint32_t output;     /* the reference of its output */
    int64_t parameter;   /* the value of the variable under 1 */
    int source;          /* the component that feeds its input under 2, or NOBODY */
    bool might_return_early;
    bool is_source;      /* feeds another */
    bool is_saved;       /* in each step, since another might return early */
    int64_t value;       /* of its output in this instant */
    uint64_t end;        /* where its last step ended */
    uint8_t flags;       /* of that step */
};

static struct component components[MOST_COMPONENTS];
static int size;
static uint64_t calls, rollbacks, instants;

static uint32_t drawing;

static uint32_t draw(void)
{
    drawing = (uint32_t)(((uint64_t)drawing * 1103515245 + 12345) % 0x80000000u);
    return drawing / 65536;
}

static void generate(uint32_t seed, int number)
{
    int early = 0;
    drawing = seed;
    size = number;
    for (int at = 0; at < size; at++) {
        struct component *component = &components[at];
        uint32_t kind = draw() % 3;
        int64_t parameter = draw() % 17 + 1;
        component->call = kind == 0 ? counter : kind == 1 ? gain : alarm_at;
        component->output = kind == 1 ? 3 : 2;
        component->parameter = kind == 2 ? 5 * parameter : parameter;
        component->might_return_early = kind == 2;
        component->source = NOBODY;
        if (kind == 1 && at > 0) {
            component->source = (int)(draw() % (uint32_t)at);
            components[component->source].is_source = true;
        }
        early += component->might_return_early;
    }
    for (int at = 0; at < size; at++)
        components[at].is_saved = early - components[at].might_return_early > 0;
}

/* ---- calls */

static struct reply ask(struct component *component, struct call call)
{
    struct reply reply;
    component->call(&component->machine, &call, &reply);
    calls++;
    if (reply.kind != call.kind || reply.status > 1)
        exit(6);
    return reply;
}

static void tell(struct component *component, enum kind kind)
{
    ask(component, (struct call){.kind = (uint8_t)kind});
}

static void tell_all(enum kind kind)
{
    for (int at = 0; at < size; at++)
        tell(&components[at], kind);
}

static void tell_saved(enum kind kind)
{
    for (int at = 0; at < size; at++)
        if (components[at].is_saved)
            tell(&components[at], kind);
}

static void get_output(struct component *component)
{
    struct call call = {.kind = GET, .type = INT32, .reference = component->output};
    component->value = (int64_t)ask(component, call).a;
}

static void set_value(struct component *component, uint32_t reference, int64_t value)
{
    ask(component, (struct call){.kind = SET, .type = INT32, .reference = reference, .a = (uint64_t)value});
}

static void set_input(struct component *component)
{
    if (component->source != NOBODY)
        set_value(component, 2, components[component->source].value);
}

/* ---- the run */

static void initialize(void)
{
    for (int at = 0; at < size; at++) {
        uint32_t early = components[at].might_return_early ? EARLY_RETURN : 0;
        uint64_t length = at < 10 ? 2 : at < 100 ? 3 : 4; /* of the name, b0 and so on */
        ask(&components[at], (struct call){.kind = INSTANTIATE, .reference = EVENT_MODE | early, .a = length});
    }
    for (int at = 0; at < size; at++)
        set_value(&components[at], 1, components[at].parameter);
    for (int at = 0; at < size; at++)
        ask(&components[at], (struct call){.kind = ENTER_INITIALIZATION, .a = START, .b = STOP});
    for (int at = 0; at < size; at++) {
        set_input(&components[at]);
        if (components[at].is_source)
            get_output(&components[at]);
    }
    tell_all(EXIT_INITIALIZATION);
}

/* The instants at a point. Whether the run goes on. */
static bool event(void)
{
    for (int number = 0; number < LIMIT; number++) {
        uint8_t flags = 0;
        for (int at = 0; at < size; at++) {
            set_input(&components[at]);
            get_output(&components[at]);
        }
        for (int at = 0; at < size; at++)
            flags |= ask(&components[at], (struct call){.kind = UPDATE}).flags;
        instants++;
        if (flags & ASKS_TO_END)
            return false;
        if (!(flags & NEEDS_UPDATE))
            return true;
    }
    return false;
}

static void step(struct component *component, uint64_t point, uint64_t bound)
{
    struct reply reply = ask(component, (struct call){.kind = DO_STEP, .a = point, .b = bound - point});
    component->end = reply.a;
    component->flags = reply.flags;
}

/* Puts those back to the point where the step begins that stand neither there nor at an end. */
static void put_back(uint64_t point, uint64_t end)
{
    for (int at = 0; at < size; at++)
        if (components[at].end != point && components[at].end != end) {
            tell(&components[at], RESTORE);
            components[at].end = point;
            rollbacks++;
        }
}

/* Asks those that stand at the point to step to a bound. The least end of all. */
static uint64_t step_on(uint64_t point, uint64_t bound)
{
    uint64_t least = bound;
    for (int at = 0; at < size; at++) {
        if (components[at].end == point)
            step(&components[at], point, bound);
        if (components[at].end < least)
            least = components[at].end;
    }
    return least;
}

/* The step that all take from a point, with all put back as often as they end apart: where it ends. */
static uint64_t agreed_step(uint64_t point, uint64_t bound)
{
    for (;;) {
        put_back(point, point);
        uint64_t end = step_on(point, bound);
        if (end == bound)
            return end;
        put_back(point, end);
        bound = step_on(point, end);
        if (bound == end)
            return end;
    }
}

/* The same where one component alone might return early: it comes first, and the others follow. */
static uint64_t step_behind(int first, uint64_t point, uint64_t bound)
{
    step(&components[first], point, bound);
    uint64_t end = components[first].end;
    step_on(point, end);
    return end;
}

static int alone_early(void)
{
    int found = NOBODY;
    for (int at = 0; at < size; at++)
        if (components[at].might_return_early) {
            if (found != NOBODY)
                return NOBODY;
            found = at;
        }
    return found;
}

static void run(bool early_first)
{
    int first = early_first ? alone_early() : NOBODY;
    if (first != NOBODY)
        for (int at = 0; at < size; at++)
            components[at].is_saved = false;
    uint64_t point = START;
    initialize();
    while (event() && point < STOP) {
        uint64_t bound = point - point % STEP + STEP;
        if (bound > STOP)
            bound = STOP;
        tell_all(ENTER_STEP);
        tell_saved(SAVE);
        for (int at = 0; at < size; at++)
            components[at].end = point;
        point = first == NOBODY ? agreed_step(point, bound) : step_behind(first, point, bound);
        tell_saved(FREE);
        uint8_t flags = 0;
        for (int at = 0; at < size; at++)
            flags |= components[at].flags;
        if (flags & ASKS_TO_END)
            break;
        tell_all(ENTER_EVENT);
    }
    for (int at = 0; at < size; at++) {
        tell(&components[at], TERMINATE);
        tell(&components[at], FREE_INSTANCE);
    }
}

static bool read_number(const char *text, uint64_t greatest, uint64_t *number)
{
    if (*text == '\0' || strlen(text) > 10 || strspn(text, "0123456789") != strlen(text))
        return false;
    *number = strtoull(text, NULL, 10);
    return *number <= greatest;
}

int main(int count, char **words)
{
    bool early_first = count == 4 && strcmp(words[1], "--early-first") == 0;
    uint64_t seed, number;
    if (count != (early_first ? 4 : 3) || !read_number(words[count - 2], 0x7fffffff, &seed)
        || !read_number(words[count - 1], MOST_COMPONENTS, &number) || number == 0)
        return 2;
    generate((uint32_t)seed, (int)number);
    run(early_first);
    printf("instants %" PRIu64 " calls %" PRIu64 " rollbacks %" PRIu64 "\n", instants, calls, rollbacks);
    return 0;
}
