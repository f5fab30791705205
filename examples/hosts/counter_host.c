/*
 * A host in C: the counter of examples/counter, as an FMU in a process of its own.
 *
 *     cc -std=c99 -o counter_host counter_host.c
 *     counter_host DIR R
 *
 * It reads the calls of ssprun on standard input and answers each on standard output with a reply of 24 bytes, or a batch
 * of calls with a batch of replies.
 * docs/HOST_PROTOCOL.md describes them. To write a host of your own, copy this file and put your model in the place of
 * the part "The model"; what stands above it reads and writes frames and can stay as it is.
 *
 * Standard output belongs to the replies: print messages to standard error alone.
 *
 * It ends with status 0 after FreeInstance and at the end of its input, 1 where its input is no frame or a reply can't
 * be written (where nobody reads them any more, SIGPIPE ends it before), 2 where its words aren't DIR and R, and 3
 * where it can't read the description in DIR.
 */

#include <stdbool.h>
#include <stdint.h>
#include <stdio.h>
#include <stdlib.h>
#include <string.h>

/* ---- Calls and replies */

/* The number of a call. A reply repeats it. */
enum kind {
    INSTANTIATE = 1,
    ENTER_INITIALIZATION = 2,
    EXIT_INITIALIZATION = 3,
    ENTER_EVENT = 4,
    ENTER_STEP = 5,
    DO_STEP = 6,
    UPDATE = 7,
    GET = 8,
    SET = 9,
    GET_CLOCK = 10,
    SET_CLOCK = 11,
    GET_INTERVAL = 12,
    GET_SHIFT = 13,
    SAVE = 14,
    RESTORE = 15,
    FREE = 16,
    TERMINATE = 17,
    FREE_INSTANCE = 18,
    SERIALIZE = 20,
    DESERIALIZE = 21
};

enum status { OK = 0, WARNING = 1, DISCARD = 2, ERROR = 3, FATAL = 4 };

/* Types of variables. */
enum type {
    INT8 = 1, UINT8 = 2, INT16 = 3, UINT16 = 4, INT32 = 5, UINT32 = 6, INT64 = 7, UINT64 = 8,
    BOOLEAN = 9, ENUMERATION = 10
};

/* Flags in the reply to DoStep. */
enum { EVENT_NEEDED = 1, TERMINATE_SIMULATION = 2, EARLY_RETURN = 4 };

/* The bit of Instantiate that asks for batches, and the flag in its reply that says that they are taken. */
enum { BATCHES_ASKED_FOR = 4, BATCHES_TAKEN = 1 };

/* The first byte of a batch, and the most calls in it. */
enum { BATCH = 19, MOST_CALLS = 64 };

#define FRAME_LENGTH 24
#define LONGEST_TEXT (UINT64_C(1) << 24)

/* The bytes of a state of the model. */
#define STATE_LENGTH 24

struct call {
    int kind;
    int type;
    uint32_t reference;
    uint64_t first;
    uint64_t second;
    unsigned char state[STATE_LENGTH]; /* of Deserialize, where so many bytes follow it */
};

/* From the status DISCARD on everything after the status has to be 0. */
struct reply {
    int status;
    int flags;
    uint32_t qualifier;
    uint64_t first;
    uint64_t second;
    unsigned char state[STATE_LENGTH]; /* the qualifier of Serialize tells how many of these bytes follow the reply */
};

/* Which fields of a call its kind uses. All others are 0. */
struct layout {
    bool type, reference, first, second;
};

static const struct layout layouts[DESERIALIZE + 1] = {
    [INSTANTIATE] = {false, true, true, true},
    [ENTER_INITIALIZATION] = {false, false, true, true},
    [DO_STEP] = {false, false, true, true},
    [GET] = {true, true, false, false},
    [SET] = {true, true, true, false},
    [GET_CLOCK] = {false, true, false, false},
    [SET_CLOCK] = {false, true, false, false},
    [GET_INTERVAL] = {false, true, false, false},
    [GET_SHIFT] = {false, true, false, false},
    [DESERIALIZE] = {false, true, true, true},
};

/* A number whose most significant byte comes first. */
static uint64_t read_number(const unsigned char *bytes, int length)
{
    uint64_t number = 0;
    for (int i = 0; i < length; i++)
        number = number << 8 | bytes[i];
    return number;
}

static void write_number(unsigned char *bytes, int length, uint64_t number)
{
    for (int i = length - 1; i >= 0; i--) {
        bytes[i] = (unsigned char)(number & 0xff);
        number >>= 8;
    }
}

/*
 * A word is the 64 bits of a value in two's complement. This is the word of a number of which only the lowest bits that
 * the type has are kept, with the sign that they have in it.
 */
static uint64_t wrapped(int type, uint64_t word)
{
    int bits;
    bool has_sign = type == INT8 || type == INT16 || type == INT32;
    switch (type) {
    case INT8: case UINT8: bits = 8; break;
    case INT16: case UINT16: bits = 16; break;
    case INT32: case UINT32: bits = 32; break;
    case BOOLEAN: bits = 1; break;
    default: return word; /* Int64, UInt64 and Enumeration have all 64 bits */
    }
    uint64_t ones = (UINT64_C(1) << bits) - 1;
    bool is_negative = has_sign && (word >> (bits - 1) & 1) != 0;
    return is_negative ? word | ~ones : word & ones;
}

enum input { A_FRAME, THE_END, NO_FRAME };

/* What comes in one frame: a call, or a batch of calls, all of which read variables or all of which set them. */
struct frame {
    bool is_batch;
    int count;
    struct call calls[MOST_CALLS];
};

/* Passes over a text. This host has no use for the instance's name and token, and doesn't look if they are UTF-8. */
static bool skip_text(uint64_t length)
{
    while (length > 0 && getchar() != EOF)
        length--;
    return length == 0;
}

/* Reads so many bytes of a state, and keeps those of one that may be the model's. */
static bool read_state(uint32_t length, unsigned char *state)
{
    return length == STATE_LENGTH ? fread(state, 1, length, stdin) == length : skip_text(length);
}

/* Takes the call of 24 bytes; false where they are none. */
static bool take_call(const unsigned char *bytes, struct call *call)
{
    call->kind = bytes[0];
    call->type = bytes[1];
    call->reference = (uint32_t)read_number(bytes + 4, 4);
    call->first = read_number(bytes + 8, 8);
    call->second = read_number(bytes + 16, 8);

    if (call->kind < INSTANTIATE || call->kind > DESERIALIZE || call->kind == BATCH)
        return false;
    const struct layout *layout = &layouts[call->kind];
    if ((!layout->type && call->type != 0) || bytes[2] != 0 || bytes[3] != 0)
        return false;
    if ((!layout->reference && call->reference != 0) || (!layout->first && call->first != 0) ||
        (!layout->second && call->second != 0))
        return false;
    if (layout->type && (call->type < INT8 || call->type > ENUMERATION))
        return false;
    if (call->kind == INSTANTIATE &&
        (call->reference > 7 || call->first == 0 || call->first > LONGEST_TEXT || call->second > LONGEST_TEXT))
        return false;
    return call->kind != SET || call->first == wrapped(call->type, call->first);
}

/* Reads the calls of a batch with this head. */
static enum input read_batch(const unsigned char *head, struct frame *frame)
{
    unsigned char bytes[FRAME_LENGTH * MOST_CALLS], expected[FRAME_LENGTH] = {BATCH};
    uint32_t count = (uint32_t)read_number(head + 4, 4);
    write_number(expected + 4, 4, count);
    if (count < 1 || count > MOST_CALLS || memcmp(head, expected, FRAME_LENGTH) != 0)
        return NO_FRAME;
    if (fread(bytes, FRAME_LENGTH, count, stdin) < count)
        return NO_FRAME;
    for (uint32_t i = 0; i < count; i++) {
        struct call *call = &frame->calls[i];
        if (!take_call(bytes + i * FRAME_LENGTH, call) || (call->kind != GET && call->kind != SET) ||
            call->kind != frame->calls[0].kind)
            return NO_FRAME;
    }
    frame->is_batch = true;
    frame->count = (int)count;
    return A_FRAME;
}

/* Reads the next frame from standard input. */
static enum input read_frame(struct frame *frame)
{
    unsigned char bytes[FRAME_LENGTH];
    size_t length = fread(bytes, 1, FRAME_LENGTH, stdin);
    if (length == 0)
        return THE_END;
    if (length < FRAME_LENGTH)
        return NO_FRAME;
    if (bytes[0] == BATCH)
        return read_batch(bytes, frame);
    struct call *call = &frame->calls[0];
    if (!take_call(bytes, call))
        return NO_FRAME;
    if (call->kind == INSTANTIATE && (!skip_text(call->first) || !skip_text(call->second)))
        return NO_FRAME;
    if (call->kind == DESERIALIZE && !read_state(call->reference, call->state))
        return NO_FRAME;
    frame->is_batch = false;
    frame->count = 1;
    return A_FRAME;
}

static void put_reply(unsigned char *bytes, int kind, const struct reply *reply)
{
    memset(bytes, 0, FRAME_LENGTH);
    bytes[0] = (unsigned char)kind;
    bytes[1] = (unsigned char)reply->status;
    bytes[2] = (unsigned char)reply->flags;
    write_number(bytes + 4, 4, reply->qualifier);
    write_number(bytes + 8, 8, reply->first);
    write_number(bytes + 16, 8, reply->second);
}

/*
 * Writes so many replies to a frame on standard output: to a batch with a head that counts them, to Serialize with the
 * bytes of the state. ssprun sends the next frame only after them, so they leave at once.
 */
static bool write_replies(const struct frame *frame, const struct reply *given, int count)
{
    unsigned char bytes[FRAME_LENGTH * (MOST_CALLS + 1)] = {BATCH};
    write_number(bytes + 4, 4, (uint64_t)count);
    for (int i = 0; i < count; i++)
        put_reply(bytes + FRAME_LENGTH * (i + 1), frame->calls[i].kind, &given[i]);
    size_t skipped = frame->is_batch ? 0 : FRAME_LENGTH;
    size_t length = (size_t)FRAME_LENGTH * (size_t)(count + 1) - skipped;
    size_t followed = frame->calls[0].kind == SERIALIZE ? given[0].qualifier : 0;
    return fwrite(bytes + skipped, 1, length, stdout) == length &&
        fwrite(given[0].state, 1, followed, stdout) == followed && fflush(stdout) == 0;
}

/* ---- The model: each step adds `inc` to a count, and `y` shows it */

/* Value references, as in the description. */
enum {
    INC = 1, /* a parameter: what a step adds */
    Y = 2,   /* an output: the count */
    LONG = 3 /* a parameter: a step of at least this size asks for the end of the run, where it is above 0 */
};

/* Numbers are kept as words, so that a sum wraps around as two's complement does. */
struct counter {
    uint64_t inc;
    uint64_t long_step;
    uint64_t count;
    unsigned char saved[STATE_LENGTH];
    bool is_saved;
};

static const struct reply done = {.status = OK};
static const struct reply refused = {.status = ERROR};

/* All times are counts, of which a second has R. This model knows no time but the size of its step. */
static struct reply do_step(struct counter *counter, uint64_t point, uint64_t size)
{
    struct reply reply = done;
    if (size > UINT64_MAX - point)
        return refused;
    counter->count += counter->inc;
    /* No step is as long as the word of a negative number: this is 2^63 or more, and no run goes past 2^62. */
    if (counter->long_step != 0 && counter->long_step <= size)
        reply.flags = TERMINATE_SIMULATION;
    reply.first = point + size;
    return reply;
}

static struct reply get(const struct counter *counter, int type, uint32_t reference)
{
    struct reply reply = done;
    switch (reference) {
    case INC: reply.first = counter->inc; break;
    case Y: reply.first = counter->count; break;
    case LONG: reply.first = counter->long_step; break;
    default: return refused;
    }
    reply.first = wrapped(type, reply.first);
    return reply;
}

static struct reply set(struct counter *counter, uint32_t reference, uint64_t word)
{
    switch (reference) {
    case INC: counter->inc = word; return done;
    case LONG: counter->long_step = word; return done;
    default: return refused;
    }
}

/* One state can be saved, as bytes: the count and both parameters. */
static struct reply save(struct counter *counter)
{
    if (counter->is_saved)
        return refused;
    write_number(counter->saved, 8, counter->count);
    write_number(counter->saved + 8, 8, counter->inc);
    write_number(counter->saved + 16, 8, counter->long_step);
    counter->is_saved = true;
    return done;
}

static struct reply restore(struct counter *counter)
{
    if (!counter->is_saved)
        return refused;
    counter->count = read_number(counter->saved, 8);
    counter->inc = read_number(counter->saved + 8, 8);
    counter->long_step = read_number(counter->saved + 16, 8);
    return done;
}

static struct reply serialize(const struct counter *counter)
{
    struct reply reply = done;
    if (!counter->is_saved)
        return refused;
    reply.qualifier = STATE_LENGTH;
    memcpy(reply.state, counter->saved, STATE_LENGTH);
    return reply;
}

/* What another instance gave is saved here. */
static struct reply deserialize(struct counter *counter, const struct call *call)
{
    if (counter->is_saved || call->reference != STATE_LENGTH)
        return refused;
    memcpy(counter->saved, call->state, STATE_LENGTH);
    counter->is_saved = true;
    return done;
}

static struct reply free_saved(struct counter *counter)
{
    if (!counter->is_saved)
        return refused;
    counter->is_saved = false;
    return done;
}

static struct reply instantiate(uint32_t asked_for)
{
    struct reply reply = done;
    reply.flags = (asked_for & BATCHES_ASKED_FOR) != 0 ? BATCHES_TAKEN : 0;
    return reply;
}

/* Does what a call asks for. */
static struct reply answer(struct counter *counter, const struct call *call)
{
    switch (call->kind) {
    case INSTANTIATE: return instantiate(call->reference);
    case DO_STEP: return do_step(counter, call->first, call->second);
    case GET: return get(counter, call->type, call->reference);
    case SET: return set(counter, call->reference, call->first);
    case SAVE: return save(counter);
    case RESTORE: return restore(counter);
    case FREE: return free_saved(counter);
    case SERIALIZE: return serialize(counter);
    case DESERIALIZE: return deserialize(counter, call);

    /* It has no clocks. */
    case GET_CLOCK: case SET_CLOCK: case GET_INTERVAL: case GET_SHIFT: return refused;

    /*
     * The others only lead from one state to the next, and ssprun sends each where it may stand. An Update that is
     * answered without flags asks for no other instant.
     */
    default: return done;
    }
}

/* ---- The description */

#define LONGEST_DESCRIPTION ((size_t)1 << 24) /* ssprun takes no longer file */

/* The value of a tag's attribute of this name, to the next quote; false where there is none. */
static bool find_attribute(const char *tag, const char *name, char *value, size_t room)
{
    size_t length = strlen(name);
    for (const char *at = strstr(tag, name); at != NULL; at = strstr(at + 1, name)) {
        if (strchr(" \t\r\n", at[-1]) == NULL || strncmp(at + length, "=\"", 2) != 0)
            continue;
        const char *begin = at + length + 2;
        size_t count = strcspn(begin, "\"");
        if (count >= room)
            return false;
        memcpy(value, begin, count);
        value[count] = '\0';
        return true;
    }
    return false;
}

/*
 * The start value of the parameter with this reference, 0 where none is found: that of the first tag with both
 * attributes. This is a search and no XML reader: it wants each value right after `=` in double quotes, no `>` in a
 * value, and no such tag in a comment. ssprun reads the description in full before it starts a host.
 */
static uint64_t find_start(const char *description, unsigned long reference)
{
    for (const char *tag = strchr(description, '<'); tag != NULL; tag = strchr(tag + 1, '<')) {
        char text[1024], number[32];
        size_t length = strcspn(tag, ">");
        if (length >= sizeof text)
            continue;
        memcpy(text, tag, length);
        text[length] = '\0';
        if (!find_attribute(text, "valueReference", number, sizeof number) || strtoul(number, NULL, 10) != reference)
            continue;
        if (!find_attribute(text, "start", number, sizeof number))
            continue;
        if (strcmp(number, "true") == 0)
            return 1;
        return number[0] == '-' ? (uint64_t)strtoll(number, NULL, 10) : strtoull(number, NULL, 10);
    }
    return 0;
}

/* The text of DIR/modelDescription.xml, or NULL. */
static char *read_description(const char *directory)
{
    char path[4096];
    int length = snprintf(path, sizeof path, "%s/modelDescription.xml", directory);
    FILE *file = length > 0 && (size_t)length < sizeof path ? fopen(path, "rb") : NULL;
    if (file == NULL)
        return NULL;
    char *text = malloc(LONGEST_DESCRIPTION + 1);
    if (text != NULL) {
        text[fread(text, 1, LONGEST_DESCRIPTION, file)] = '\0';
        if (ferror(file)) {
            free(text);
            text = NULL;
        }
    }
    fclose(file);
    return text;
}

int main(int count, char **words)
{
    if (count != 3) {
        fprintf(stderr, "usage: counter_host DIR R\n");
        return 2;
    }
    char *description = read_description(words[1]);
    if (description == NULL) {
        fprintf(stderr, "counter_host: can't read %s/modelDescription.xml\n", words[1]);
        return 3;
    }
    struct counter counter = {.count = 0};
    counter.inc = find_start(description, INC);
    counter.long_step = find_start(description, LONG);
    free(description);

    static struct frame frame;
    static struct reply given[MOST_CALLS];
    for (;;) {
        switch (read_frame(&frame)) {
        case THE_END:
            return 0;
        case NO_FRAME:
            fprintf(stderr, "counter_host: the input is no frame\n");
            return 1;
        case A_FRAME:
            break;
        }
        int count = 0;
        do { /* the calls of a batch in their order, up to the first whose answer isn't good */
            given[count] = answer(&counter, &frame.calls[count]);
            count++;
        } while (count < frame.count && given[count - 1].status <= WARNING);
        if (!write_replies(&frame, given, count))
            return 1;
        if (frame.calls[0].kind == FREE_INSTANCE)
            return 0;
    }
}
