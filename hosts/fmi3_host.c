/*
 * A host that loads an FMU for Co-Simulation of FMI 3.0: it answers the calls of ssprun by the C functions of the FMU.
 *
 *     cc -std=c99 -O2 -pthread -o fmi3_host fmi3_host.c -ldl
 *     fmi3_host DIR R
 *
 * DIR is an unpacked FMU. Its library is the one file of DIR/binaries/x86_64-linux whose name ends in `.so`, of several
 * the one that is named by the modelIdentifier of the description; it is loaded at Instantiate. A second has R counts.
 * docs/HOST_PROTOCOL.md describes calls and replies, docs/HOSTS.md how to use it.
 *
 * Where there is a file DIR/reals.txt, the Int64 and Int32 variables whose references stand in it, one a line, hold the
 * bits of a Float64 or a Float32: the FMU is asked for these, and set to them. `tools/ssp reals` writes such files.
 *
 * What doesn't work is told on standard error, and the call is answered with Error: no library or two of them, a
 * function that the library doesn't have, the end of a step, an interval or a shift that is no count, a state of more than
 * 2^20 bytes. A next event time that is none goes up to the next count, which is told once. What the FMU writes on standard output goes to standard
 * error, line by line. An FMU that crashes ends its host.
 *
 *     FMI3_HOST_LOG=1         the FMU is to log
 *     FMI3_HOST_SECONDS=N     where an answer takes longer than N seconds, 1 to 1,000,000, the host ends
 *
 * On Linux it ends with the thread that started it, also within a call of the FMU, and so does each child that the FMU
 * forks with the thread that forked it.
 *
 * It ends with status 0 after FreeInstance and at the end of its input, 1 where its input is no frame or a reply can't
 * be written (where nobody reads them any more, SIGPIPE ends it before) or an answer takes too long, and 2 where its
 * words aren't DIR and R, or FMI3_HOST_SECONDS is no such number.
 *
 * Section numbers are those of FMI 3.0.
 */
#define _XOPEN_SOURCE 700

#include "fmi3_functions.h"

#include <dirent.h>
#include <dlfcn.h>
#include <fcntl.h>
#include <poll.h>
#include <pthread.h>
#include <signal.h>
#include <stdio.h>
#include <stdlib.h>
#include <string.h>
#include <time.h>
#include <unistd.h>
#ifdef __linux__
#include <sys/prctl.h>
#endif

/* ---- Calls and replies */

enum kind {
    INSTANTIATE = 1, ENTER_INITIALIZATION, EXIT_INITIALIZATION, ENTER_EVENT, ENTER_STEP, DO_STEP, UPDATE, GET, SET,
    GET_CLOCK, SET_CLOCK, GET_INTERVAL, GET_SHIFT, SAVE, RESTORE, FREE, TERMINATE, FREE_INSTANCE,
    SERIALIZE = 20, DESERIALIZE
};

enum type { INT8 = 1, UINT8, INT16, UINT16, INT32, UINT32, INT64, UINT64, BOOLEAN, ENUMERATION };

/* Flags in the replies to DoStep and to Update. */
enum { EVENT_NEEDED = 1, NEEDS_UPDATE = 1, TERMINATE_ASKED = 2, EARLY_RETURN = 4, NEXT_EVENT_TIME = 4 };

/* Bits in the reference of Instantiate. */
enum { EVENT_MODE_USED = 1, EARLY_RETURN_ALLOWED = 2, BATCHES_ASKED_FOR = 4 };

/* The flag in the reply to Instantiate. */
enum { BATCHES_TAKEN = 1 };

/* The first byte of a batch, and the most calls in it. */
enum { BATCH = 19, MOST_CALLS = 64 };

#define FRAME_LENGTH 24
#define LONGEST_TEXT (UINT64_C(1) << 24)
#define LONGEST_STATE (UINT64_C(1) << 20)
#define MOST_COUNTS (UINT64_C(1) << 62)

struct call {
    int kind;
    int type;
    uint32_t reference;
    uint64_t first;
    uint64_t second;
};

/* The texts of Instantiate, each with a 0 after it. They are kept, since there is one Instantiate. */
static char *name, *token;

/* The bytes of a state: those that came with the last Deserialize, or that go with the reply to a Serialize. */
static unsigned char *state;

struct reply {
    fmi3Status status;
    int flags;
    uint32_t qualifier;
    uint64_t first;
    uint64_t second;
};

/* Which fields of a call its kind uses. All others are 0. */
static const struct layout {
    bool type, reference, first, second;
} layouts[DESERIALIZE + 1] = {
    [INSTANTIATE] = {false, true, true, true},
    [ENTER_INITIALIZATION] = {false, false, true, true},
    [DO_STEP] = {false, false, true, true},
    [GET] = {true, true, false, false},
    [SET] = {true, true, true, false},
    [GET_CLOCK] = {false, true, false, false},
    [SET_CLOCK] = {false, true, false, false},
    [GET_INTERVAL] = {false, true, false, false},
    [GET_SHIFT] = {false, true, false, false},
    [DESERIALIZE] = {false, true, true, true},
};

static uint64_t read_number(const unsigned char *bytes, int length)
{
    uint64_t number = 0;
    for (int i = 0; i < length; i++)
        number = number << 8 | bytes[i];
    return number;
}

static void write_number(unsigned char *bytes, int length, uint64_t number)
{
    for (int i = length - 1; i >= 0; i--) {
        bytes[i] = (unsigned char)(number & 0xff);
        number >>= 8;
    }
}

/* Each type with the C type that has its values. */
#define EACH_TYPE(use) \
    use(INT8, Int8) use(UINT8, UInt8) use(INT16, Int16) use(UINT16, UInt16) use(INT32, Int32) use(UINT32, UInt32) \
    use(INT64, Int64) use(UINT64, UInt64) use(BOOLEAN, Boolean) use(ENUMERATION, Int64)

/* Whether these 64 bits are the two's complement of a value of the type: such a word stays what it is in C's type. */
static bool is_word_of(int type, uint64_t word)
{
    switch (type) {
#define IS_WORD(number, name) case number: return (uint64_t)(fmi3##name)word == word;
    EACH_TYPE(IS_WORD)
    default: return false;
    }
}

/* A text of Instantiate, with a 0 after it; NULL where the input ends before, or there is no memory. */
static char *read_text(FILE *calls, uint64_t length)
{
    char *text = malloc((size_t)length + 1);
    if (text == NULL || fread(text, 1, (size_t)length, calls) < length) {
        free(text);
        return NULL;
    }
    text[length] = '\0';
    return text;
}

/* Reads so many bytes of a state; false where the input ends before, or there is no memory. There is room as they come. */
static bool read_state(FILE *calls, size_t length)
{
    size_t came = 0, room = 4096;
    for (;;) {
        unsigned char *grown = realloc(state, room);
        if (grown == NULL)
            return false;
        state = grown;
        size_t wanted = length < room ? length : room;
        came += fread(state + came, 1, wanted - came, calls);
        if (came < wanted || came == length)
            return came == length;
        room *= 2;
    }
}

enum input { A_FRAME, THE_END, NO_FRAME };

/* What comes in one frame: a call, or a batch of calls, all of which read variables or all of which set them. */
struct frame {
    bool is_batch;
    int count;
    struct call calls[MOST_CALLS];
};

/* The call of these 24 bytes; false where they are none. */
static bool take_call(const unsigned char *bytes, struct call *call)
{
    call->kind = bytes[0];
    call->type = bytes[1];
    call->reference = (uint32_t)read_number(bytes + 4, 4);
    call->first = read_number(bytes + 8, 8);
    call->second = read_number(bytes + 16, 8);

    if (call->kind < INSTANTIATE || call->kind > DESERIALIZE || call->kind == BATCH)
        return false;
    const struct layout *layout = &layouts[call->kind];
    if ((!layout->type && call->type != 0) || bytes[2] != 0 || bytes[3] != 0)
        return false;
    if ((!layout->reference && call->reference != 0) || (!layout->first && call->first != 0) ||
        (!layout->second && call->second != 0))
        return false;
    if (layout->type && (call->type < INT8 || call->type > ENUMERATION))
        return false;
    if (call->kind == INSTANTIATE &&
        (call->reference > 7 || call->first == 0 || call->first > LONGEST_TEXT || call->second > LONGEST_TEXT))
        return false;
    return call->kind != SET || is_word_of(call->type, call->first);
}

/* The calls of a batch with this head. */
static enum input read_batch(FILE *calls, const unsigned char *head, struct frame *frame)
{
    unsigned char bytes[FRAME_LENGTH * MOST_CALLS], expected[FRAME_LENGTH] = {BATCH};
    uint32_t count = (uint32_t)read_number(head + 4, 4);
    write_number(expected + 4, 4, count);
    if (count < 1 || count > MOST_CALLS || memcmp(head, expected, FRAME_LENGTH) != 0)
        return NO_FRAME;
    if (fread(bytes, FRAME_LENGTH, count, calls) < count)
        return NO_FRAME;
    for (uint32_t i = 0; i < count; i++) {
        struct call *call = &frame->calls[i];
        if (!take_call(bytes + i * FRAME_LENGTH, call) || (call->kind != GET && call->kind != SET) ||
            call->kind != frame->calls[0].kind)
            return NO_FRAME;
    }
    frame->is_batch = true;
    frame->count = (int)count;
    return A_FRAME;
}

static enum input read_frame(FILE *calls, struct frame *frame)
{
    unsigned char bytes[FRAME_LENGTH];
    size_t length = fread(bytes, 1, FRAME_LENGTH, calls);
    if (length < FRAME_LENGTH)
        return length == 0 ? THE_END : NO_FRAME;
    if (bytes[0] == BATCH)
        return read_batch(calls, bytes, frame);
    struct call *call = &frame->calls[0];
    if (!take_call(bytes, call))
        return NO_FRAME;
    frame->is_batch = false;
    frame->count = 1;
    if (call->kind == INSTANTIATE) {
        name = read_text(calls, call->first);
        token = name != NULL ? read_text(calls, call->second) : NULL;
        if (token == NULL)
            return NO_FRAME;
    }
    if (call->kind == DESERIALIZE && !read_state(calls, call->reference))
        return NO_FRAME;
    return A_FRAME;
}

static bool is_good(fmi3Status status)
{
    return status == fmi3OK || status == fmi3Warning;
}

/* From the status fmi3Discard on all after it is 0. */
static void put_reply(unsigned char *bytes, int kind, const struct reply *reply)
{
    memset(bytes, 0, FRAME_LENGTH);
    bytes[0] = (unsigned char)kind;
    bytes[1] = (unsigned char)reply->status;
    if (is_good(reply->status)) {
        bytes[2] = (unsigned char)reply->flags;
        write_number(bytes + 4, 4, reply->qualifier);
        write_number(bytes + 8, 8, reply->first);
        write_number(bytes + 16, 8, reply->second);
    }
}

/* So many replies to a frame, in one piece, and the bytes that follow a good one to Serialize. */
static bool write_replies(FILE *replies, const struct frame *frame, const struct reply *given, int count)
{
    unsigned char bytes[FRAME_LENGTH * (MOST_CALLS + 1)] = {BATCH};
    write_number(bytes + 4, 4, (uint64_t)count);
    for (int i = 0; i < count; i++)
        put_reply(bytes + FRAME_LENGTH * (i + 1), frame->calls[i].kind, &given[i]);
    size_t skipped = frame->is_batch ? 0 : FRAME_LENGTH;
    size_t length = (size_t)FRAME_LENGTH * (size_t)(count + 1) - skipped;
    bool has_state = !frame->is_batch && frame->calls[0].kind == SERIALIZE && is_good(given[0].status);
    size_t followed = has_state ? given[0].qualifier : 0;
    return fwrite(bytes + skipped, 1, length, replies) == length &&
        (followed == 0 || fwrite(state, 1, followed, replies) == followed) && fflush(replies) == 0;
}

/* ---- The FMU */

static const char *directory;
static uint64_t resolution;
static fmi3Instance instance;
static fmi3FMUState saved_state;

/* A message on standard error, and the status Error. */
static fmi3Status complain(const char *what, const char *about)
{
    fprintf(stderr, "fmi3_host: %s: %s%s\n", directory, what, about);
    return fmi3Error;
}

#define EACH_FUNCTION(use) \
    use(InstantiateCoSimulation) use(FreeInstance) \
    use(EnterInitializationMode) use(ExitInitializationMode) use(EnterEventMode) use(EnterStepMode) use(Terminate) \
    use(DoStep) use(UpdateDiscreteStates) \
    use(GetInt8) use(GetUInt8) use(GetInt16) use(GetUInt16) use(GetInt32) use(GetUInt32) use(GetInt64) use(GetUInt64) \
    use(GetBoolean) use(GetFloat32) use(GetFloat64) \
    use(SetInt8) use(SetUInt8) use(SetInt16) use(SetUInt16) use(SetInt32) use(SetUInt32) use(SetInt64) use(SetUInt64) \
    use(SetBoolean) use(SetFloat32) use(SetFloat64) \
    use(GetClock) use(SetClock) \
    use(GetIntervalDecimal) use(GetIntervalFraction) use(GetShiftDecimal) use(GetShiftFraction) \
    use(GetFMUState) use(SetFMUState) use(FreeFMUState) \
    use(SerializedFMUStateSize) use(SerializeFMUState) use(DeserializeFMUState)

/* The functions that the library has; NULL for each other one. */
static struct {
#define A_MEMBER(name) fmi3##name##TYPE *name;
    EACH_FUNCTION(A_MEMBER)
} fmu;

/* Ends the answer of a call whose function the library doesn't have. */
#define NEEDS(name) \
    if (fmu.name == NULL) \
        return complain("the library doesn't have the function ", "fmi3" #name)

/* Two texts, one after the other, in memory of their own; NULL where there is no first text, or no memory. */
static char *joined(const char *first, const char *second)
{
    size_t room = first != NULL ? strlen(first) + strlen(second) + 1 : 0;
    char *text = room > 0 ? malloc(room) : NULL;
    if (text != NULL)
        snprintf(text, room, "%s%s", first, second);
    return text;
}

/* The whole file of the folder with this name, and a 0 after it; NULL where it can't be read. */
static char *read_whole(const char *file)
{
    char *path = joined(directory, file);
    FILE *stream = path != NULL ? fopen(path, "rb") : NULL;
    free(path);
    if (stream == NULL)
        return NULL;
    char *text = NULL;
    size_t length = 0, room = 4096;
    for (;;) {
        char *grown = realloc(text, room + 1);
        if (grown == NULL)
            break;
        text = grown;
        length += fread(text + length, 1, room - length, stream);
        if (length < room)
            break;
        room *= 2;
    }
    bool is_read = text != NULL && length < room && !ferror(stream);
    fclose(stream);
    if (!is_read) {
        free(text);
        return NULL;
    }
    text[length] = '\0';
    return text;
}

/* Where a piece of XML that begins here ends: a comment, a CDATA section, an instruction, or a tag; NULL if it doesn't. */
static const char *behind(const char *piece)
{
    static const char *const limits[][2] = {{"<!--", "-->"}, {"<![CDATA[", "]]>"}, {"<?", "?>"}};
    for (int i = 0; i < 3; i++) {
        if (strncmp(piece, limits[i][0], strlen(limits[i][0])) == 0) {
            const char *end = strstr(piece + strlen(limits[i][0]), limits[i][1]);
            return end != NULL ? end + strlen(limits[i][1]) : NULL;
        }
    }
    for (char quote = '\0'; *piece != '\0'; piece++) {
        if (quote == '\0' && *piece == '>')
            return piece + 1;
        if (*piece == quote)
            quote = '\0';
        else if (quote == '\0' && (*piece == '"' || *piece == '\''))
            quote = *piece;
    }
    return NULL;
}

/* The value of an attribute of a start tag, in memory of its own, or NULL. */
static char *attribute_of(const char *tag, const char *end, const char *wanted)
{
    static const char spaces[] = " \t\r\n";
    const char *place = tag + strcspn(tag, " \t\r\n/>");
    for (;;) {
        place += strspn(place, spaces);
        size_t length = strcspn(place, " \t\r\n=/>");
        const char *value = place + length;
        value += strspn(value, spaces);
        if (length == 0 || *value != '=')
            return NULL;
        value += 1 + strspn(value + 1, spaces);
        const char *last = value < end && *value != '\0' ? strchr(value + 1, *value) : NULL;
        if (last == NULL || last >= end)
            return NULL;
        if (length == strlen(wanted) && strncmp(place, wanted, length) == 0) {
            size_t room = (size_t)(last - value);
            char *text = malloc(room);
            if (text != NULL)
                snprintf(text, room, "%.*s", (int)(room - 1), value + 1);
            return text;
        }
        place = last + 1;
    }
}

/* The modelIdentifier of the first CoSimulation that stands directly in the root (2.4.1 and 4.4), or NULL. */
static char *model_identifier(void)
{
    static const char name_of_element[] = "CoSimulation";
    char *text = read_whole("/modelDescription.xml"), *identifier = NULL;
    int depth = 0;
    for (const char *tag = text; tag != NULL && (tag = strchr(tag, '<')) != NULL;) {
        const char *end = behind(tag);
        if (end == NULL)
            break;
        if (tag[1] == '/') {
            depth--;
        } else if (tag[1] != '!' && tag[1] != '?') {
            const char *element = tag + 1;
            size_t length = strcspn(element, " \t\r\n/>");
            for (const char *colon; (colon = memchr(element, ':', length)) != NULL; element = colon + 1)
                length -= (size_t)(colon + 1 - element);
            if (depth == 1 && length == strlen(name_of_element) && strncmp(element, name_of_element, length) == 0) {
                identifier = attribute_of(tag, end, "modelIdentifier");
                break;
            }
            depth += end[-2] != '/';
        }
        tag = end;
    }
    free(text);
    return identifier;
}

/* The path of the library of several that modelIdentifier names, or NULL. */
static char *named_library(const char *folder)
{
    char *identifier = model_identifier();
    char *file = identifier != NULL && strchr(identifier, '/') == NULL ? joined(identifier, ".so") : NULL;
    char *path = file != NULL ? joined(folder, file) : NULL;
    free(identifier);
    free(file);
    if (path == NULL || access(path, F_OK) == 0)
        return path;
    free(path);
    return NULL;
}

/* The path of the library (2.5: binaries of a platform), or NULL. */
static char *find_library(void)
{
    static const char platform[] = "/binaries/x86_64-linux/";
    char *path = NULL;
    int found = 0;
    char *folder = joined(directory, platform);
    DIR *entries = folder != NULL ? opendir(folder) : NULL;
    for (struct dirent *entry; entries != NULL && (entry = readdir(entries)) != NULL;) {
        size_t length = strlen(entry->d_name);
        if (length <= 3 || strcmp(entry->d_name + length - 3, ".so") != 0)
            continue;
        found++;
        free(path);
        path = joined(folder, entry->d_name);
    }
    if (entries != NULL)
        closedir(entries);
    if (found > 1) {
        free(path);
        path = named_library(folder);
    }
    free(folder);
    if (found == 0)
        complain("no library in ", platform + 1);
    else if (path == NULL)
        complain("several libraries, none of them named by modelIdentifier, in ", platform + 1);
    return path;
}

/* The references in DIR/reals.txt, in order. */
static fmi3ValueReference *reals;
static size_t real_count;

static int compare_references(const void *first, const void *second)
{
    const fmi3ValueReference *one = first, *other = second;
    return (*one > *other) - (*one < *other);
}

static bool is_real(fmi3ValueReference reference)
{
    return real_count > 0 &&
        bsearch(&reference, reals, real_count, sizeof reference, compare_references) != NULL;
}

/* Reads DIR/reals.txt, if it is there: a reference a line, in digits. */
static bool read_reals(void)
{
    char *path = joined(directory, "/reals.txt");
    bool is_there = path == NULL || access(path, F_OK) == 0;
    free(path);
    if (!is_there)
        return true;
    char *text = read_whole("/reals.txt");
    reals = text != NULL ? malloc((strlen(text) / 2 + 1) * sizeof *reals) : NULL;
    if (reals == NULL) {
        free(text);
        complain("can't read reals.txt", "");
        return false;
    }
    for (const char *line = text; *line != '\0';) {
        size_t digits = strspn(line, "0123456789");
        unsigned long long reference = digits >= 1 && digits <= 10 ? strtoull(line, NULL, 10) : UINT64_MAX;
        if (reference > UINT32_MAX || line[digits] != '\n') {
            free(text);
            complain("reals.txt has a line that is no value reference", "");
            return false;
        }
        reals[real_count++] = (fmi3ValueReference)reference;
        line += digits + 1;
    }
    free(text);
    qsort(reals, real_count, sizeof *reals, compare_references);
    return true;
}

static bool load_library(void)
{
    char *path = find_library();
    if (path == NULL)
        return false;
    void *library = dlopen(path, RTLD_NOW | RTLD_LOCAL);
    free(path);
    if (library == NULL) {
        complain("can't load the library: ", dlerror());
        return false;
    }
    /* So POSIX writes what ISO C leaves open, the address of a function that dlsym gives. */
#define FIND(name) *(void **)(&fmu.name) = dlsym(library, "fmi3" #name);
    EACH_FUNCTION(FIND)
    return true;
}

/* ---- Times: a point is a whole number of counts, and stands for that many R-th parts of a second */

static fmi3Float64 seconds(uint64_t counts)
{
    return (fmi3Float64)counts / (fmi3Float64)resolution;
}

/*
 * The count nearest to a time; false, and 0, where it is further off than a thousandth of a count. A double has 53
 * bits, so past some 2^43 counts only times that it can hold exactly are taken.
 */
static bool nearest_count(fmi3Float64 time, uint64_t *count)
{
    long double exact = (long double)time * (long double)resolution;
    uint64_t nearest = exact > -0.001L && exact < (long double)INT64_MAX ? (uint64_t)(exact + 0.5L) : 0;
    long double off = exact - (long double)nearest;
    bool is_near = off <= 0.001L && off >= -0.001L;
    *count = is_near ? nearest : 0;
    return is_near;
}

/*
 * The count at which an event of this time is handled: the nearest one, or where that is too far off the first one that
 * isn't before the time. An event at 0 or before is over at every point. The time is below the 2^62nd count.
 */
static uint64_t event_count(fmi3Float64 time)
{
    static bool is_known;
    uint64_t count;
    if (nearest_count(time, &count))
        return count;
    if (!is_known)
        complain("a next event time is no count: the next count is taken", "");
    is_known = true;
    long double exact = (long double)time * (long double)resolution;
    count = exact > 0.0L ? (uint64_t)exact : 0;
    return (long double)count < exact ? count + 1 : count;
}

/* ---- One function for each group of calls */

static void log_message(fmi3InstanceEnvironment who, fmi3Status status, fmi3String category, fmi3String message)
{
    static const char *const words[] = {"OK", "Warning", "Discard", "Error", "Fatal"};
    const char *word = status >= fmi3OK && status <= fmi3Fatal ? words[status] : "?";
    fprintf(stderr, "fmi3_host: %s: %s: %s: %s: %s\n", directory, (const char *)who, word, category, message);
}

static bool is_to_log(void)
{
    const char *word = getenv("FMI3_HOST_LOG");
    return word != NULL && strcmp(word, "1") == 0;
}

/* fmi3InstantiateCoSimulation (2.3): without a window and intermediate update. */
static fmi3Status instantiate(const struct call *call, struct reply *reply)
{
    if (instance != NULL)
        return complain("there is an instance already", "");
    if (strlen(name) != call->first || strlen(token) != call->second)
        return complain("a name or token with a 0 in it can't be handed on", "");
    if (!read_reals() || !load_library())
        return fmi3Error;
    NEEDS(InstantiateCoSimulation);
    char *root = realpath(directory, NULL);
    char *resources = joined(root, "/resources/");
    if (resources == NULL)
        return complain("can't name its resources", "");
    instance = fmu.InstantiateCoSimulation(
        name, token, resources, fmi3False, is_to_log(), (call->reference & EVENT_MODE_USED) != 0,
        (call->reference & EARLY_RETURN_ALLOWED) != 0, NULL, 0, name, log_message, NULL);
    free(root);
    free(resources);
    reply->flags = (call->reference & BATCHES_ASKED_FOR) != 0 ? BATCHES_TAKEN : 0;
    return instance != NULL ? fmi3OK : complain("the FMU gave no instance", "");
}

/* fmi3EnterInitializationMode (2.3), without a tolerance. */
static fmi3Status enter_initialization(uint64_t start, uint64_t stop)
{
    NEEDS(EnterInitializationMode);
    return fmu.EnterInitializationMode(instance, fmi3False, 0.0, seconds(start), fmi3True, seconds(stop));
}

/* fmi3DoStep (4.2.1.2). A state that is set goes back to the current point, and never before it. */
static fmi3Status do_step(uint64_t point, uint64_t size, struct reply *reply)
{
    fmi3Boolean event_needed = fmi3False, terminate = fmi3False, early = fmi3False;
    fmi3Float64 end = seconds(point);
    NEEDS(DoStep);
    fmi3Status status =
        fmu.DoStep(instance, seconds(point), seconds(size), fmi3True, &event_needed, &terminate, &early, &end);
    if (is_good(status) && !nearest_count(end, &reply->first))
        return complain("the end of a step is no count", "");
    reply->flags = (event_needed ? EVENT_NEEDED : 0) | (terminate ? TERMINATE_ASKED : 0) | (early ? EARLY_RETURN : 0);
    return status;
}

/*
 * fmi3UpdateDiscreteStates (2.3). The two flags on continuous states aren't handed on, and neither is a time that no run
 * comes to.
 */
static fmi3Status update(struct reply *reply)
{
    fmi3Boolean again = fmi3False, terminate = fmi3False, nominals = fmi3False, values = fmi3False;
    fmi3Boolean has_time = fmi3False;
    fmi3Float64 time = 0.0;
    NEEDS(UpdateDiscreteStates);
    fmi3Status status = fmu.UpdateDiscreteStates(instance, &again, &terminate, &nominals, &values, &has_time, &time);
    if (is_good(status) && has_time && time != time)
        return complain("the next event time is no number", "");
    has_time = has_time && time < seconds(MOST_COUNTS);
    if (is_good(status) && has_time)
        reply->first = event_count(time);
    reply->flags = (again ? NEEDS_UPDATE : 0) | (terminate ? TERMINATE_ASKED : 0) | (has_time ? NEXT_EVENT_TIME : 0);
    return status;
}

/* fmi3GetFloat64 and fmi3GetFloat32 (2.2), as integers with their bits. */
static fmi3Status get_real(int type, fmi3ValueReference reference, struct reply *reply)
{
    fmi3Status status;
    if (type == INT64) {
        fmi3Float64 value = 0.0;
        NEEDS(GetFloat64);
        status = fmu.GetFloat64(instance, &reference, 1, &value, 1);
        memcpy(&reply->first, &value, sizeof value);
    } else {
        fmi3Float32 value = 0.0f;
        fmi3Int32 bits;
        NEEDS(GetFloat32);
        status = fmu.GetFloat32(instance, &reference, 1, &value, 1);
        memcpy(&bits, &value, sizeof value);
        reply->first = (uint64_t)bits;
    }
    return status;
}

/* fmi3SetFloat64 and fmi3SetFloat32 (2.2). */
static fmi3Status set_real(int type, fmi3ValueReference reference, uint64_t word)
{
    if (type == INT64) {
        fmi3Float64 value;
        NEEDS(SetFloat64);
        memcpy(&value, &word, sizeof value);
        return fmu.SetFloat64(instance, &reference, 1, &value, 1);
    }
    const fmi3Int32 bits = (fmi3Int32)word;
    fmi3Float32 value;
    NEEDS(SetFloat32);
    memcpy(&value, &bits, sizeof value);
    return fmu.SetFloat32(instance, &reference, 1, &value, 1);
}

static bool holds_real(int type, fmi3ValueReference reference)
{
    return (type == INT64 || type == INT32) && is_real(reference);
}

/* fmi3GetInt8 and its kin (2.2); an Enumeration is an Int64. A conversion to uint64_t extends a value by its sign. */
static fmi3Status get(int type, fmi3ValueReference reference, struct reply *reply)
{
    fmi3Status status = fmi3Error;
    if (holds_real(type, reference))
        return get_real(type, reference, reply);
    switch (type) {
#define GET_OF(number, name) \
    case number: { \
        fmi3##name value = 0; \
        NEEDS(Get##name); \
        status = fmu.Get##name(instance, &reference, 1, &value, 1); \
        reply->first = (uint64_t)value; \
    } break;
    EACH_TYPE(GET_OF)
    }
    return status;
}

/* fmi3SetInt8 and its kin (2.2). */
static fmi3Status set(int type, fmi3ValueReference reference, uint64_t word)
{
    if (holds_real(type, reference))
        return set_real(type, reference, word);
    switch (type) {
#define SET_OF(number, name) \
    case number: { \
        const fmi3##name value = (fmi3##name)word; \
        NEEDS(Set##name); \
        return fmu.Set##name(instance, &reference, 1, &value, 1); \
    }
    EACH_TYPE(SET_OF)
    default: return fmi3Error;
    }
}

/* fmi3GetClock and fmi3SetClock (2.2.9). */
static fmi3Status get_clock(fmi3ValueReference reference, struct reply *reply)
{
    fmi3Clock is_active = fmi3ClockInactive;
    NEEDS(GetClock);
    fmi3Status status = fmu.GetClock(instance, &reference, 1, &is_active);
    reply->first = is_active ? 1 : 0;
    return status;
}

static fmi3Status set_clock(fmi3ValueReference reference)
{
    const fmi3Clock is_active = fmi3ClockActive;
    NEEDS(SetClock);
    return fmu.SetClock(instance, &reference, 1, &is_active);
}

/*
 * Intervals and shifts of Clocks (2.2.9). First the FMU is asked for a fraction. FMI allows that for a Clock with
 * supportsFraction alone, but a frame doesn't tell which Clocks have it: so where the library hasn't this function, or
 * answers Discard or Error, the decimal is asked for, and its count stands over R.
 */
static fmi3Status get_interval(fmi3ValueReference reference, struct reply *reply)
{
    fmi3Float64 interval = 0.0;
    fmi3IntervalQualifier qualifier = fmi3IntervalNotYetKnown;
    fmi3Status status = fmi3Discard;
    if (fmu.GetIntervalFraction != NULL)
        status = fmu.GetIntervalFraction(instance, &reference, 1, &reply->first, &reply->second, &qualifier);
    if (status == fmi3Discard || status == fmi3Error) {
        NEEDS(GetIntervalDecimal);
        status = fmu.GetIntervalDecimal(instance, &reference, 1, &interval, &qualifier);
        bool is_count = nearest_count(interval, &reply->first);
        bool is_told = qualifier == fmi3IntervalUnchanged || qualifier == fmi3IntervalChanged;
        if (is_good(status) && is_told && !is_count)
            return complain("the interval of a Clock is no count", "");
        reply->second = resolution;
    }
    if (is_good(status) && (qualifier < fmi3IntervalNotYetKnown || qualifier > fmi3IntervalChanged))
        return complain("the interval of a Clock has an unknown qualifier", "");
    if (qualifier == fmi3IntervalNotYetKnown)
        reply->first = reply->second = 0;
    reply->qualifier = (uint32_t)qualifier;
    return status;
}

static fmi3Status get_shift(fmi3ValueReference reference, struct reply *reply)
{
    fmi3Float64 shift = 0.0;
    fmi3Status status = fmi3Discard;
    if (fmu.GetShiftFraction != NULL)
        status = fmu.GetShiftFraction(instance, &reference, 1, &reply->first, &reply->second);
    if (status == fmi3Discard || status == fmi3Error) {
        NEEDS(GetShiftDecimal);
        status = fmu.GetShiftDecimal(instance, &reference, 1, &shift);
        if (is_good(status) && !nearest_count(shift, &reply->first))
            return complain("the shift of a Clock is no count", "");
        reply->second = resolution;
    }
    return status;
}

/* fmi3GetFMUState, fmi3SetFMUState and fmi3FreeFMUState (2.2.6): one state at a time. */
static fmi3Status save(void)
{
    NEEDS(GetFMUState);
    return saved_state == NULL ? fmu.GetFMUState(instance, &saved_state) : complain("a state is saved already", "");
}

static fmi3Status restore(void)
{
    NEEDS(SetFMUState);
    return saved_state != NULL ? fmu.SetFMUState(instance, saved_state) : complain("no state is saved", "");
}

static fmi3Status free_saved(void)
{
    NEEDS(FreeFMUState);
    if (saved_state == NULL)
        return complain("no state is saved", "");
    fmi3Status status = fmu.FreeFMUState(instance, &saved_state);
    if (is_good(status))
        saved_state = NULL;
    return status;
}

/* fmi3SerializedFMUStateSize and fmi3SerializeFMUState (2.2.6): the bytes of the state that is saved. */
static fmi3Status serialize(struct reply *reply)
{
    size_t size = 0;
    NEEDS(SerializedFMUStateSize);
    NEEDS(SerializeFMUState);
    if (saved_state == NULL)
        return complain("no state is saved", "");
    fmi3Status status = fmu.SerializedFMUStateSize(instance, saved_state, &size);
    if (!is_good(status))
        return status;
    if (size > LONGEST_STATE)
        return complain("a state has more than 2^20 bytes", "");
    unsigned char *room = realloc(state, size + 1);
    if (room == NULL)
        return complain("no memory for the bytes of a state", "");
    state = room;
    fmi3Status written = fmu.SerializeFMUState(instance, saved_state, state, size);
    reply->qualifier = (uint32_t)size;
    return written == fmi3OK ? status : written;
}

/* fmi3DeserializeFMUState (2.2.6): the bytes that came are the state that is saved. */
static fmi3Status deserialize(size_t size)
{
    NEEDS(DeserializeFMUState);
    return saved_state == NULL ? fmu.DeserializeFMUState(instance, state, size, &saved_state)
                               : complain("a state is saved already", "");
}

/* fmi3FreeInstance (2.3) has no status. */
static fmi3Status free_instance(void)
{
    NEEDS(FreeInstance);
    fmu.FreeInstance(instance);
    instance = NULL;
    return fmi3OK;
}

/* A change of state that has no arguments (2.3 and 4.2.1). */
#define CHANGE(name) { NEEDS(name); return fmu.name(instance); }

static fmi3Status answer(const struct call *call, struct reply *reply)
{
    if (call->kind == INSTANTIATE)
        return instantiate(call, reply);
    if (instance == NULL)
        return complain("there is no instance", "");
    switch (call->kind) {
    case ENTER_INITIALIZATION: return enter_initialization(call->first, call->second);
    case EXIT_INITIALIZATION: CHANGE(ExitInitializationMode)
    case ENTER_EVENT: CHANGE(EnterEventMode)
    case ENTER_STEP: CHANGE(EnterStepMode)
    case DO_STEP: return do_step(call->first, call->second, reply);
    case UPDATE: return update(reply);
    case GET: return get(call->type, call->reference, reply);
    case SET: return set(call->type, call->reference, call->first);
    case GET_CLOCK: return get_clock(call->reference, reply);
    case SET_CLOCK: return set_clock(call->reference);
    case GET_INTERVAL: return get_interval(call->reference, reply);
    case GET_SHIFT: return get_shift(call->reference, reply);
    case SAVE: return save();
    case RESTORE: return restore();
    case FREE: return free_saved();
    case SERIALIZE: return serialize(reply);
    case DESERIALIZE: return deserialize(call->reference);
    case TERMINATE: CHANGE(Terminate)
    default: return free_instance();
    }
}

/* ---- The program */

/* A number of counts from 1 to 2^62, in digits. */
static bool read_resolution(const char *word)
{
    if (*word == '\0' || strspn(word, "0123456789") != strlen(word) || strlen(word) > 19)
        return false;
    resolution = strtoull(word, NULL, 10);
    return resolution >= 1 && resolution <= MOST_COUNTS;
}

/* In thousandths of a second: how long an answer may take, or 0 for ever; when the answer that is awaited is late, or 0. */
static int64_t longest_answer;
static int64_t late;
static pthread_mutex_t late_lock = PTHREAD_MUTEX_INITIALIZER;

static int64_t now(void)
{
    struct timespec time;
    clock_gettime(CLOCK_MONOTONIC, &time);
    return (int64_t)time.tv_sec * 1000 + time.tv_nsec / 1000000;
}

static void await_answer(bool is_awaited)
{
    if (longest_answer == 0)
        return;
    pthread_mutex_lock(&late_lock);
    late = is_awaited ? now() + longest_answer : 0;
    pthread_mutex_unlock(&late_lock);
}

/*
 * A thread that ends the host where an answer is late. No answer is late sooner than the longest time from now on, so it
 * may sleep for that long. Standard error is written to only where that doesn't wait.
 */
static void *watch(void *nothing)
{
    (void)nothing;
    for (;;) {
        pthread_mutex_lock(&late_lock);
        int64_t left = late != 0 ? late - now() : longest_answer;
        pthread_mutex_unlock(&late_lock);
        if (left <= 0)
            break;
        poll(NULL, 0, (int)left);
    }
    char text[512];
    struct pollfd errors = {STDERR_FILENO, POLLOUT, 0};
    int length = snprintf(text, sizeof text, "fmi3_host: %.400s: no answer within %ld seconds\n", directory,
                          (long)(longest_answer / 1000));
    if (poll(&errors, 1, 0) == 1 && (errors.revents & POLLOUT) != 0 && write(STDERR_FILENO, text, (size_t)length) < 0)
        _exit(1);
    _exit(1);
}

/* FMI3_HOST_SECONDS: none, or a number of seconds in digits. The FMU's signals don't come to the thread that watches. */
static bool start_watch(void)
{
    const char *word = getenv("FMI3_HOST_SECONDS");
    if (word == NULL)
        return true;
    if (*word == '\0' || strspn(word, "0123456789") != strlen(word) || strlen(word) > 7)
        return false;
    long seconds_to_wait = strtol(word, NULL, 10);
    if (seconds_to_wait < 1 || seconds_to_wait > 1000000)
        return false;
    longest_answer = (int64_t)seconds_to_wait * 1000;
    sigset_t all, kept;
    sigfillset(&all);
    pthread_sigmask(SIG_SETMASK, &all, &kept);
    pthread_t watcher;
    bool is_started = pthread_create(&watcher, NULL, watch, NULL) == 0;
    pthread_sigmask(SIG_SETMASK, &kept, NULL);
    return is_started;
}

/* The descriptors of the two pipes. */
static int frames[2];

/* The process ends with the thread that started it. */
static void end_with_parent(void)
{
#ifdef __linux__
    prctl(PR_SET_PDEATHSIG, SIGKILL);
#endif
}

/* Whether nobody reads the replies any more, as where the parent ended before this process was bound to it. */
static bool is_left_alone(void)
{
    struct pollfd replies = {STDOUT_FILENO, 0, 0};
    return poll(&replies, 1, 0) == 1 && (replies.revents & POLLERR) != 0;
}

/*
 * A child that the FMU forks lets go of the pipes, else the master would wait for it where the FMU crashed; and it ends
 * with the thread that forked it. One that was left before that is bound to another process.
 */
static pid_t forking;
static bool is_child;

static void before_fork(void)
{
    forking = getpid();
}

static void in_child(void)
{
    is_child = true;
    close(frames[0]);
    close(frames[1]);
    end_with_parent();
    if (getppid() != forking)
        _exit(1);
}

/*
 * Frames go over copies of standard input and output, which the FMU's own children don't get. In their places stand an
 * empty input and standard error: so what the FMU prints can't stand among the replies.
 */
static bool take_streams(FILE **calls, FILE **replies)
{
    int in = fcntl(STDIN_FILENO, F_DUPFD_CLOEXEC, 3);
    int out = fcntl(STDOUT_FILENO, F_DUPFD_CLOEXEC, 3);
    int empty = open("/dev/null", O_RDWR | O_CLOEXEC);
    if (in < 0 || out < 0 || empty < 0 || dup2(empty, STDIN_FILENO) < 0)
        return false;
    if (dup2(STDERR_FILENO, STDOUT_FILENO) < 0 && dup2(empty, STDOUT_FILENO) < 0)
        return false;
    *calls = fdopen(in, "rb");
    *replies = fdopen(out, "wb");
    frames[0] = in;
    frames[1] = out;
    setvbuf(stdout, NULL, _IOLBF, 0); /* a line that the FMU printed isn't lost in a crash */
    return *calls != NULL && *replies != NULL && pthread_atfork(before_fork, NULL, in_child) == 0;
}

int main(int count, char **words)
{
    if (count != 3 || *words[1] == '\0' || !read_resolution(words[2])) {
        fprintf(stderr, "usage: fmi3_host DIR R\n");
        return 2;
    }
    directory = words[1];
    end_with_parent();
    if (is_left_alone())
        return 1;
    if (!start_watch()) {
        complain("FMI3_HOST_SECONDS is no number from 1 to 1000000", "");
        return 2;
    }
    FILE *calls, *replies;
    if (!take_streams(&calls, &replies)) {
        complain("can't set up its streams", "");
        return 1;
    }
    static struct frame frame;
    for (;;) {
        switch (read_frame(calls, &frame)) {
        case THE_END: await_answer(true); return 0;
        case NO_FRAME: complain("the input is no frame", ""); return 1;
        case A_FRAME: break;
        }
        static struct reply given[MOST_CALLS];
        int count = 0;
        do { /* the calls of a batch in their order, up to the first whose answer isn't good */
            await_answer(true);
            struct reply *reply = &given[count];
            *reply = (struct reply){fmi3OK, 0, 0, 0, 0};
            fmi3Status status = answer(&frame.calls[count], reply);
            if (is_child)
                _exit(1); /* the call came back in a child too, which has nobody to answer, and nothing of the FMU to end */
            bool is_known = status >= fmi3OK && status <= fmi3Fatal;
            reply->status = is_known ? status : complain("a status that FMI doesn't have", "");
            count++;
        } while (count < frame.count && is_good(given[count - 1].status));
        if (!write_replies(replies, &frame, given, count))
            return 1;
        bool is_last = frame.calls[0].kind == FREE_INSTANCE;
        await_answer(is_last); /* its own end may take no longer either: the library may hang in it */
        if (is_last)
            return 0;
    }
}
