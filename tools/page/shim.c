/* What the program asks of its outside, for a page. One source and one output lie in memory, and the words of the
   command line come from the page. An instance runs once: nothing is closed or flushed. */
typedef unsigned char byte;
typedef unsigned long size;
typedef long ssize;
typedef unsigned long long half;
typedef unsigned __int128 wide;
typedef __int128 signed_wide;

#define EXPORT(name) __attribute__((export_name(#name))) name
#define PAGE 65536ul
#define NO_SPACE 28

/* Memory: blocks of powers of two, each with its power in the 16 bytes before it. Freed blocks are in lists. */

enum { LEAST_POWER = 5, POWERS = 64, HEADER = 16 };
extern byte __heap_base;
static byte *top;
static byte *freed[POWERS];

static byte *grow(size length) {
    if (!top) top = (byte *)(((size)&__heap_base + 15) & ~15ul);
    size room = __builtin_wasm_memory_size(0) * PAGE - (size)top;
    if (length > room) {
        size pages = (length - room + PAGE - 1) / PAGE;
        if (__builtin_wasm_memory_grow(0, pages) == (size)-1) return 0;
    }
    byte *block = top;
    top += length;
    return block;
}

static byte *take(size length) {
    int power = LEAST_POWER;
    while (power < POWERS && ((size)1 << power) - HEADER < length) power++;
    if (power == POWERS) return 0;
    byte *block = freed[power];
    if (block) freed[power] = *(byte **)(block + HEADER);
    else block = grow((size)1 << power);
    if (!block) return 0;
    *(int *)block = power;
    return block + HEADER;
}

static size room_of(byte *at) { return ((size)1 << *(int *)(at - HEADER)) - HEADER; }

static void give(byte *at) {
    int power = *(int *)(at - HEADER);
    *(byte **)at = freed[power];
    freed[power] = at - HEADER;
}

void *memcpy(void *into, const void *from, size length) {
    for (size at = 0; at < length; at++) ((byte *)into)[at] = ((const byte *)from)[at];
    return into;
}

void *memmove(void *into, const void *from, size length) {
    if ((byte *)into < (const byte *)from) return memcpy(into, from, length);
    while (length--) ((byte *)into)[length] = ((const byte *)from)[length];
    return into;
}

void *memset(void *into, int value, size length) {
    for (size at = 0; at < length; at++) ((byte *)into)[at] = (byte)value;
    return into;
}

int memcmp(const void *one, const void *other, size length) {
    const byte *first = one, *second = other;
    for (size at = 0; at < length; at++)
        if (first[at] != second[at]) return first[at] < second[at] ? -1 : 1;
    return 0;
}

int bcmp(const void *one, const void *other, size length) { return memcmp(one, other, length); }

/* The allocator that Rattle's programs call. No block has an alignment above that of the headers: one that is asked for
   ends the run. */

struct got {
    size is_there;
    void *at;
};

struct got rattle_alloc(size length, size alignment) {
    if (alignment > HEADER) __builtin_trap();
    void *at = take(length);
    return (struct got){at != 0, at ? at : (void *)alignment};
}

struct got rattle_realloc(void *at, size kept, size length, size alignment) {
    size room = room_of(at);
    if (length <= room) return (struct got){1, at};
    void *other = take(length);
    if (!other) return (struct got){0, (void *)alignment};
    memcpy(other, at, kept < room ? kept : room);
    give(at);
    return (struct got){1, other};
}

void rattle_dealloc(void *at) { give(at); }

/* The system: words, one file to read, and one output. */

enum { MOST_WORDS = 16 };
static const byte *words[MOST_WORDS];
static size lengths[MOST_WORDS], count;
static byte *source, *output;
static size source_length, source_at, written, output_room;
static int fault;

ssize rattle_arg(size number, byte *into, size room) {
    if (number >= count) return -1;
    size length = lengths[number];
    memcpy(into, words[number], length < room ? length : room);
    return (ssize)length;
}

ssize rattle_env(const byte *name, byte *into, size room) { return -1; }
ssize rattle_env_at(size number, byte *into, size room) { return -1; }
int rattle_errno(void) { return fault; }
void rattle_set_errno(int value) { fault = value; }
size __sysv_signal(int number, size handler) { return 0; }
ssize __write(int file, const void *from, size length) { return (ssize)length; }

/* At its start the program asks for the instructions that it was compiled for, and says on standard error where one is
   missing. Here other instructions stand for all of them. */
const void *__x86_get_cpuid_feature_leaf(unsigned leaf) {
    static const unsigned all[8] = {~0u, ~0u, ~0u, ~0u, ~0u, ~0u, ~0u, ~0u};
    return all;
}

int open(const char *path, int flags, ...) {
    source_at = 0;
    return 3;
}

int close(int file) { return 0; }

ssize read(int file, void *into, size room) {
    size left = source_length - source_at, length = left < room ? left : room;
    memcpy(into, source + source_at, length);
    source_at += length;
    return (ssize)length;
}

ssize write(int file, const void *from, size length) {
    if (length > output_room - written) {
        size room = 2 * (written + length);
        byte *other = take(room);
        if (!other) {
            fault = NO_SPACE;
            return -1;
        }
        memcpy(other, output, written);
        if (output) give(output);
        output = other;
        output_room = room;
    }
    memcpy(output + written, from, length);
    written += length;
    return (ssize)length;
}

/* Arithmetic of 128 bits that the processor has not. The shifts by halves call nothing of this list. */

union parts {
    signed_wide all;
    struct {
        half low, high;
    } of;
};

signed_wide __ashlti3(signed_wide value, int by) {
    union parts from = {value}, to = {value};
    if (by >= 64) to.of.high = from.of.low << (by - 64), to.of.low = 0;
    else if (by > 0) to.of.high = from.of.high << by | from.of.low >> (64 - by), to.of.low = from.of.low << by;
    return to.all;
}

signed_wide __lshrti3(signed_wide value, int by) {
    union parts from = {value}, to = {value};
    if (by >= 64) to.of.low = from.of.high >> (by - 64), to.of.high = 0;
    else if (by > 0) to.of.low = from.of.low >> by | from.of.high << (64 - by), to.of.high = from.of.high >> by;
    return to.all;
}

signed_wide __ashrti3(signed_wide value, int by) {
    union parts from = {value}, to = {value};
    long long high = (long long)from.of.high;
    if (by >= 64) to.of.low = (half)(high >> (by - 64)), to.of.high = (half)(high >> 63);
    else if (by > 0) to.of.low = from.of.low >> by | from.of.high << (64 - by), to.of.high = (half)(high >> by);
    return to.all;
}

signed_wide __multi3(signed_wide one, signed_wide other) {
    union parts a = {one}, b = {other}, to;
    half a_low = (unsigned)a.of.low, a_high = a.of.low >> 32, b_low = (unsigned)b.of.low, b_high = b.of.low >> 32;
    half low = a_low * b_low, middle = a_high * b_low + (low >> 32), other_middle = a_low * b_high + (unsigned)middle;
    to.of.low = other_middle << 32 | (unsigned)low;
    to.of.high = a_high * b_high + (middle >> 32) + (other_middle >> 32) + a.of.high * b.of.low + a.of.low * b.of.high;
    return to.all;
}

static wide divide(wide value, wide by, wide *rest) {
    wide quotient = 0, left = 0;
    for (int bit = 127; bit >= 0; bit--) {
        left = left << 1 | (value >> bit & 1);
        if (left >= by) left -= by, quotient |= (wide)1 << bit;
    }
    *rest = left;
    return quotient;
}

static wide size_of_value(signed_wide value) { return value < 0 ? -(wide)value : (wide)value; }

wide __udivti3(wide value, wide by) {
    wide rest;
    return divide(value, by, &rest);
}

wide __umodti3(wide value, wide by) {
    wide rest;
    divide(value, by, &rest);
    return rest;
}

signed_wide __divti3(signed_wide value, signed_wide by) {
    wide rest, quotient = divide(size_of_value(value), size_of_value(by), &rest);
    return (signed_wide)((value < 0) != (by < 0) ? -quotient : quotient);
}

signed_wide __modti3(signed_wide value, signed_wide by) {
    wide rest;
    divide(size_of_value(value), size_of_value(by), &rest);
    return (signed_wide)(value < 0 ? -rest : rest);
}

/* For the page: room for the source and for the words, a run, and the output. */

extern int program(void);

byte *EXPORT(room_for_source)(size length) {
    source_length = length;
    return source = take(length);
}

byte *EXPORT(room_for_words)(size length) { return take(length); }

/* Runs the program with words of which each ends with a line feed; gives its status. */
int EXPORT(run)(const byte *text, size length) {
    words[0] = (const byte *)"matchcheck";
    lengths[0] = 10;
    count = 1;
    for (size at = 0, from = 0; at < length && count < MOST_WORDS; at++)
        if (text[at] == '\n') {
            words[count] = text + from;
            lengths[count++] = at - from;
            from = at + 1;
        }
    return program();
}

byte *EXPORT(output_at)(void) { return output; }
size EXPORT(output_length)(void) { return written; }
