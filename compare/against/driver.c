// Answers questions about byte slices by the functions that the proved code exports. It is built for x86-64 Linux, as they are. All of it runs on a thread
// with 32 KiB of stack.
//
// A batch on standard input is the number of its bytes, then for each slice: its length, how many questions there are about it, its bytes, and for each
// question its kind and its argument. Once the whole batch has come, the answers are written to standard output: the number of their bytes, then the
// words of each. Every number is a word, of eight bytes, the lowest first. The end of the input between two batches ends the program.

#include "zabgurin.h"

typedef uint8_t byte;
typedef uint64_t word;
_Static_assert(sizeof(size_t) == 8 && sizeof(void *) == 8, "a word is a size and a u64");

// The C library, declared here since not every compiler that builds this has its headers.
long read(int file, void *bytes, word length);
long write(int file, const void *bytes, word length);
void *mmap(void *address, word length, int protection, int flags, int file, long offset);
int mprotect(void *address, word length, int protection);
void *realloc(void *old, word length);
void *memcpy(void *to, const void *from, word length);
void *memset(void *to, int b, word length);
int memcmp(const void *a, const void *b, word length);
_Noreturn void _exit(int status);
// Of its threads only the attributes' size matters here, and they have 56 bytes.
union attributes {
    byte bytes[64];
    word aligned;
};
int pthread_attr_init(union attributes *attributes);
int pthread_attr_setstack(union attributes *attributes, void *stack, word length);
int pthread_create(word *thread, const union attributes *attributes, void *(*run)(void *), void *argument);
int pthread_join(word thread, void **result);

enum { LISTED, LABEL_LEN, READ, LABEL, PLAN, CHEAPEST, HEFT, PRINT, PRINT_CHEAPEST, PRINT_HEFT, RANGE, START, WHY, NOTHING, DEEPEST, TAKEN };
// The planners and the printers have the same arguments. Which of them a question asks, if one.
typedef struct zabgurin_answer planner(const byte *, word, word *, word, word *, word, word *, word, word *, word);
typedef word printer(const byte *, word, byte *, word);
static planner *planner_of(word kind) {
    return kind == PLAN ? zabgurin_plan : kind == CHEAPEST ? zabgurin_cheapest : kind == HEFT ? zabgurin_heft : 0;
}
static printer *printer_of(word kind) {
    return kind == PRINT ? zabgurin_print : kind == PRINT_CHEAPEST ? zabgurin_print_cheapest : kind == PRINT_HEFT ? zabgurin_print_heft : 0;
}
// How the program ends where it does not end well.
enum { CUT_INPUT = 10, BAD_INPUT, NO_OUTPUT, NO_MEMORY, WRITTEN_TO, NO_THREAD };
// The poison before a slice, and what memory is taken in: no smaller than a page.
enum { POISON = 64, PAGE = 1 << 16 };
// The stack, and the buffers of a plan.
enum { STACK = 32 << 10, BUFFERS = 4, MOST_ROWS = 1 << 10 };

// Some bytes that grow as needed.
struct buffer {
    byte *bytes;
    word length, room;
};

static byte *more(struct buffer *buffer, word length) {
    if (buffer->length + length > buffer->room) {
        buffer->room = 2 * (buffer->length + length);
        buffer->bytes = realloc(buffer->bytes, buffer->room);
        if (!buffer->bytes)
            _exit(NO_MEMORY);
    }
    buffer->length += length;
    return buffer->bytes + buffer->length - length;
}

static void put(struct buffer *buffer, const void *words, word length) {
    memcpy(more(buffer, length), words, length);
}

// The next bytes of a batch.
static const byte *take(const byte **at, const byte *end, word length) {
    const byte *taken = *at;
    if (length > (word)(end - taken))
        _exit(BAD_INPUT);
    *at += length;
    return taken;
}

static word take_word(const byte **at, const byte *end) {
    word w;
    memcpy(&w, take(at, end, sizeof w), sizeof w);
    return w;
}

// Reads so many bytes, or none where the input is at its end.
static int fill(byte *bytes, word length) {
    word done = 0;
    while (done < length) {
        long count = read(0, bytes + done, length - done);
        if (count <= 0) {
            if (count == 0 && done == 0)
                return 0;
            _exit(CUT_INPUT);
        }
        done += count;
    }
    return 1;
}

static void pour(const byte *bytes, word length) {
    while (length > 0) {
        long count = write(1, bytes, length);
        if (count <= 0)
            _exit(NO_OUTPUT);
        bytes += count;
        length -= count;
    }
}

// The end of so much memory to read and write, behind which is memory that nothing can reach. It is private and of no file.
static byte *end_of_room(word room) {
    byte *start = mmap(0, room + PAGE, 1 | 2, 2 | 32, -1, 0), *end = start + room;
    if (start == (byte *)-1 || mprotect(end, PAGE, 0) != 0)
        _exit(NO_MEMORY);
    return end;
}

static void poison(byte *slice) {
    memset(slice - POISON, 0xa5, POISON);
}

static void check_poison(const byte *slice) {
    for (word k = 1; k <= POISON; k++)
        if (slice[-(long)k] != 0xa5)
            _exit(WRITTEN_TO);
}

// A copy of a slice, with poison before it and behind it memory that nothing can reach.
static byte *place(const byte *slice, word length) {
    static byte *end;
    static word room;
    if (length + POISON > room) {
        room = (length + POISON + PAGE) / PAGE * PAGE;
        end = end_of_room(room);
    }
    poison(end - length);
    return memcpy(end - length, slice, length);
}

// What the numbers of a buffer are before a plan.
static word before(word buffer, word k) {
    return 0xfeed0000 + 0x10000 * buffer + k;
}

// The buffers of a plan, and how many numbers each has.
struct lent {
    word *at[BUFFERS], length[BUFFERS];
};

// Lends buffers of so many numbers, the first's in the lowest sixteen bits.
static struct lent lend(word lengths) {
    static byte *ends[BUFFERS];
    struct lent to;
    for (word b = 0; b < BUFFERS; b++) {
        to.length[b] = lengths >> 16 * b & 0xffff;
        if (to.length[b] > MOST_ROWS)
            _exit(BAD_INPUT);
        if (!ends[b])
            ends[b] = end_of_room(PAGE);
        to.at[b] = (word *)ends[b] - to.length[b];
        poison((byte *)to.at[b]);
        for (word k = 0; k < to.length[b]; k++)
            to.at[b][k] = before(b, k);
    }
    return to;
}

// Asks for a plan in buffers of so many numbers. The answer's words are followed by those of each buffer.
static void plan(struct buffer *answers, planner *by, const byte *slice, word length, word lengths) {
    struct lent to = lend(lengths);
    struct zabgurin_answer answer = by(slice, length, to.at[0], to.length[0], to.at[1], to.length[1], to.at[2], to.length[2], to.at[3], to.length[3]);
    put(answers, &answer, sizeof answer);
    for (word b = 0; b < BUFFERS; b++) {
        check_poison((byte *)to.at[b]);
        put(answers, to.at[b], to.length[b] * sizeof(word));
    }
}

// Lends so much room for a text.
static byte *lend_room(word room) {
    static byte *end;
    if (room > PAGE - POISON)
        _exit(BAD_INPUT);
    if (!end)
        end = end_of_room(PAGE);
    byte *text = end - room;
    poison(text);
    return memset(text, '#', room);
}

// Asks for the text with so much room for it. The answer's word is followed by the bytes of the room, each as a word.
static void print(struct buffer *answers, printer *by, const byte *slice, word length, word room) {
    byte *text = lend_room(room);
    word answer = by(slice, length, text, room);
    put(answers, &answer, sizeof answer);
    check_poison(text);
    for (word k = 0; k < room; k++) {
        word b = text[k];
        put(answers, &b, sizeof b);
    }
}

// What comes back for no request and no buffers, all of them null.
static void nothing(struct buffer *answers) {
    for (word kind = PLAN; kind <= HEFT; kind++) {
        struct zabgurin_answer answer = planner_of(kind)(0, 0, 0, 0, 0, 0, 0, 0, 0, 0);
        put(answers, &answer, sizeof answer);
    }
    struct zabgurin_costs costs = zabgurin_range(0, 0);
    put(answers, &costs, sizeof costs);
    struct zabgurin_reason reason = zabgurin_why(0, 0, 0, 0);
    put(answers, &reason, sizeof reason);
    struct zabgurin_reading reading = zabgurin_read(0, 0);
    put(answers, &reading, sizeof reading);
    struct zabgurin_part part = zabgurin_label(0, 0, 0);
    put(answers, &part, sizeof part);
    for (word kind = PRINT; kind <= PRINT_HEFT; kind++) {
        word text = printer_of(kind)(0, 0, 0, 0);
        put(answers, &text, sizeof text);
    }
    word len = zabgurin_label_len(0, 0, 0);
    put(answers, &len, sizeof len);
}

// The stack that all runs on, with memory below it that nothing can reach. It is full of paint at first.
enum { PAINT = 0x5a };
byte *stack;

// How many bytes of the stack were ever used: those of the thread itself and of this program are among them.
static word deepest(void) {
    static word most;
    word unused = 0;
    while (unused < STACK && stack[unused] == PAINT)
        unused++;
    if (STACK - unused > most)
        most = STACK - unused;
    return most;
}

// A call whose stack is measured goes by way of `measured`, which notes where the return address stands, paints all of the stack below it, and goes on to the
// function with the arguments as they came. The compiler sees nothing of that, so what is named there is not static.
byte paint;
byte *return_address;
void (*function)(void);
void measured(void);
__asm__(".pushsection .text\n"
        "measured:\n"
        "    mov %rsp, return_address(%rip)\n"
        "    mov %rdi, %r10\n"
        "    mov %rcx, %r11\n"
        "    mov stack(%rip), %rdi\n"
        "    mov %rsp, %rcx\n"
        "    sub %rdi, %rcx\n"
        "    mov paint(%rip), %al\n"
        "    rep stosb\n"
        "    mov %r10, %rdi\n"
        "    mov %r11, %rcx\n"
        "    jmp *function(%rip)\n"
        ".popsection\n");
#define MEASURED_AS(type, name) (function = (void (*)(void))(name), (type)measured)
#define MEASURED(name) MEASURED_AS(__typeof__(&name), name)

// Makes a call of the kind that a question has, and gives the first word of its answer; a label's length. A plan has four buffers of the same length. For
// WHY the task is in the lowest sixteen bits, and the start above it.
static word call(const byte *slice, word length, word kind, word argument) {
    if (kind == LISTED)
        return MEASURED(zabgurin_listed)(argument);
    if (kind == LABEL_LEN)
        return MEASURED(zabgurin_label_len)(slice, length, argument);
    if (kind == READ)
        return MEASURED(zabgurin_read)(slice, length).number;
    if (kind == LABEL)
        return MEASURED(zabgurin_label)(slice, length, argument).length;
    if (kind == RANGE)
        return MEASURED(zabgurin_range)(slice, length).number;
    if (kind == WHY)
        return MEASURED(zabgurin_why)(slice, length, argument & 0xffff, argument >> 16).number;
    if (printer_of(kind))
        return MEASURED_AS(printer *, printer_of(kind))(slice, length, lend_room(argument), argument);
    if (!planner_of(kind))
        _exit(BAD_INPUT);
    struct lent to = lend(argument * 0x0001000100010001);
    return MEASURED_AS(planner *, planner_of(kind))(slice, length, to.at[0], to.length[0], to.at[1], to.length[1], to.at[2], to.length[2], to.at[3], to.length[3]).number;
}

// How many bytes of stack a call takes: from the lowest that it changes up to its return address. That is counted, and so is what memcpy and memset of the C
// library take; the caller's frame is not, nor the arguments that stand there. The first call does not count: in it the dynamic linker may have to look for
// memcpy and memset. The two after it have different paints, so that each byte written is changed in one of them. Nothing is called between a call and the look
// at its stack. The first word of the call's answer follows.
static void taken(struct buffer *answers, const byte *slice, word length, word kind, word argument) {
    static const byte paints[] = {PAINT, (byte)~PAINT, PAINT};
    word most = 0, first = 0;
    deepest();
    for (word k = 0; k < sizeof paints; k++) {
        paint = paints[k];
        first = call(slice, length, kind, argument);
        const byte *lowest = stack;
        while (lowest < return_address && *lowest == paint)
            lowest++;
        word bytes = return_address + sizeof(word) - lowest;
        if (k > 0 && bytes > most)
            most = bytes;
    }
    put(answers, &most, sizeof most);
    put(answers, &first, sizeof first);
}

// Answers one question about a slice that stands in its place. START has no answer: it says the start that WHY is asked with from there on.
static void answer(struct buffer *answers, const byte *slice, word length, word kind, word argument) {
    static word start;
    if (kind == LISTED) {
        word listed = zabgurin_listed(argument);
        put(answers, &listed, sizeof listed);
    } else if (kind == LABEL_LEN) {
        word len = zabgurin_label_len(slice, length, argument);
        put(answers, &len, sizeof len);
    } else if (kind == READ) {
        struct zabgurin_reading reading = zabgurin_read(slice, length);
        put(answers, &reading, sizeof reading);
    } else if (kind == LABEL) {
        struct zabgurin_part part = zabgurin_label(slice, length, argument);
        put(answers, &part, sizeof part);
    } else if (planner_of(kind)) {
        plan(answers, planner_of(kind), slice, length, argument);
    } else if (printer_of(kind)) {
        print(answers, printer_of(kind), slice, length, argument);
    } else if (kind == RANGE) {
        struct zabgurin_costs costs = zabgurin_range(slice, length);
        put(answers, &costs, sizeof costs);
    } else if (kind == START) {
        start = argument;
    } else if (kind == WHY) {
        struct zabgurin_reason reason = zabgurin_why(slice, length, argument, start);
        put(answers, &reason, sizeof reason);
    } else if (kind == NOTHING) {
        nothing(answers);
    } else if (kind == DEEPEST) {
        word used = deepest();
        put(answers, &used, sizeof used);
    } else if (kind == TAKEN) {
        // The argument has the call's kind in its lowest byte, and the call's argument above it.
        taken(answers, slice, length, argument & 0xff, argument >> 8);
    } else {
        _exit(BAD_INPUT);
    }
}

static void *serve(void *nothing) {
    struct buffer batch = {0}, answers = {0};
    word length;
    while (fill((byte *)&length, sizeof length)) {
        if (length >> 32 != 0)
            _exit(BAD_INPUT);
        batch.length = 0;
        const byte *at = more(&batch, length), *end = at + length;
        if (length > 0 && !fill(batch.bytes, length))
            _exit(CUT_INPUT);
        answers.length = 0;
        more(&answers, sizeof(word));
        while (at < end) {
            word slice_length = take_word(&at, end), questions = take_word(&at, end);
            const byte *given = take(&at, end, slice_length), *slice = place(given, slice_length);
            for (; questions > 0; questions--) {
                word kind = take_word(&at, end), argument = take_word(&at, end);
                answer(&answers, slice, slice_length, kind, argument);
            }
            if (memcmp(slice, given, slice_length) != 0)
                _exit(WRITTEN_TO);
            check_poison(slice);
        }
        length = answers.length - sizeof(word);
        memcpy(answers.bytes, &length, sizeof length);
        pour(answers.bytes, answers.length);
    }
    return nothing;
}

int main(void) {
    // Memory to read and write, private and of no file, the first page of it then to do nothing with.
    byte *room = mmap(0, PAGE + STACK, 1 | 2, 2 | 32, -1, 0);
    if (room == (byte *)-1 || mprotect(room, PAGE, 0) != 0)
        _exit(NO_MEMORY);
    stack = memset(room + PAGE, PAINT, STACK);
    union attributes attributes;
    word thread;
    if (pthread_attr_init(&attributes) != 0 || pthread_attr_setstack(&attributes, stack, STACK) != 0 || pthread_create(&thread, &attributes, serve, 0) != 0 ||
        pthread_join(thread, 0) != 0)
        _exit(NO_THREAD);
    return 0;
}
