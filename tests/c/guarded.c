/*
 * The C library on buffers that stand between pages that nobody may touch: a read or write outside a lent buffer
 * ends the test, and so does a write to a buffer that is only lent for reading.
 *
 *     guarded CASES [SEED EACH]
 *
 * CASES is a file in the format of compare/cases, or - for standard input: each case is called, and result, answer
 * and record are held to it. Behind each come EACH further calls, the same with damaged tables, words and lengths. Of
 * these the answer is not known beforehand: it has to be well formed, and the same wherever the buffers stand. Last
 * come calls with an empty buffer, and tables nested 24 deep with the stack that they take.
 */
#define _GNU_SOURCE
#include "simazokwa.h"

#include <pthread.h>
#include <signal.h>
#include <stdarg.h>
#include <stdio.h>
#include <stdlib.h>
#include <string.h>
#include <sys/mman.h>
#include <unistd.h>

#define MOST_WORDS 8192
#define MOST_BYTES (8 * MOST_WORDS) /* of an area, a multiple of the page size, be it 4, 16 or 64 KiB */
#define STACK (1 << 20)      /* of a thread */
#define MOST_STACK (160 << 10) /* what simazokwa.h says of a call */

static long line;             /* of the case */
static const char *stage = ""; /* what is being done with it */

static _Noreturn void fail(const char *format, ...)
{
    va_list rest;
    va_start(rest, format);
    fprintf(stderr, "guarded: line %ld, %s: ", line, stage);
    vfprintf(stderr, format, rest);
    fputc('\n', stderr);
    exit(1);
}

static void touched(int signal)
{
    static const char said[] = "guarded: memory was touched that was not lent\n";
    (void)signal;
    if (write(2, said, sizeof said - 1) < 0) _exit(3);
    _exit(1);
}

/* ---- areas between guard pages */

struct area {
    unsigned char *start; /* MOST_BYTES bytes, a guard page before and behind them */
};

static struct area reserve(void)
{
    size_t page = (size_t)sysconf(_SC_PAGESIZE);
    unsigned char *all = mmap(NULL, MOST_BYTES + 2 * page, PROT_NONE, MAP_PRIVATE | MAP_ANONYMOUS, -1, 0);
    if (all == MAP_FAILED || mprotect(all + page, MOST_BYTES, PROT_READ | PROT_WRITE) != 0) fail("no memory");
    return (struct area){all + page};
}

/* Where so many bytes stand: right behind the first guard page or right before the second. */
static void *placed(struct area area, size_t bytes, int high)
{
    return high ? area.start + MOST_BYTES - bytes : area.start;
}

static void allow(struct area area, int how)
{
    if (mprotect(area.start, MOST_BYTES, how) != 0) fail("mprotect");
}

/* ---- calls */

enum kind { TABLE, RUN, PATCH };

struct call {
    enum kind kind;
    uint8_t table[MOST_BYTES];
    size_t table_len;
    int64_t limit;
    int64_t words[MOST_WORDS]; /* a run's inputs, a patch's old record */
    size_t words_len;
    int64_t changes[MOST_WORDS];
    size_t changes_len;
    size_t room;
};

struct outcome {
    uint32_t result;
    int64_t answer[SIMAZOKWA_ANSWER_WORDS];
    int64_t record[MOST_WORDS];
};

static struct area table_area, words_area, changes_area, answer_area, record_area;

static const void *lent(struct area area, const void *from, size_t bytes, int high)
{
    allow(area, PROT_READ | PROT_WRITE);
    void *to = placed(area, bytes, high);
    memcpy(to, from, bytes);
    allow(area, PROT_READ);
    return to;
}

/* Makes the call with its buffers at the low or the high end of their areas; null stands for what is empty. */
static void make(const struct call *call, int high, int null, struct outcome *out)
{
    const uint8_t *table = lent(table_area, call->table, call->table_len, high);
    const int64_t *words = lent(words_area, call->words, 8 * call->words_len, high);
    const int64_t *changes = lent(changes_area, call->changes, 8 * call->changes_len, high);
    int64_t *answer = placed(answer_area, 8 * SIMAZOKWA_ANSWER_WORDS, high);
    int64_t *record = placed(record_area, 8 * call->room, high);
    if (null && call->table_len == 0) table = NULL;
    if (null && call->words_len == 0) words = NULL;
    if (null && call->changes_len == 0) changes = NULL;
    if (null && call->room == 0) record = NULL;
    memset(answer_area.start, 0x5a, MOST_BYTES);
    memset(record_area.start, 0x5a, MOST_BYTES);
    switch (call->kind) {
    case TABLE:
        out->result = simazokwa_check(table, call->table_len);
        return;
    case RUN:
        out->result = simazokwa_run(table, call->table_len, words, call->words_len, call->limit, answer, record, call->room);
        break;
    case PATCH:
        out->result = simazokwa_patch(table, call->table_len, words, call->words_len, changes, call->changes_len, answer, record, call->room);
        break;
    }
    memcpy(out->answer, answer, sizeof out->answer);
    if (call->room != 0) memcpy(out->record, record, 8 * call->room);
}

static void same(const struct call *call, const struct outcome *a, const struct outcome *b)
{
    if (a->result != b->result) fail("result %u and %u", a->result, b->result);
    if (call->kind == TABLE) return;
    for (int i = 0; i < SIMAZOKWA_ANSWER_WORDS; i++)
        if (a->answer[i] != b->answer[i]) fail("answer word %d: %lld and %lld", i, (long long)a->answer[i], (long long)b->answer[i]);
    for (size_t i = 0; i < call->room; i++)
        if (a->record[i] != b->record[i]) fail("record word %zu: %lld and %lld", i, (long long)a->record[i], (long long)b->record[i]);
}

/* What the header says of every answer. */
static void well_formed(const struct call *call, const struct outcome *out)
{
    const int64_t *a = out->answer;
    size_t length = 0;
    if (out->result > 12) fail("result %u", out->result);
    if (call->kind == TABLE) return;
    if (a[SIMAZOKWA_NUMBER] != out->result) fail("number %lld, result %u", (long long)a[SIMAZOKWA_NUMBER], out->result);
    if (a[SIMAZOKWA_PLACE] != 0 || a[7] != 0) fail("place or free word not 0");
    if (out->result != 0) {
        for (int i = 1; i < SIMAZOKWA_ANSWER_WORDS; i++)
            if (a[i] != 0) fail("refused, and answer word %d is %lld", i, (long long)a[i]);
    } else {
        length = (size_t)a[SIMAZOKWA_LENGTH];
        if (length > call->room || out->record[0] != a[SIMAZOKWA_LENGTH]) fail("length %zu", length);
        if (a[SIMAZOKWA_STEPS] != a[SIMAZOKWA_WALKED] + a[SIMAZOKWA_REUSED] + a[SIMAZOKWA_FRESH]) fail("steps do not add up");
        if (a[SIMAZOKWA_STEPS] < 1 || a[SIMAZOKWA_STEPS] > SIMAZOKWA_MOST_STEPS) fail("steps %lld", (long long)a[SIMAZOKWA_STEPS]);
    }
    for (size_t i = length; i < call->room; i++)
        if (out->record[i] != 0) fail("record word %zu behind the record is %lld", i, (long long)out->record[i]);
}

/* The call at both ends of its areas, and with null for what is empty: one outcome. */
static struct outcome *called(const struct call *call)
{
    static struct outcome low, other;
    stage = "low end";
    make(call, 0, 0, &low);
    well_formed(call, &low);
    stage = "high end";
    make(call, 1, 0, &other);
    same(call, &low, &other);
    stage = "null where empty";
    make(call, 0, 1, &other);
    same(call, &low, &other);
    return &low;
}

/* ---- cases */

static char *token(void)
{
    char *got = strtok(NULL, " \n");
    if (got == NULL) fail("the line ends too soon");
    return got;
}

static int64_t number(void)
{
    char *end, *got = token();
    long long value = strtoll(got, &end, 10);
    if (*end != 0) fail("no number: %s", got);
    return value;
}

static size_t counted(size_t most)
{
    int64_t value = number();
    if (value < 0 || (uint64_t)value > most) fail("too large: %lld", (long long)value);
    return (size_t)value;
}

static void expect_word(const char *word)
{
    if (strcmp(token(), word) != 0) fail("no '%s' where it should be", word);
}

static size_t words(int64_t *to)
{
    size_t count = counted(MOST_WORDS);
    for (size_t i = 0; i < count; i++) to[i] = number();
    return count;
}

/* A line of the file: the call, and what it says that comes of it. */
static void read_case(char *text, struct call *call, struct outcome *expected)
{
    const char *kind = strtok(text, " \n"), *hex;
    memset(expected, 0, sizeof *expected);
    call->kind = strcmp(kind, "table") == 0 ? TABLE : strcmp(kind, "run") == 0 ? RUN : PATCH;
    hex = token();
    call->table_len = strcmp(hex, "-") == 0 ? 0 : strlen(hex) / 2;
    if (call->table_len > MOST_BYTES) fail("the table is too long");
    for (size_t i = 0; i < call->table_len; i++) {
        unsigned byte = 0;
        if (sscanf(hex + 2 * i, "%2x", &byte) != 1) fail("no hex");
        call->table[i] = (uint8_t)byte;
    }
    call->words_len = call->changes_len = call->room = 0;
    if (call->kind == RUN) {
        call->limit = number();
        call->words_len = words(call->words);
    } else if (call->kind == PATCH) {
        call->words_len = words(call->words);
        call->changes_len = words(call->changes);
    }
    if (call->kind != TABLE) call->room = counted(MOST_WORDS);
    expect_word("=");
    expected->answer[SIMAZOKWA_NUMBER] = expected->result = (uint32_t)number();
    if (call->kind == TABLE) return;
    for (int i = SIMAZOKWA_STEPS; i <= SIMAZOKWA_LENGTH; i++) expected->answer[i] = number();
    for (int i = SIMAZOKWA_VALUES; i < SIMAZOKWA_ANSWER_WORDS; i++) expected->answer[i] = number();
    expect_word(":");
    for (size_t i = 0; i < call->room; i++) expected->record[i] = number();
}

/* ---- damage */

static uint64_t state;

static uint64_t draw(uint64_t below)
{
    state ^= state << 13;
    state ^= state >> 7;
    state ^= state << 17;
    return state % below;
}

static int64_t strange(int64_t old)
{
    static const int64_t words[] = {0, 1, -1, 2, 3, 2147483647, 2147483648, -2147483648, -2147483649, 1000000, 1000001, INT64_MAX, INT64_MIN};
    uint64_t which = draw(2 * sizeof words / sizeof *words);
    return which < sizeof words / sizeof *words ? words[which] : (int64_t)((uint64_t)old + draw(7) - 3);
}

static void damage_words(int64_t *at, size_t *length)
{
    if (draw(4) == 0) *length = draw(*length + 1);
    if (*length != 0 && draw(2) == 0) {
        size_t i = draw(*length);
        at[i] = strange(at[i]);
    }
}

static void damage(struct call *call)
{
    static const size_t rooms[] = {0, 1, 3, 8, 64, 512, MOST_WORDS};
    switch (draw(5)) {
    case 0:
        if (call->table_len != 0) call->table[draw(call->table_len)] ^= (uint8_t)(1 << draw(8));
        break;
    case 1: call->table_len = draw(call->table_len + 1); break;
    case 2: damage_words(call->words, &call->words_len); break;
    case 3: damage_words(call->changes, &call->changes_len); break;
    case 4: call->room = call->kind == TABLE ? 0 : rooms[draw(sizeof rooms / sizeof *rooms)]; break;
    }
    if (call->kind == RUN && draw(8) == 0) call->limit = strange(call->limit);
}

/* ---- tables made here */

/* A table of so many numbers begins; its nodes follow, and then its header. */
static void begin(struct call *call, size_t variables)
{
    memset(call->table, 0, 16 + variables);
    call->table_len = 16 + variables;
}

static void node(struct call *call, uint8_t kind, uint8_t tag, unsigned a, unsigned b, unsigned c)
{
    const uint8_t bytes[8] = {kind, tag, (uint8_t)a, (uint8_t)(a >> 8), (uint8_t)b, (uint8_t)(b >> 8), (uint8_t)c, (uint8_t)(c >> 8)};
    memcpy(call->table + call->table_len, bytes, 8);
    call->table_len += 8;
}

static void header(struct call *call, size_t variables)
{
    const size_t fields[6] = {variables, (call->table_len - 16 - variables) / 8, 16, 16 + variables, call->table_len, 0};
    memcpy(call->table, "IMPT", 4);
    for (int i = 0; i < 6; i++) {
        call->table[4 + 2 * i] = (uint8_t)fields[i];
        call->table[5 + 2 * i] = (uint8_t)(fields[i] >> 8);
    }
}

/* ---- empty buffers */

static void expect(const struct call *call, uint32_t result)
{
    struct outcome *out = called(call);
    if (out->result != result) fail("%u, and not %u", out->result, result);
}

/* What simazokwa.h says of each buffer that is empty: of program P, run and then patched. */
static void empties(void)
{
    static struct call run, patch, bare;
    run.kind = RUN;
    begin(&run, 2);
    node(&run, 3, 0, 0, 0, 0);
    node(&run, 3, 1, 0, 0, 0);
    node(&run, 3, 0, 0, 0, 0);
    node(&run, 4, 0, 1, 2, 0);
    node(&run, 17, 1, 3, 0, 0);
    node(&run, 20, 0, 0, 4, 0);
    header(&run, 2);
    run.limit = 100;
    run.words[0] = 2;
    run.words[1] = 10;
    run.words_len = 2;
    run.room = 27;
    expect(&run, SIMAZOKWA_ACCEPTED);
    patch = run;
    patch.kind = PATCH;
    memcpy(patch.words, called(&run)->record, 8 * run.room);
    patch.words_len = 27;
    patch.changes[0] = -2;
    patch.changes_len = 2;
    expect(&patch, SIMAZOKWA_ACCEPTED);
    bare = run;
    bare.table_len = 0;
    expect(&bare, SIMAZOKWA_BAD_HEADER);
    bare = run;
    bare.words_len = 0;
    expect(&bare, SIMAZOKWA_BAD_INPUTS);
    bare = run;
    bare.room = 0;
    expect(&bare, SIMAZOKWA_NO_ROOM);
    bare = patch;
    bare.words_len = 0;
    expect(&bare, SIMAZOKWA_BROKEN_RECORD);
    bare = patch;
    bare.changes_len = 0;
    expect(&bare, SIMAZOKWA_BAD_CHANGES);
    bare = patch;
    bare.room = 0;
    expect(&bare, SIMAZOKWA_NO_ROOM);
    for (int kind = TABLE; kind <= PATCH; kind++) {
        memset(&bare, 0, sizeof bare);
        bare.kind = (enum kind)kind;
        expect(&bare, SIMAZOKWA_BAD_HEADER);
    }
}

/* ---- the deepest calls */

/* How much stack a call takes: it is made in a thread whose stack is painted, with what the thread itself takes. */
static void *in_thread(void *call)
{
    static struct outcome out;
    make(call, 0, 0, &out);
    return NULL;
}

static size_t stack_taken(struct call *call)
{
    static unsigned char *stack;
    pthread_attr_t with;
    pthread_t thread;
    size_t unused = 0;
    if (stack == NULL) stack = mmap(NULL, STACK, PROT_READ | PROT_WRITE, MAP_PRIVATE | MAP_ANONYMOUS, -1, 0);
    if (stack == MAP_FAILED) fail("no memory");
    memset(stack, 0x5a, STACK);
    pthread_attr_init(&with);
    if (pthread_attr_setstack(&with, stack, STACK) != 0 || pthread_create(&thread, &with, in_thread, call) != 0 || pthread_join(thread, NULL) != 0) fail("no thread");
    while (stack[unused] == 0x5a) unused++;
    return STACK - unused;
}

/*
 * A run, and then a patch, of "repeat v0: skip" below 22 statements of a kind (18, 19 or 20), or of the three in turn: depth 24.
 * Gives the most stack that one of the two took.
 */
static size_t deepest(struct call *call, unsigned kind)
{
    unsigned count = 3, root = 2;
    size_t run, patch;
    begin(call, 1);
    node(call, 3, 0, 0, 0, 0);
    node(call, 16, 0, 0, 0, 0);
    node(call, 20, 0, 0, 1, 0);
    for (unsigned i = 0; i < 22; i++) {
        unsigned now = kind != 0 ? kind : 18 + i % 3;
        if (now == 18) {
            node(call, 16, 0, 0, 0, 0);
            node(call, 18, 0, root, count, 0);
        } else if (now == 19) {
            node(call, 2, 1, 0, 0, 0);
            node(call, 16, 0, 0, 0, 0);
            node(call, 19, 0, count, root, count + 1);
            count++;
        } else {
            node(call, 1, 0, 0, 1, 0);
            node(call, 20, 0, count, root, 0);
        }
        root = count + 1;
        count += 2;
    }
    header(call, 1);
    call->kind = RUN;
    call->limit = 1000;
    call->words[0] = 5;
    call->words_len = 1;
    call->changes_len = 0;
    call->room = MOST_WORDS;
    struct outcome *out = called(call);
    if (out->result != 0 || out->answer[SIMAZOKWA_VALUES] != 5) fail("the deepest run: %u", out->result);
    run = stack_taken(call);
    memcpy(call->words, out->record, sizeof call->words);
    call->words_len = (size_t)out->answer[SIMAZOKWA_LENGTH];
    call->kind = PATCH;
    call->changes[0] = 2;
    call->changes_len = 1;
    out = called(call);
    if (out->result != 0 || out->answer[SIMAZOKWA_VALUES] != 7 || out->answer[SIMAZOKWA_CHANGES] != 2) fail("the deepest patch: %u", out->result);
    patch = stack_taken(call);
    return run < patch ? patch : run;
}

/* The most stack that a call nested 24 deep took, whatever it is nested in. */
static size_t most_stack(void)
{
    static struct call call;
    static const unsigned kinds[] = {0, 18, 19, 20};
    size_t most = 0;
    for (size_t i = 0; i < sizeof kinds / sizeof *kinds; i++) {
        size_t taken = deepest(&call, kinds[i]);
        if (most < taken) most = taken;
    }
    if (most > MOST_STACK) fail("%zu bytes of stack", most);
    return most;
}

/* ---- all of it */

/* A line of the file holds, and so many damaged calls beside it stay inside. */
static void held(char *text, long each)
{
    static struct call call, damaged;
    static struct outcome expected;
    read_case(text, &call, &expected);
    struct outcome *out = called(&call);
    stage = "as the file says";
    same(&call, &expected, out);
    for (long i = 0; i < each; i++) {
        damaged = call;
        for (uint64_t n = 1 + draw(3); n > 0; n--) damage(&damaged);
        called(&damaged);
    }
}

int main(int argc, char **argv)
{
    struct sigaction caught = {.sa_handler = touched};
    char *text = NULL;
    size_t size = 0;
    long read = 0, each;
    FILE *file;
    if (argc != 2 && argc != 4) {
        fprintf(stderr, "usage: guarded CASES [SEED EACH]\n");
        return 2;
    }
    state = argc == 4 ? 2 * strtoull(argv[2], NULL, 10) + 1 : 1;
    each = argc == 4 ? strtol(argv[3], NULL, 10) : 0;
    sigaction(SIGSEGV, &caught, NULL);
    sigaction(SIGBUS, &caught, NULL);
    table_area = reserve();
    words_area = reserve();
    changes_area = reserve();
    answer_area = reserve();
    record_area = reserve();

    file = strcmp(argv[1], "-") == 0 ? stdin : fopen(argv[1], "r");
    if (file == NULL) fail("cannot read %s", argv[1]);
    for (line = 1; getline(&text, &size, file) > 0; line++, read++) held(text, each);
    if (read == 0) fail("no cases");
    line = 0;
    empties();
    size_t most = most_stack();
    printf("guarded: %ld cases hold, %ld damaged calls stay inside, at most %zu bytes of stack\n", read, read * each, most);
    return 0;
}
