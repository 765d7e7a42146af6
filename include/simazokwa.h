/*
 * simazokwa.h: run a script once, keep a record, and push changes of its inputs through that record.
 *
 * What the library does
 *     simazokwa_check   is this byte table a program?
 *     simazokwa_run     runs the program on its inputs and leaves a record of what it did
 *     simazokwa_patch   takes an old record and a change for each input; leaves the new record, and says by how
 *                       much each output changed. What a change does not touch is not run again
 *
 *     From a record of this table that an accepted call left, and with a change list that is not refused with 11, a
 *     patch leaves the record that a run on the new inputs leaves, with the record's limit and a buffer of that length,
 *     word for word, or is refused with the same number. That is proved, and so is every word that the three functions
 *     return or write; README.md says what is proved of what, and what is trusted.
 *
 * A call
 *     The result is a refusal number, 0 when the call is accepted (enum simazokwa_refusal). Nothing else is
 *     signalled: no errno, no exception, no longjmp, no callback, no abort. Every call returns.
 *     A run and a patch write two buffers of yours, both in full, whatever stood there before:
 *         answer   always SIMAZOKWA_ANSWER_WORDS (72) words, laid out as enum simazokwa_answer says
 *         record   record_len words: the record, then zeros to the end; all zeros when the call is refused
 *
 * Who owns what
 *     You own every buffer. The library keeps no pointer behind the call, allocates nothing, opens nothing, and has
 *     no state of its own: no init, no close, no globals. It needs memcpy, memmove and memset, and nothing else.
 *     A buffer behind a pointer to const is only read. Words behind a length are never touched.
 *
 * What a call asks of its pointers
 *     - A pointer with its length (table_len in bytes, every other length in words of 8 bytes) is that much memory
 *       that may be read, or written where it is not const.
 *     - A length of 0 needs no memory: the pointer is then never used, and may be null. It is a call like any
 *       other: an empty table is refused with 1, empty inputs with 6, empty changes with 11, an empty old record
 *       with 12, and a record_len of 0 with 10 where nothing else is wrong.
 *     - A null pointer with a length that is not 0 is a mistake that the library cannot see, as in memcpy.
 *     - answer has no length: it is never null, and always 72 words.
 *     - Pointers to int64_t are aligned to 8 bytes, as any int64_t is; table may stand anywhere.
 *     - answer and record overlap no other buffer of the call. Above all the new record is not written over the
 *       old one: keep two buffers, and swap them after an accepted patch (examples/c/city.c). The buffers that are
 *       only read may overlap each other.
 *
 * Threads
 *     Any number of threads may be in calls at once. During a call no other thread writes a buffer that the call
 *     reads, and none touches the two that it writes. So threads may share a table and an old record.
 *
 * Sizes
 *     A table has at most SIMAZOKWA_MOST_TABLE bytes. How long a record gets depends on the script and on what it
 *     did: the scripts of docs/BENCHMARK.md leave 25 to 420 bytes a step. Run your worst inputs once in a large buffer,
 *     read SIMAZOKWA_LENGTH, and lend that and a margin. Refusal 10 says that record_len was too small, and does not
 *     say by how much: lend a longer buffer and call again. Once there is room, more of it only adds zeros; but every
 *     call writes its whole buffer, so one that is far too long costs time.
 *     Time: a run takes at most `limit` steps, a patch at most the limit of the run that began its record.
 *     Stack: at most 160 KiB. On x86-64 a patch of a table nested 24 deep takes up to 145 KiB, and one of a flat script
 *     up to 37 KiB. This is measured, not proved. Mind it where calls are made from fibers or small threads.
 *
 * What to keep
 *     A record belongs to its table: patch it with the same bytes. It is plain words, in the machine's byte order, and
 *     may be copied, stored and loaded; the words behind its length are not read. Word 0 is that length, word 1 the
 *     limit, word 2 the steps; then an input for each variable, and an output for each.
 *     Nothing in a record marks its table. A record of another table, or of an older version of the script, may be
 *     refused with 12, but may as well be accepted, and its values are then wrong. So store a hash of the table's
 *     bytes beside a record and compare it before you patch; or store inputs and limit only, and run again on load.
 *     A record from elsewhere is safe to hand in: it is refused with 12 where a patch finds it broken, and else patched
 *     as it stands. After a refused patch the old record is as it was, and the new buffer is all zeros.
 *
 * Linking
 *     C or C++, x86-64 Linux: cc game.c target/c/libsimazokwa.a (`tests/c/build target/c` makes it). ELF, System
 *     V calls, no AVX, and no unwind tables. The code is position-independent, so it may go into a shared library too.
 */
#ifndef SIMAZOKWA_H
#define SIMAZOKWA_H

#include <stddef.h>
#include <stdint.h>

#ifdef __cplusplus
extern "C" {
#endif

/* The result of a call, and word 0 of its answer. The first that applies is given, in the order of each call below. */
enum simazokwa_refusal {
    SIMAZOKWA_ACCEPTED = 0,      /* not refused */
    SIMAZOKWA_BAD_HEADER = 1,    /* table: too short, or a header field or the byte count is wrong */
    SIMAZOKWA_BAD_TYPE = 2,      /* table: a type byte above 1 */
    SIMAZOKWA_BAD_NODE = 3,      /* table: a node's kind, tag, unused byte or child is wrong, or the root is no statement */
    SIMAZOKWA_BAD_USE = 4,       /* table: a node other than the root is not used exactly once */
    SIMAZOKWA_TOO_DEEP = 5,      /* table: nested deeper than 24 */
    SIMAZOKWA_BAD_INPUTS = 6,    /* run: not one input for each variable, or one outside its type */
    SIMAZOKWA_BAD_LIMIT = 7,     /* run: the limit is not in 1..SIMAZOKWA_MOST_STEPS */
    SIMAZOKWA_OUT_OF_RANGE = 8,  /* a sum, difference or product left the 32-bit range */
    SIMAZOKWA_FUEL_SPENT = 9,    /* more steps than the limit */
    SIMAZOKWA_NO_ROOM = 10,      /* the finished record is longer than record_len; nothing else is wrong */
    SIMAZOKWA_BAD_CHANGES = 11,  /* patch: not one change for each variable, a truth's not 0 or 1, or a new input out of range */
    SIMAZOKWA_BROKEN_RECORD = 12 /* patch: the old record is broken, as far as the patch read it; no test of which table it belongs to */
};

/* The words of an answer. When the call is refused, all of them but the number are 0. */
enum simazokwa_answer {
    SIMAZOKWA_NUMBER = 0,        /* the refusal number, as returned */
    SIMAZOKWA_PLACE = 1,         /* kept for where a call was refused; 0 today */
    SIMAZOKWA_STEPS = 2,         /* statements executed, as a run on these inputs counts them: walked + reused + fresh */
    SIMAZOKWA_WALKED = 3,        /* of these, gone through by the patch; 0 after a run */
    SIMAZOKWA_REUSED = 4,        /* of these, copied from the old record untouched; 0 after a run */
    SIMAZOKWA_FRESH = 5,         /* of these, executed anew; all of them after a run */
    SIMAZOKWA_LENGTH = 6,        /* words of the record; record[0] says the same */
                                 /* word 7 is 0 */
    SIMAZOKWA_VALUES = 8,        /* 32 words: the value of each variable at the end, 0 behind the last variable */
    SIMAZOKWA_CHANGES = 40,      /* 32 words: by how much a patch changed each output; 0 after a run */
    SIMAZOKWA_ANSWER_WORDS = 72
};

enum simazokwa_sizes {
    SIMAZOKWA_MOST_VARIABLES = 32,
    SIMAZOKWA_MOST_NODES = 512,
    SIMAZOKWA_MOST_TABLE = 4144,   /* bytes: a header of 16, a byte for each variable, 8 for each node */
    SIMAZOKWA_MOST_STEPS = 1000000 /* the highest limit */
};

/*
 * Values: a number is in -2147483648..2147483647, a truth is 0 or 1, each in a word of its own.
 * Changes: a number's is a signed difference, new = old + change; a truth's is 0 to keep it and 1 to flip it.
 * A change in a patch's list is against the input that the old record holds, not against a value of the answer: every
 * variable is an input and an output. After an accepted patch the new record holds the new inputs.
 */

/* Is this a program? Refusals 1 to 5, each over the whole table before the next. */
uint32_t simazokwa_check(const uint8_t *table, size_t table_len);

/*
 * Runs the program. inputs has a word for each variable, in order; limit is how many steps it may take.
 * Refusals: 1 to 7 in turn, then 8 or 9, whichever comes first, then 10.
 */
uint32_t simazokwa_run(const uint8_t *table, size_t table_len,
                       const int64_t *inputs, size_t inputs_len,
                       int64_t limit,
                       int64_t *answer,
                       int64_t *record, size_t record_len);

/*
 * Patches an old record: changes has a word for each variable, in order. The limit is the old record's.
 * old_len may be the whole buffer that the old record stands in: the record says itself where it ends.
 * Refusals: 1 to 5 in turn, 12 for the record's header, 11, then 8, 9 or 12, whichever comes first, then 10.
 */
uint32_t simazokwa_patch(const uint8_t *table, size_t table_len,
                         const int64_t *old_record, size_t old_len,
                         const int64_t *changes, size_t changes_len,
                         int64_t *answer,
                         int64_t *record, size_t record_len);

#ifdef __cplusplus
}
#endif

#endif
