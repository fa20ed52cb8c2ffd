/* The call plan table of a lift telephone: the calls of documents 01 and 02, as the static library libtelephone.a defines them. For C99, C11 and C++.
 *
 *     plan_table t;
 *     plan_quota quotas[PLAN_CABINS];
 *     if (plan_edition() != PLAN_EDITION) return 1;
 *     plan_sole_quotas(quotas, 128);
 *     plan_fresh(&t, 128, quotas);
 *     plan_reply r = plan_add(&t, 0, PLAN_ANSWERED, PLAN_CONTACT, 7, 0);
 *     if (r.refusal == PLAN_DONE) printf("step %d\n", r.first); else puts(plan_refusal_words(r.refusal));
 *
 * Terms. A plan has steps, 0 to 127, of which step 0, the alarm, is always in use. Each step has four exits; an exit is empty or holds a link to a step.
 * A link is strong if its bit equals that of the step which it leads to, else weak; plan_add makes a strong one, plan_link a weak one. A table is sound
 * if all numbers are in range, the counters are exact, strong links form no ring and lead from step 0 to every step in use, and the cabins keep to
 * their guarantees and limits. Every call keeps a sound table sound. After an exit is emptied, the steps that no row of strong links leads to from step
 * 0 are doubtful: those that links of either strength still lead to stay, and are held by strong links again; the others are freed. A step can be
 * in use and never be rung: a trial leaves step 0, a message and a wait by the answered exit only. plan_rung tells which steps some trial enters.
 *
 * Cabins. Eight cabins share a plan. Each step is charged to the cabin, 0 to 7, that added it, until it is freed; step 0 is charged to none. A table
 * has a guarantee and a limit for each cabin. No cabin has more steps than its limit, and one that has fewer than its guarantee is never refused for
 * want of a step (8, 14, 15), whatever the others add or keep. A list of guarantees and limits is good if no guarantee is above its limit and all
 * guarantees together are at most the capacity less 1. Where one cabin has the plan to itself, it is cabin 0, with the list of plan_sole_quotas.
 *
 * One line. Apart from any plan, the alarms of sixteen cabins, 0 to 15, wait for one line. A dispatcher has a word for each cabin, not 0 while the
 * cabin waits, and the cabin last served. A cabin that waits and does not withdraw is served within 16 accepted calls of plan_line_next, whatever
 * other calls come in between, refused ones too. That holds while each call is on the dispatcher as the one before left it, and none makes it fresh.
 *
 * Memory. A table has 3,876 bytes, a dispatcher 34. The caller owns them and lends each to a call by its address; a call that changes one does so in
 * place. Other buffers are lent by an address and a length, and a list of guarantees and limits by the address of its eight pairs. A call reads and
 * writes what it is lent only while it runs, and only within its length; the library allocates nothing and holds no pointer after it returns. No
 * pointer is null: to lend a buffer of length 0, give any valid address. Things lent to one call do not overlap, and nobody else writes them during
 * the call.
 *
 * Threads. The library keeps no state between calls: any number of threads may call it at once, with each table and each dispatcher in one call at a
 * time. Calls that take a const table only read it, and may share one that nobody changes.
 *
 * Any bytes may stand in a table or a dispatcher: every field is a number. A call on a table that is not sound, or on a dispatcher whose last served is
 * above 15, answers refusal 1; plan_is_sound says so by 0, and plan_fresh, plan_load_image and plan_line_fresh do not look at what stood there. All
 * calls end.
 *
 * Refusals. `refusal` is PLAN_DONE, or the number of the first condition of the call's order that holds. All other numbers of the reply are then 0,
 * every byte of the table or the dispatcher is as it was, and no lent byte was written. Only plan_fresh and plan_load_image differ: refused, they leave
 * a fresh table of capacity 1, whose guarantees and limits are all 0.
 *
 * Stack. A call and the table lent to it together take at most PLAN_STACK_MAX bytes of stack; a table that stands elsewhere takes none of them.
 * Measured, without the caller's table of 3,876 bytes or dispatcher of 34. A conversion is lent no table and keeps one of its own on the stack; a
 * clearing with a slip and a take-back keep one beside the lent one:
 *
 *     plan_edition, plan_sole_quotas, plan_fresh                                     88 bytes
 *     plan_is_sound, plan_counts, plan_image_length, plan_read                    7,552
 *     plan_add                                                                    7,712
 *     plan_link                                                                   7,568
 *     plan_clear                                                                  7,536
 *     plan_clear_with_slip                                                       11,456
 *     plan_take_back                                                             11,472
 *     plan_preview_clear                                                          8,576
 *     plan_squeeze                                                                7,872
 *     plan_trial, plan_write_image                                                7,584
 *     plan_rung                                                                   8,064
 *     plan_load_image                                                             7,568
 *     plan_convert_up, plan_convert_down                                         11,568
 *     plan_key_line                                                               7,776
 *     plan_line_fresh, plan_line_raise, plan_line_withdraw, plan_line_next           56
 *
 * `cargo test --release --test stack -- --nocapture` in compare/ prints them.
 *
 * Linking. The library is freestanding but for memcpy and memset, which the host has.
 */
#ifndef TELEPHONE_H
#define TELEPHONE_H

#include <stddef.h>
#include <stdint.h>

#ifdef __cplusplus
extern "C" {
#endif

#define PLAN_VERSION "0.12.0" /* of this software; CHANGELOG.md says what changed, and PLAN_EDITION what a host has to follow */
#define PLAN_EDITION 4        /* of this interface; in edition 1 tables went by value, in 2 a trial had no limit, in 3 there were no cabins */
#define PLAN_PLACES 128       /* the largest capacity */
#define PLAN_EXITS 4          /* exits of a step */
#define PLAN_CABINS 8         /* cabins that share a plan */
#define PLAN_LINE_CABINS 16   /* cabins that wait for one line */
#define PLAN_IMAGE_MAX 2858   /* bytes of the largest image that is written; the largest of edition 1 has 2,570 */
#define PLAN_SLIP_MAX 5638    /* bytes of the largest slip of a clearing */
#define PLAN_STEPS_ROOM 127   /* bytes that the buffer of a preview or of plan_rung must have: one for each step that can be listed, any but step 0 */
#define PLAN_PREVIEW_ROOM PLAN_STEPS_ROOM /* its name when only a preview listed steps */
#define PLAN_STACK_MAX 16384  /* bytes of stack for any call, with the caller's table */

/* Kinds of step, and the content of each. */
enum plan_kind {
    PLAN_ALARM = 0,           /* step 0 only; content 0 */
    PLAN_CONTACT = 1,         /* a phone book entry, 0 to 999; 0 is the primary. In an image of edition 1 it is 0 to 99 */
    PLAN_MESSAGE = 2,         /* a spoken message, 0 to 15 */
    PLAN_WAIT = 3             /* seconds, 1 to 600 */
};

/* Exits of a step; line results have the same numbers. */
enum plan_exit {
    PLAN_ANSWERED = 0,
    PLAN_ENGAGED = 1,
    PLAN_NO_REPLY = 2,
    PLAN_LINE_FAULT = 3
};

enum plan_refusal {
    PLAN_DONE = 0,               /* not refused */
    PLAN_NOT_SOUND = 1,          /* table not sound, or the dispatcher's last served is above 15 */
    PLAN_BAD_CAPACITY = 2,       /* capacity not 1 to 128 */
    PLAN_NOT_IN_USE = 3,         /* step not in use */
    PLAN_BAD_EXIT = 4,           /* exit above 3 */
    PLAN_EXIT_FILLED = 5,        /* exit to be filled holds a link */
    PLAN_EXIT_EMPTY = 6,         /* exit to copy or clear is empty */
    PLAN_BAD_KIND = 7,           /* kind not 1 to 3, or content out of range */
    PLAN_FULL = 8,               /* steps in use equal the capacity */
    PLAN_NOT_KEY_LINE = 9,       /* not a key line */
    PLAN_BAD_RESULT = 10,        /* some line result above 3 */
    PLAN_TOO_SHORT = 11,         /* lent buffer shorter than needed */
    PLAN_NOT_ACCEPTED = 12,      /* image not accepted; of a conversion also: image of the other edition */
    PLAN_DOES_NOT_FIT = 13,      /* capacity below the steps in use, or the charges do not fit the new list */
    PLAN_CABIN_AT_LIMIT = 14,    /* cabin at its limit */
    PLAN_STEPS_RESERVED = 15,    /* only steps reserved for other cabins are free */
    PLAN_BAD_CABINS = 16,        /* cabin above 7, or bad list of guarantees and limits */
    PLAN_NEEDS_EDITION_2 = 17,   /* image needs edition 2: a cabin, guarantee, limit or contact that edition 1 cannot say */
    PLAN_SLIP_NOT_ACCEPTED = 18, /* slip not accepted */
    PLAN_NO_SUCH_CABIN = 20,     /* cabin above 15, of those that wait for the line. No call gives 19 */
    PLAN_NOBODY_WAITS = 21       /* nobody waits for the line */
};

enum plan_ending {
    PLAN_OPEN = 0,            /* the trial ended at an empty exit */
    PLAN_SPENT = 1,           /* at a contact with no result left */
    PLAN_STOPPED = 2          /* at the limit of moves */
};

/* What a cabin is guaranteed, and what it may have at most, in steps. */
typedef struct {
    uint16_t guarantee;       /* at most the limit; all guarantees together at most the capacity less 1 */
    uint16_t limit;           /* 0 to 65535 */
} plan_quota;

/* A table. Change it by calls only: a table that was changed otherwise may not be sound. */
typedef struct {
    uint16_t capacity;        /* 1 to 128 in a sound table */
    uint16_t last;            /* the number last given to a step */
    uint16_t used[128];       /* 1 for a step in use, 0 for a free one */
    uint16_t kinds[128];
    uint16_t contents[128];
    uint16_t own[128];        /* the bit of its own that each step has */
    uint16_t targets[512];    /* exit e of step i at i * 4 + e; 0 is an empty exit */
    uint16_t bits[512];       /* the bit of the link in the same exit */
    uint16_t counts[256];     /* counter b of step i at i * 2 + b */
    uint16_t cabins[128];     /* the cabin that added each step; 0 for step 0 and for a free step */
    plan_quota quotas[8];     /* by cabin */
} plan_table;

/* A dispatcher: which cabins wait for the line, and which was served last. */
typedef struct {
    uint16_t waiting[16];     /* by cabin: 0 if it does not wait, any other number if it does */
    uint16_t last;            /* the cabin last served; 0 to 15, else refusal 1 */
} plan_line;

/* A refusal, and two numbers that each call gives a meaning. */
typedef struct {
    uint16_t refusal;
    uint16_t first;
    uint16_t second;
} plan_reply;

/* All fields of one step. */
typedef struct {
    uint16_t refusal;
    uint16_t kind;
    uint16_t content;
    uint16_t own;
    uint16_t targets[4];
    uint16_t bits[4];
    uint16_t counts[2];
    uint16_t cabin;           /* 0 for step 0 */
} plan_read_reply;

/* How a trial ended. */
typedef struct {
    uint16_t refusal;
    uint16_t ending;          /* PLAN_OPEN, PLAN_SPENT or PLAN_STOPPED */
    uint16_t last;            /* the step where it ended */
    uint16_t moves;           /* the steps entered, at most the limit */
} plan_trial_reply;

typedef struct {
    uint16_t refusal;
    uint16_t length;          /* bytes of the image */
} plan_write_reply;

/* The layout that the library was compiled with, on x86-64. A reader of another layout must not link it. */
#if defined(__cplusplus) && __cplusplus >= 201103L
#define PLAN_LAYOUT(test, name) static_assert(test, #name)
#elif defined(__STDC_VERSION__) && __STDC_VERSION__ >= 201112L
#define PLAN_LAYOUT(test, name) _Static_assert(test, #name)
#else
#define PLAN_LAYOUT(test, name) typedef char plan_layout_##name[(test) ? 1 : -1]
#endif
PLAN_LAYOUT(sizeof(plan_table) == 3876, size_of_a_table);
PLAN_LAYOUT(offsetof(plan_table, last) == 2, last);
PLAN_LAYOUT(offsetof(plan_table, used) == 4, used);
PLAN_LAYOUT(offsetof(plan_table, kinds) == 260, kinds);
PLAN_LAYOUT(offsetof(plan_table, contents) == 516, contents);
PLAN_LAYOUT(offsetof(plan_table, own) == 772, own);
PLAN_LAYOUT(offsetof(plan_table, targets) == 1028, targets);
PLAN_LAYOUT(offsetof(plan_table, bits) == 2052, bits);
PLAN_LAYOUT(offsetof(plan_table, counts) == 3076, counts);
PLAN_LAYOUT(offsetof(plan_table, cabins) == 3588, cabins);
PLAN_LAYOUT(offsetof(plan_table, quotas) == 3844, quotas);
PLAN_LAYOUT(sizeof(plan_quota) == 4, size_of_a_quota);
PLAN_LAYOUT(offsetof(plan_quota, limit) == 2, limit_in_a_quota);
PLAN_LAYOUT(sizeof(plan_line) == 34, size_of_a_line);
PLAN_LAYOUT(offsetof(plan_line, last) == 32, last_in_a_line);
PLAN_LAYOUT(sizeof(plan_reply) == 6, size_of_a_reply);
PLAN_LAYOUT(sizeof(plan_read_reply) == 30, size_of_a_read_reply);
PLAN_LAYOUT(offsetof(plan_read_reply, counts) == 24, counts_in_a_read_reply);
PLAN_LAYOUT(offsetof(plan_read_reply, cabin) == 28, cabin_in_a_read_reply);
PLAN_LAYOUT(sizeof(plan_trial_reply) == 8, size_of_a_trial_reply);
PLAN_LAYOUT(offsetof(plan_trial_reply, moves) == 6, moves_in_a_trial_reply);
PLAN_LAYOUT(sizeof(plan_write_reply) == 4, size_of_a_write_reply);
PLAN_LAYOUT(sizeof(size_t) == 8, size_of_a_length);
#undef PLAN_LAYOUT

/* The edition of the library. A host compares it with PLAN_EDITION before any other call. */
uint16_t plan_edition(void);

/* 1 if the table is sound, else 0. No refusal. */
uint16_t plan_is_sound(const plan_table *t);

/* Writes the list of a table that one cabin has to itself: cabin 0 has guarantee and limit capacity less 1, or 0 for capacity 0, all others have 0.
 * No refusal. */
void plan_sole_quotas(plan_quota quotas[PLAN_CABINS], uint16_t capacity);

/* Makes a table of that capacity with these guarantees and limits and with step 0 alone in use, whatever stood there.
 * first and second: 0. Refusals, in order: 2, 16. */
plan_reply plan_fresh(plan_table *t, uint16_t capacity, const plan_quota quotas[PLAN_CABINS]);

/* Puts a new step at an empty exit of the holder, and charges it to the cabin.
 * first: the number of the new step. Refusals, in order: 1, 16, 3, 4, 5, 7, 8, 14, 15. */
plan_reply plan_add(plan_table *t, uint16_t holder, uint16_t exit, uint16_t kind, uint16_t content, uint16_t cabin);

/* Copies the target of an exit of the source into an empty exit of the second step.
 * first and second: 0. Refusals, in order: 1, of the source 3, 4, 6, of the second 3, 4, 5. */
plan_reply plan_link(plan_table *t, uint16_t source, uint16_t source_exit, uint16_t second, uint16_t second_exit);

/* Empties an exit, and frees the steps that nothing reaches any more. From one table, clearings of the same exits leave one plan and free as many steps
 * in all, in whatever order, refused and repeated ones included; strengths, images and doubtful counts may differ. One whose step was freed gets 3.
 * first: steps made doubtful; second: steps freed. Refusals, in order: 1, 3, 4, 6. */
plan_reply plan_clear(plan_table *t, uint16_t step, uint16_t exit);

/* Empties an exit as plan_clear does, and writes a slip of it to the start of the buffer, for plan_take_back. A slip is made of words of two bytes,
 * the low one first: the step, the exit and the number of changed steps; then of each changed step, in ascending number, the old and the new record
 * as in an image of edition 2. The record of a free step is 22, 4, its number and zeros. So the slip has 6 + 44 * (buffer[4] + 256 * buffer[5]) bytes,
 * and PLAN_SLIP_MAX bytes are room enough for any. Bytes past it are not touched.
 * first: steps made doubtful; second: steps freed. Refusals, in order: 1, 3, 4, 6, 11 where the buffer is shorter than this slip. */
plan_reply plan_clear_with_slip(plan_table *t, uint16_t step, uint16_t exit, uint8_t *buffer, size_t length);

/* Takes back the clearing of a slip, which is exactly these bytes: puts its old records in place of the new ones and works out the counters. The
 * capacity, the last number given and the list of guarantees and limits stay. Where no call changed the table since the clearing, the result is the
 * table from before it. A slip is accepted exactly if each new record is the present one, the table with the old ones is sound, and clearing the named
 * exit there gives the present table and this slip. So other steps may have changed meanwhile; right after it was taken back the slip is refused.
 * first: steps brought back into use; second: 0. Refusals, in order: 1, 18. */
plan_reply plan_take_back(plan_table *t, const uint8_t *slip, size_t length);

/* Tells what plan_clear would do: writes the numbers of the steps that it would free to the start of the buffer, ascending, a byte each. Bytes past
 * them are not touched. The same plan_clear, made next, frees just these steps and gives these two counts. The buffer must have at least
 * PLAN_STEPS_ROOM bytes, whatever the table, even where nothing would go.
 * first: steps that would be made doubtful; second: steps that would be freed, and so bytes written. Refusals, in order: 1, 3, 4, 6, 11. */
plan_reply plan_preview_clear(const plan_table *t, uint16_t step, uint16_t exit, uint8_t *buffer, size_t length);

/* Squeezes the table into that capacity, which may also be larger, and gives it these guarantees and limits. The steps in use are renumbered from 0
 * upward in their order, every target follows, bits, counters and cabins travel with their steps, and the last number given becomes the highest of
 * them. All places above it become zero. To keep the list of the table, lend a copy of it: what is lent does not overlap.
 * first and second: 0. Refusals, in order: 1, 2, 16, 13. */
plan_reply plan_squeeze(plan_table *t, uint16_t capacity, const plan_quota quotas[PLAN_CABINS]);

/* All fields of a step. Refusals, in order: 1, 3. */
plan_read_reply plan_read(const plan_table *t, uint16_t step);

/* first: steps in use; second: free ones, so that both make the capacity. Refusal: 1. */
plan_reply plan_counts(const plan_table *t);

/* Goes through the plan from step 0. A contact uses up the next line result, 0 to 3, and leads on by that exit; all other steps use up none and lead
 * on by the answered exit. At each step, step 0 too, in this order: a contact with no result left ends the trial spent, an empty exit ends it open,
 * and where the moves made equal the limit, 0 to 65535, it ends stopped. So a trial round a ring of waits ends too.
 * The number of each step entered is written to the trace, a byte each, from its start; bytes past the moves are not touched. The trace must have at
 * least as many bytes as the limit, whatever the trial does, and all results must be 0 to 3, used up or not; there may be more of them than moves.
 * Refusals, in order: 1, 10, 11; a refused one has 0 in ending too, which is PLAN_OPEN, so look at refusal first. */
plan_trial_reply plan_trial(const plan_table *t, uint16_t limit, const uint8_t *results, size_t results_length, uint8_t *trace, size_t trace_length);

/* Tells whom a trial can ring: writes the numbers of the steps that some trial enters to the start of the buffer, ascending, a byte each. Bytes past them
 * are not touched. A step is listed exactly if there are line results and a limit with which plan_trial enters it. So a contact leads on by each of its
 * exits, and all other steps by the answered exit alone. A step that stands only behind another exit of step 0, of a message or of a wait is in use and
 * not listed. Every trial starts at step 0, and none enters it. The buffer must have at least PLAN_STEPS_ROOM bytes, whatever the table, even where
 * nobody can be rung.
 * first: steps listed, and so bytes written; second: those of them that are contacts. Refusals, in order: 1, 11. */
plan_reply plan_rung(const plan_table *t, uint8_t *buffer, size_t length);

/* The length of the table's image: 42 bytes and 22 for each step in use. Refusal: 1. */
plan_write_reply plan_image_length(const plan_table *t);

/* Writes the image of the table, in edition 2 of the format, to the start of the buffer, its step records in ascending step number. Bytes past it are
 * not touched. Two sound tables are equal exactly when their written images are, so these can be compared byte by byte.
 * Refusals, in order: 1, 11. */
plan_write_reply plan_write_image(const plan_table *t, uint8_t *buffer, size_t length);

/* Makes the table of an image of edition 1 or 2, which is exactly these bytes, whatever stood there. The step records may come in any order. Of an
 * image of edition 1 all steps are charged to cabin 0, and the table has the list of plan_sole_quotas for its capacity. Contacts of such an image are 0
 * to 99, as an old telephone has them; with a larger one it is not accepted.
 * first and second: 0. Refusal: 12. */
plan_reply plan_load_image(plan_table *t, const uint8_t *bytes, size_t length);

/* Converts an image of edition 1, which is exactly these bytes, to edition 2 and writes it to the start of the buffer, with no table of the caller's.
 * The plan and its strengths stay; all steps are of cabin 0, and the list is that of plan_sole_quotas for the capacity. The step records may come in
 * any order and are written in ascending step number; bytes past the image are not touched. PLAN_IMAGE_MAX bytes are room enough for any image.
 * length in the reply: 42 bytes and 22 for each step in use. Refusals, in order: 12, also for an image of edition 2; 11. */
plan_write_reply plan_convert_up(const uint8_t *bytes, size_t length, uint8_t *buffer, size_t room);

/* Converts an image of edition 2 to edition 1 in the same way; up and down again is the first image, its step records sorted. Edition 1 has no cabins:
 * all steps have to be of cabin 0, and the list that of plan_sole_quotas for the capacity. Its contacts have to be 0 to 99.
 * length in the reply: 10 bytes and 20 for each step in use. Refusals, in order: 12, also for an image of edition 1; 17 for another cabin, another
 * list or a larger contact; 11. */
plan_write_reply plan_convert_down(const uint8_t *bytes, size_t length, uint8_t *buffer, size_t room);

/* Carries out a key line, given without its byte 10; any bytes of any length. ASCII; steps and contents have three digits, exits and kinds one:
 *
 *     H*1 step exit kind content A    adds, for cabin 0          first: the new step
 *     H*2 step exit step exit A       links
 *     H*3 step exit A                 clears                     first: steps made doubtful; second: steps freed
 *     H*4A                            counts                     first: steps in use; second: free ones
 *
 * with no space between; "H*100001007A" adds contact 7 at exit 0 of step 0. Other numbers are 0. Refusals: 1, 9, then those of its call. */
plan_reply plan_key_line(plan_table *t, const uint8_t *line, size_t length);

/* Makes a dispatcher at which nobody waits, with cabin 15 as last served, whatever stood there. So cabin 0 is the first in turn.
 * first and second: 0. No refusal. */
plan_reply plan_line_fresh(plan_line *line);

/* Raises the alarm of a cabin, 0 to 15, which then waits for the line: its word becomes 1. If it waits already, nothing changes, whatever its word.
 * first and second: 0. Refusals, in order: 1, 20. */
plan_reply plan_line_raise(plan_line *line, uint16_t cabin);

/* Withdraws the alarm of a cabin, 0 to 15: its word becomes 0. If it does not wait, nothing changes.
 * first and second: 0. Refusals, in order: 1, 20. */
plan_reply plan_line_withdraw(plan_line *line, uint16_t cabin);

/* Serves the first waiting cabin after the one last served. After 15 comes 0, and the one last served comes last. The cabin served no longer waits, its
 * word becomes 0, and it is now the one last served.
 * first: the cabin; second: 0. Refusals, in order: 1, 21; a refused call has 0 in first, which is a cabin too, so look at refusal first. */
plan_reply plan_line_next(plan_line *line);

/* The words of a refusal. */
static inline const char *plan_refusal_words(uint16_t refusal) {
    switch (refusal) {
    case PLAN_DONE: return "done";
    case PLAN_NOT_SOUND: return "table not sound, or the dispatcher's last served is above 15";
    case PLAN_BAD_CAPACITY: return "capacity not 1 to 128";
    case PLAN_NOT_IN_USE: return "step not in use";
    case PLAN_BAD_EXIT: return "exit above 3";
    case PLAN_EXIT_FILLED: return "exit to be filled holds a link";
    case PLAN_EXIT_EMPTY: return "exit to copy or clear is empty";
    case PLAN_BAD_KIND: return "kind not 1 to 3, or content out of range";
    case PLAN_FULL: return "steps in use equal the capacity";
    case PLAN_NOT_KEY_LINE: return "not a key line";
    case PLAN_BAD_RESULT: return "some line result above 3";
    case PLAN_TOO_SHORT: return "lent buffer shorter than needed";
    case PLAN_NOT_ACCEPTED: return "image not accepted";
    case PLAN_DOES_NOT_FIT: return "capacity below the steps in use, or the charges do not fit the new list";
    case PLAN_CABIN_AT_LIMIT: return "cabin at its limit";
    case PLAN_STEPS_RESERVED: return "only steps reserved for other cabins are free";
    case PLAN_BAD_CABINS: return "cabin above 7, or bad list of guarantees and limits";
    case PLAN_NEEDS_EDITION_2: return "image needs edition 2: a cabin, guarantee, limit or contact that edition 1 cannot say";
    case PLAN_SLIP_NOT_ACCEPTED: return "slip not accepted";
    case PLAN_NO_SUCH_CABIN: return "cabin above 15";
    case PLAN_NOBODY_WAITS: return "nobody waits for the line";
    default: return "unknown refusal";
    }
}

#ifdef __cplusplus
}
#endif
#endif
