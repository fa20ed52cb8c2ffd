/* Links libtelephone.a and tries each call from C, or from C++: edition, names and words, the worked examples P1 to P10, every refusal of every call,
 * cabins with their guarantees and limits, images of both editions and their conversions, contacts of both editions, squeezes, trials, clearings
 * taken back, told beforehand and made in either order, the steps that some trial enters, the case of `keys`, sixteen cabins on one line, fields that
 * all differ, lengths past 16 bits, damaged images and slips, and bytes that are no sound table. A table or a dispatcher is lent with bytes around it,
 * which have to stay; a refused call has to leave every byte. Prints a line for each case that fails, and 'N passed, M failed' last. */
#include "telephone.h"
#include <stdio.h>
#include <string.h>

static int passed, failed;

static void expect(int holds, const char *name) {
    if (holds) {
        passed++;
    } else {
        failed++;
        printf("FAILED: %s\n", name);
    }
}

/* A table with bytes on both sides that no call may change. */
enum { EDGE = 64, UNTOUCHED = 0xEE };
typedef struct {
    uint8_t before[EDGE];
    plan_table table;
    uint8_t after[EDGE];
} lent;

static int all_untouched(const uint8_t *bytes, size_t length) {
    size_t i = 0;
    while (i < length && bytes[i] == UNTOUCHED) i++;
    return i == length;
}

static int edges_stand(const lent *m) { return all_untouched(m->before, EDGE) && all_untouched(m->after, EDGE); }

static int same(const plan_table *a, const plan_table *b) { return memcmp(a, b, sizeof *a) == 0; }

/* Whether a reply has these three numbers. */
static int gave(plan_reply r, int refusal, int first, int second) {
    return r.refusal == refusal && r.first == first && r.second == second;
}

/* A fresh table, and a squeeze, for cabin 0 alone. */
static plan_reply fresh(plan_table *t, uint16_t capacity) {
    plan_quota quotas[PLAN_CABINS];
    plan_sole_quotas(quotas, capacity);
    return plan_fresh(t, capacity, quotas);
}

static plan_reply squeeze(plan_table *t, uint16_t capacity) {
    plan_quota quotas[PLAN_CABINS];
    plan_sole_quotas(quotas, capacity);
    return plan_squeeze(t, capacity, quotas);
}

/* A fresh table of capacity 4, over bytes that are no table. */
static lent f4(void) {
    lent m;
    memset(&m, UNTOUCHED, sizeof m);
    expect(gave(fresh(&m.table, 4), PLAN_DONE, 0, 0) && edges_stand(&m), "F4");
    return m;
}

/* F4 after P1: step 1 at exit 0 of step 0. */
static lent p1(void) {
    lent m = f4();
    expect(gave(plan_add(&m.table, 0, PLAN_ANSWERED, PLAN_CONTACT, 0, 0), PLAN_DONE, 1, 0), "P1");
    return m;
}

static void names(void) {
    enum { KNOWN = 22, NOT_GIVEN = 19 };
    static const char *const words[KNOWN] = {
        "done", "table not sound, or the dispatcher's last served is above 15", "capacity not 1 to 128", "step not in use", "exit above 3",
        "exit to be filled holds a link", "exit to copy or clear is empty", "kind not 1 to 3, or content out of range",
        "steps in use equal the capacity", "not a key line", "some line result above 3", "lent buffer shorter than needed", "image not accepted",
        "capacity below the steps in use, or the charges do not fit the new list", "cabin at its limit",
        "only steps reserved for other cabins are free", "cabin above 7, or bad list of guarantees and limits",
        "image needs edition 2: a cabin, guarantee, limit or contact that edition 1 cannot say", "slip not accepted", "unknown refusal",
        "cabin above 15", "nobody waits for the line"};
    static const int refusals[KNOWN] = {
        PLAN_DONE, PLAN_NOT_SOUND, PLAN_BAD_CAPACITY, PLAN_NOT_IN_USE, PLAN_BAD_EXIT, PLAN_EXIT_FILLED, PLAN_EXIT_EMPTY, PLAN_BAD_KIND, PLAN_FULL,
        PLAN_NOT_KEY_LINE, PLAN_BAD_RESULT, PLAN_TOO_SHORT, PLAN_NOT_ACCEPTED, PLAN_DOES_NOT_FIT, PLAN_CABIN_AT_LIMIT, PLAN_STEPS_RESERVED,
        PLAN_BAD_CABINS, PLAN_NEEDS_EDITION_2, PLAN_SLIP_NOT_ACCEPTED, NOT_GIVEN, PLAN_NO_SUCH_CABIN, PLAN_NOBODY_WAITS};
    int all = 1;
    expect(plan_edition() == PLAN_EDITION && PLAN_EDITION == 4, "edition");
    expect(sizeof(plan_table) == 3876, "size of a table");
    expect(sizeof(plan_line) == 34 && offsetof(plan_line, waiting) == 0 && offsetof(plan_line, last) == 32, "size of a dispatcher");
    for (int i = 0; i < KNOWN; i++) all = all && refusals[i] == i && strcmp(plan_refusal_words((uint16_t)i), words[i]) == 0;
    expect(all, "refusals 0 to 18, 20 and 21, and their words");
    all = 1;
    for (long i = KNOWN; i < 65536; i++) all = all && strcmp(plan_refusal_words((uint16_t)i), "unknown refusal") == 0;
    expect(all, "words of all other numbers");
    expect(PLAN_ALARM == 0 && PLAN_CONTACT == 1 && PLAN_MESSAGE == 2 && PLAN_WAIT == 3, "kinds");
    expect(PLAN_ANSWERED == 0 && PLAN_ENGAGED == 1 && PLAN_NO_REPLY == 2 && PLAN_LINE_FAULT == 3, "exits");
    expect(PLAN_OPEN == 0 && PLAN_SPENT == 1 && PLAN_STOPPED == 2, "endings");
    expect(PLAN_PLACES == 128 && PLAN_EXITS == 4 && PLAN_CABINS == 8 && PLAN_LINE_CABINS == 16, "numbers of places, exits and cabins");
    expect(PLAN_IMAGE_MAX == 42 + 22 * PLAN_PLACES && PLAN_SLIP_MAX == 6 + 44 * PLAN_PLACES, "sizes");
    expect(PLAN_STEPS_ROOM == PLAN_PLACES - 1 && PLAN_PREVIEW_ROOM == PLAN_STEPS_ROOM, "room for the numbers of steps, by both names");
}

static void edits(void) {
    lent m = p1();
    plan_table *t = &m.table;
    plan_reply r = plan_add(t, 1, PLAN_NO_REPLY, PLAN_CONTACT, 1, 0);
    expect(gave(r, 0, 2, 0), "P2");
    r = plan_link(t, 0, PLAN_ANSWERED, 2, PLAN_NO_REPLY);
    plan_read_reply s = plan_read(t, 1);
    expect(gave(r, 0, 0, 0) && s.refusal == 0 && s.counts[0] == 1 && s.counts[1] == 1, "P3");
    r = plan_link(t, 1, PLAN_NO_REPLY, 0, PLAN_ENGAGED);
    s = plan_read(t, 2);
    expect(gave(r, 0, 0, 0) && s.kind == PLAN_CONTACT && s.content == 1 && s.counts[0] == 1 && s.counts[1] == 1, "P4");
    r = plan_clear(t, 0, PLAN_ANSWERED);
    s = plan_read(t, 2);
    expect(gave(r, 0, 2, 0) && t->own[1] == 1 && s.own == 1 && s.targets[2] == 1 && s.bits[2] == 1, "P5");
    expect(t->bits[1] == 1 && t->bits[1 * 4 + 2] == 0, "P5, 0 to 2 strong and 1 to 2 weak");
    r = plan_clear(t, 0, PLAN_ENGAGED);
    expect(gave(r, 0, 2, 2) && plan_read(t, 1).refusal == 3 && plan_read(t, 2).refusal == 3, "P6");
    expect(gave(plan_counts(t), 0, 1, 3), "P6, counts");
    r = plan_add(t, 0, 0, PLAN_WAIT, 600, 0);
    expect(gave(r, 0, 3, 0), "P7, first");
    r = plan_add(t, 3, 0, PLAN_MESSAGE, 15, 0);
    expect(gave(r, 0, 1, 0) && gave(plan_counts(t), 0, 3, 1), "P7, second");
    expect(plan_is_sound(t) == 1 && edges_stand(&m), "after P7");
    m = p1();
    expect(gave(plan_link(t, 0, 0, 1, 0), 0, 0, 0) && gave(plan_clear(t, 0, 0), 0, 1, 1), "P8");
    m = p1();
    expect(gave(plan_link(t, 0, 0, 0, 1), 0, 0, 0) && gave(plan_clear(t, 0, 0), 0, 1, 0) && t->bits[1] == t->own[1], "P9");
    expect(edges_stand(&m), "after P9");
}

/* A list of such a table: cabin 4 has no step and is guaranteed all free ones, the others have a step each; all limits differ. */
static void listed(plan_quota quotas[PLAN_CABINS], uint16_t capacity) {
    static const uint16_t guarantees[PLAN_CABINS] = {1, 0, 1, 0, 0, 0, 1, 1};
    for (int i = 0; i < PLAN_CABINS; i++) {
        quotas[i].guarantee = i == 4 ? (uint16_t)(capacity - 8) : guarantees[i];
        quotas[i].limit = (uint16_t)(300 + i);
    }
}

/* A table in which the fields of step 2 and the numbers of the table all differ. The bits are those of step 2's links, which are all strong; the
 * steps that they lead to have these numbers. */
static plan_table numbered(uint16_t capacity, uint16_t last, const uint16_t bits[4], const uint16_t targets[4]) {
    static const uint16_t kinds[8] = {0, 1, 3, 1, 2, 3, 1, 2}, contents[8] = {0, 11, 600, 12, 13, 14, 15, 7}, cabins[8] = {0, 7, 2, 1, 5, 0, 3, 6};
    plan_table t;
    memset(&t, 0, sizeof t);
    t.capacity = capacity;
    t.last = last;
    for (int i = 0; i < 8; i++) {
        const int step = i < 4 ? i : targets[i - 4];
        t.used[step] = 1;
        t.kinds[step] = kinds[i];
        t.contents[step] = contents[i];
        t.cabins[step] = cabins[i];
    }
    listed(t.quotas, capacity);
    t.own[2] = 1;
    for (int i = 0; i < 4; i++) {
        t.targets[2 * 4 + i] = targets[i];
        t.bits[2 * 4 + i] = t.own[targets[i]] = bits[i];
        t.counts[targets[i] * 2 + bits[i]] = 1;
    }
    for (int i = 0; i < 3; i++) t.targets[i] = (uint16_t)(i + 1);
    t.bits[1] = 1;
    t.counts[1 * 2] = t.counts[3 * 2] = 1;
    /* seven strong links to step 2, with step 0's, and five weak ones */
    for (int i = 0; i < 4; i++) t.targets[1 * 4 + i] = t.targets[targets[0] * 4 + i] = 2, t.bits[1 * 4 + i] = 1;
    for (int i = 0; i < 2; i++) t.targets[3 * 4 + i] = 2, t.bits[3 * 4 + i] = 1;
    t.targets[targets[1] * 4] = 2;
    t.counts[2 * 2] = 5;
    t.counts[2 * 2 + 1] = 7;
    return t;
}

static plan_table different(const uint16_t bits[4]) {
    static const uint16_t targets[4] = {4, 6, 8, 10};
    return numbered(11, 9, bits, targets);
}

/* Bits of step 2's links; any two of its exits have different ones in one of the patterns. */
static const uint16_t patterns[3][4] = {{0, 1, 0, 1}, {0, 0, 1, 1}, {1, 0, 0, 1}};

/* Every field of every reply and every argument has a number of its own, so that no two can be exchanged unseen. */
static void fields(void) {
    static const uint8_t results[5] = {3, 3, 3, 3, 3}, entered[7] = {1, 2, 4, 2, 4, 2, 4};
    uint8_t trace[9];
    plan_table t;
    for (int p = 0; p < 3; p++) {
        const uint16_t *bits = patterns[p];
        t = different(bits);
        plan_read_reply s = plan_read(&t, 2);
        expect(s.refusal == 0 && s.kind == 3 && s.content == 600 && s.own == 1 && s.counts[0] == 5 && s.counts[1] == 7, "fields of a step");
        expect(s.cabin == 2, "cabin of a step");
        expect(s.targets[0] == 4 && s.targets[1] == 6 && s.targets[2] == 8 && s.targets[3] == 10, "targets of a step");
        expect(memcmp(s.bits, bits, sizeof s.bits) == 0, "bits of a step");
        expect(gave(plan_counts(&t), 0, 8, 3) && gave(plan_key_line(&t, (const uint8_t *)"H*4A", 4), 0, 8, 3), "8 in use, 3 free");
        memset(trace, UNTOUCHED, sizeof trace);
        plan_trial_reply r = plan_trial(&t, 7, results, 5, trace, 9);
        expect(r.refusal == 0 && r.ending == PLAN_STOPPED && r.last == 4 && r.moves == 7, "stopped at 4 after 7");
        expect(memcmp(trace, entered, 7) == 0 && all_untouched(trace + 7, 2), "its trace");
        expect(gave(plan_add(&t, 10, PLAN_NO_REPLY, PLAN_CONTACT, 99, 4), 0, 5, 0) && t.targets[10 * 4 + 2] == 5, "add 10, 2, 1, 99 for cabin 4");
        expect(t.kinds[5] == PLAN_CONTACT && t.contents[5] == 99 && t.cabins[5] == 4 && t.last == 5, "the step added");
        expect(gave(plan_link(&t, 2, PLAN_LINE_FAULT, 8, PLAN_ENGAGED), 0, 0, 0) && t.targets[8 * 4 + 1] == 10, "link 2, 3 to 8, 1");
        expect(gave(plan_clear(&t, 8, PLAN_ENGAGED), 0, 0, 0) && gave(plan_clear(&t, 10, PLAN_NO_REPLY), 0, 1, 1), "both cleared");
        plan_table as_was = different(bits);
        as_was.last = 5;
        expect(same(&t, &as_was), "the table but for its last number");
    }
    fresh(&t, 9);
    plan_add(&t, 0, 0, PLAN_CONTACT, 0, 0);
    plan_add(&t, 1, 1, PLAN_CONTACT, 0, 0);
    plan_add(&t, 2, 3, PLAN_CONTACT, 0, 0);
    plan_link(&t, 1, 1, 0, 2);
    expect(gave(plan_clear(&t, 0, 0), 0, 3, 1) && gave(plan_counts(&t), 0, 3, 6), "a clearing with 3 doubtful and 1 freed");
}

/* Whether bytes are refused, and a fresh table of capacity 1 is left. */
static int not_loaded(const uint8_t *bytes, size_t length) {
    plan_table t, fresh1;
    fresh(&fresh1, 1);
    memset(&t, UNTOUCHED, sizeof t);
    return gave(plan_load_image(&t, bytes, length), PLAN_NOT_ACCEPTED, 0, 0) && same(&t, &fresh1);
}

/* P10 is F4's image in edition 1. */
static const uint8_t p10[30] = {0x0A, 0, 1, 0, 4, 0, 0, 0, 1, 0, 0x14, 0, 2};

static void images(void) {
    enum { HEADER = 42, LENGTH = HEADER + 22 };
    static const uint8_t header[14] = {0x2A, 0, 3, 0, 4, 0, 0, 0, 1, 0, 3, 0, 3, 0}, step[4] = {0x16, 0, 4, 0};
    uint8_t f4_image[LENGTH], buffer[LENGTH + 10];
    lent m = f4(), n = p1();
    plan_table *t = &n.table;
    int all = 1;
    memset(f4_image, 0, sizeof f4_image);
    memcpy(f4_image, header, sizeof header);
    memcpy(f4_image + HEADER, step, sizeof step);
    plan_write_reply w = plan_image_length(&m.table);
    expect(w.refusal == 0 && w.length == LENGTH, "length of F4's image");
    memset(buffer, UNTOUCHED, sizeof buffer);
    w = plan_write_image(&m.table, buffer, LENGTH - 1);
    expect(w.refusal == PLAN_TOO_SHORT && w.length == 0 && all_untouched(buffer, sizeof buffer), "F4 written into 63 bytes");
    w = plan_write_image(&m.table, buffer, sizeof buffer);
    expect(w.refusal == 0 && w.length == LENGTH && memcmp(buffer, f4_image, LENGTH) == 0 && all_untouched(buffer + LENGTH, 10), "F4 written");
    w = plan_image_length(t);
    expect(w.refusal == 0 && w.length == LENGTH + 22, "length of P1's image");
    expect(gave(plan_load_image(t, f4_image, LENGTH), 0, 0, 0) && same(t, &m.table), "F4's image loaded over another table");
    memset(t, UNTOUCHED, sizeof *t);
    expect(gave(plan_load_image(t, p10, sizeof p10), 0, 0, 0) && same(t, &m.table), "P10 loaded over bytes that are no table");
    expect(not_loaded(f4_image, 0), "no bytes");
    for (size_t length = 1; length < LENGTH; length++) all = all && not_loaded(f4_image, length);
    for (size_t length = 1; length < sizeof p10; length++) all = all && not_loaded(p10, length);
    expect(all, "images cut short");
    expect(edges_stand(&m) && edges_stand(&n), "after the images");
}

/* The image of edition 1 with the same records as one of edition 2, without list and cabins; gives its length. */
static size_t old_image(const uint8_t *image, size_t length, uint8_t *old) {
    static const uint8_t header[4] = {10, 0, 1, 0}, step[4] = {20, 0, 2, 0};
    size_t to = 10;
    memcpy(old, header, 4);
    memcpy(old + 4, image + 4, 6);
    for (size_t from = 42; from < length; from += 22, to += 20) {
        memcpy(old + to, step, 4);
        memcpy(old + to + 4, image + from + 4, 16);
    }
    return to;
}

/* Both editions (W5). Of edition 1 all steps are charged to cabin 0, which has all of the capacity; a loaded table is written in edition 2. */
static void editions(void) {
    uint8_t image[42 + 3 * 22], old[10 + 3 * 20], again[sizeof image], mixed[sizeof image];
    const size_t length = sizeof image;
    lent m = p1();
    plan_table t;
    int all = 1;
    plan_add(&m.table, 1, 1, PLAN_WAIT, 600, 0);
    plan_link(&m.table, 1, 1, 0, 1);
    expect(plan_write_image(&m.table, image, length).length == length && old_image(image, length, old) == sizeof old, "three steps in both editions");
    memset(&t, UNTOUCHED, sizeof t);
    expect(gave(plan_load_image(&t, old, sizeof old), 0, 0, 0) && same(&t, &m.table), "edition 1 is loaded");
    for (int i = 0; i < PLAN_CABINS; i++) {
        const uint16_t most = i == 0 ? 3 : 0;
        all = all && t.quotas[i].guarantee == most && t.quotas[i].limit == most;
    }
    expect(all && plan_read(&t, 2).cabin == 0, "cabin 0 has all of it");
    expect(plan_write_image(&t, again, length).length == length && memcmp(again, image, length) == 0, "and written as edition 2");
    memcpy(again, old, sizeof old);
    again[4] = 0;
    expect(not_loaded(again, sizeof old), "edition 1 with capacity 0");
    again[4] = 2;
    expect(not_loaded(again, sizeof old), "edition 1 with a step at the capacity");
    memcpy(mixed, image, 42);
    memcpy(mixed + 42, old + 10, 60);
    expect(not_loaded(mixed, 42 + 60), "the header of edition 2, steps of edition 1");
    memcpy(mixed, old, 10);
    memcpy(mixed + 10, image + 42, 66);
    expect(not_loaded(mixed, 10 + 66), "the header of edition 1, steps of edition 2");
    memcpy(mixed, image, length);
    memcpy(mixed + 42 + 44, old + 10 + 40, 20);
    expect(not_loaded(mixed, length - 2), "the last step of edition 1");
    mixed[length - 2] = mixed[length - 1] = 0;
    expect(not_loaded(mixed, length), "the same, as long as one of edition 2");
    memcpy(mixed, old, sizeof old);
    memcpy(mixed + 10 + 40, image + 42 + 44, 22);
    expect(not_loaded(mixed, sizeof old + 2), "the last step of edition 2");
    memcpy(mixed, image, length);
    mixed[0] = 10;
    expect(not_loaded(mixed, length), "kind 3 with length 10");
    mixed[0] = 42, mixed[2] = 1;
    expect(not_loaded(mixed, length), "kind 1 with length 42");
    expect(edges_stand(&m), "after the editions");
}

/* One table, one image (W1): records in any order are one table and are written sorted; other strengths are another table and another image, and so
 * are other cabins and other limits. */
static void one_image(void) {
    enum { LENGTH = 42 + 4 * 22, BITS = 42 + 10 };
    uint8_t written[LENGTH], other[LENGTH], again[LENGTH];
    plan_table t, u;
    fresh(&t, 8);
    plan_add(&t, 0, 0, PLAN_CONTACT, 0, 0);
    plan_add(&t, 1, 1, PLAN_MESSAGE, 15, 0);
    plan_add(&t, 2, 2, PLAN_WAIT, 600, 0);
    expect(plan_write_image(&t, written, LENGTH).length == LENGTH, "four steps are written");
    memcpy(other, written, 42);
    for (int k = 0; k < 4; k++) {
        expect(written[42 + 22 * k + 4] == k, "records ascend");
        memcpy(other + 42 + 22 * k, written + 42 + 22 * ((k + 3) % 4), 22);
    }
    expect(memcmp(other, written, LENGTH) != 0, "another order is other bytes");
    expect(gave(plan_load_image(&u, other, LENGTH), 0, 0, 0) && same(&t, &u), "another order is the same table");
    expect(plan_write_image(&u, again, LENGTH).length == LENGTH && memcmp(again, written, LENGTH) == 0, "and is written sorted");

    fresh(&t, 4);
    plan_add(&t, 0, 0, PLAN_CONTACT, 0, 0);
    plan_link(&t, 0, 0, 0, 1);
    fresh(&u, 4);
    plan_add(&u, 0, 1, PLAN_CONTACT, 0, 0);
    plan_link(&u, 0, 1, 0, 0);
    plan_write_image(&t, written, LENGTH);
    plan_write_image(&u, other, LENGTH);
    expect(written[BITS] == 2 && other[BITS] == 1, "one plan, other strengths: the bits of step 0");
    other[BITS] = 2;
    expect(memcmp(written, other, 42 + 2 * 22) == 0, "and nothing else");
}

/* The image of a table in which the fields of step 2 all differ: the list in the header, the cabin last in a record. */
static void image_fields(void) {
    enum { RECORD = 42 + 2 * 22 };
    uint8_t image[42 + 8 * 22];
    plan_table t, u;
    for (int p = 0; p < 3; p++) {
        int all = 1;
        t = different(patterns[p]);
        expect(plan_write_image(&t, image, sizeof image).length == sizeof image, "eight steps are written");
        for (int i = 0; i < PLAN_CABINS; i++) {
            const uint8_t *pair = image + 10 + 4 * i;
            all = all && pair[0] == t.quotas[i].guarantee && pair[1] == 0 && pair[2] == (300 + i) % 256 && pair[3] == 1;
        }
        expect(all && image[0] == 42 && image[2] == 3 && image[4] == 11 && image[6] == 9 && image[8] == 8, "the header");
        expect(image[RECORD] == 22 && image[RECORD + 2] == 4 && image[RECORD + 4] == 2 && image[RECORD + 20] == 2, "the record of step 2");
        expect(gave(plan_load_image(&u, image, sizeof image), 0, 0, 0) && same(&u, &t), "it is loaded again");
    }
}

/* The conversion to an edition: 2 is up, 1 is down. */
static plan_write_reply convert(int to, const uint8_t *bytes, size_t length, uint8_t *buffer, size_t room) {
    return to == 2 ? plan_convert_up(bytes, length, buffer, room) : plan_convert_down(bytes, length, buffer, room);
}

/* Whether a conversion is refused so, with length 0, and writes nothing. */
static int not_converted(int to, const uint8_t *bytes, size_t length, size_t room, int refusal) {
    static uint8_t buffer[PLAN_IMAGE_MAX + EDGE];
    memset(buffer, UNTOUCHED, sizeof buffer);
    plan_write_reply w = convert(to, bytes, length, buffer, room);
    return w.refusal == refusal && w.length == 0 && all_untouched(buffer, sizeof buffer);
}

/* Whether a conversion gives this image, and leaves the bytes given, those around the buffer and those past the image. The room is just enough, and
 * then more; one byte less, or none, is refused. */
static int converted(int to, const uint8_t *bytes, size_t length, const uint8_t *image, size_t size) {
    static uint8_t given[PLAN_IMAGE_MAX], around[EDGE + PLAN_IMAGE_MAX + EDGE];
    const size_t rooms[3] = {size, size + 1, PLAN_IMAGE_MAX};
    int all = not_converted(to, bytes, length, size - 1, PLAN_TOO_SHORT) && not_converted(to, bytes, length, 0, PLAN_TOO_SHORT);
    memcpy(given, bytes, length);
    for (int i = 0; i < 3; i++) {
        memset(around, UNTOUCHED, sizeof around);
        plan_write_reply w = convert(to, given, length, around + EDGE, rooms[i]);
        all = all && w.refusal == 0 && w.length == size && memcmp(given, bytes, length) == 0;
        all = all && all_untouched(around, EDGE) && memcmp(around + EDGE, image, size) == 0;
        all = all && all_untouched(around + EDGE + size, sizeof around - EDGE - size);
    }
    return all;
}

/* The same image with its step records in the opposite order. */
static void turned(const uint8_t *image, size_t length, size_t header, size_t step, uint8_t *other) {
    memcpy(other, image, header);
    for (size_t at = header; at < length; at += step) memcpy(other + at, image + length + header - at - step, step);
}

/* Whether the images of a table in both editions are converted into each other, with their records in either order. */
static int both_ways(const plan_table *t) {
    static uint8_t image[PLAN_IMAGE_MAX], old[PLAN_IMAGE_MAX], other[PLAN_IMAGE_MAX];
    const size_t length = plan_write_image(t, image, sizeof image).length, size = old_image(image, length, old);
    int all = converted(2, old, size, image, length) && converted(1, image, length, old, size);
    turned(old, size, 10, 20, other);
    all = all && converted(2, other, size, image, length);
    all = all && not_converted(1, other, size, 0, PLAN_NOT_ACCEPTED) && not_converted(1, other, size, PLAN_IMAGE_MAX, PLAN_NOT_ACCEPTED);
    turned(image, length, 42, 22, other);
    all = all && converted(1, other, length, old, size);
    return all && not_converted(2, other, length, 0, PLAN_NOT_ACCEPTED) && not_converted(2, other, length, PLAN_IMAGE_MAX, PLAN_NOT_ACCEPTED);
}

/* Gives a table to cabin 0. */
static void of_one_cabin(plan_table *t) {
    memset(t->cabins, 0, sizeof t->cabins);
    plan_sole_quotas(t->quotas, t->capacity);
}

/* Conversions (W6): P10, the smallest and the largest images, and tables in which the fields of step 2 all differ. */
static void conversions(void) {
    static const uint16_t capacities[4] = {1, 2, 127, 128};
    uint8_t image[64];
    lent m = f4();
    plan_table *t = &m.table;
    expect(plan_write_image(t, image, sizeof image).length == sizeof image, "F4 in edition 2");
    expect(converted(1, image, sizeof image, p10, sizeof p10), "P10, F4 in edition 1");
    expect(converted(2, p10, sizeof p10, image, sizeof image), "P10 in edition 2 again");
    expect(not_converted(2, p10, 0, sizeof image, PLAN_NOT_ACCEPTED) && not_converted(1, p10, 0, sizeof image, PLAN_NOT_ACCEPTED), "no bytes");
    for (int i = 0; i < 4; i++) {
        fresh(t, capacities[i]);
        expect(both_ways(t), "step 0 alone");
    }
    for (int p = 0; p < 3; p++) {
        *t = different(patterns[p]);
        of_one_cabin(t);
        expect(plan_is_sound(t) == 1 && both_ways(t), "all fields of step 2 different");
        t->own[0] = 1;
        expect(both_ways(t), "and step 0 with bit 1");
    }
    fresh(t, 128);
    for (uint16_t step = 0; step < 127; step++) plan_add(t, step, step % 4, PLAN_WAIT, 600, 0);
    expect(plan_image_length(t).length == PLAN_IMAGE_MAX && both_ways(t), "128 steps");
    expect(edges_stand(&m), "after the conversions");
}

/* Whether an image of edition 2 is loaded and needs edition 2, whatever the room; up, it is of the other edition. */
static int needs_edition_2(const uint8_t *image, size_t length) {
    plan_table t;
    int all = gave(plan_load_image(&t, image, length), 0, 0, 0) && not_converted(2, image, length, PLAN_IMAGE_MAX, PLAN_NOT_ACCEPTED);
    all = all && not_converted(1, image, length, 0, PLAN_NEEDS_EDITION_2);
    return all && not_converted(1, image, length, PLAN_IMAGE_MAX, PLAN_NEEDS_EDITION_2);
}

/* What edition 1 cannot say (W6): P1's image with another list, and steps of other cabins; 12 comes before 17, and 17 before 11. */
static void other_lists(void) {
    enum { LENGTH = 42 + 2 * 22, LIST = 10, CABIN = 42 + 22 + 20 };
    static const uint8_t sole[6][2] = {{2, 3}, {0, 3}, {3, 4}, {3, 255}, {0, 1}, {1, 1}};
    uint8_t image[LENGTH], other[LENGTH];
    lent m = p1();
    expect(plan_write_image(&m.table, image, LENGTH).length == LENGTH, "P1's image");
    for (int i = 0; i < 6; i++) {
        memcpy(other, image, LENGTH);
        other[LIST] = sole[i][0], other[LIST + 2] = sole[i][1];
        expect(needs_edition_2(other, LENGTH), "another guarantee or limit of cabin 0");
    }
    memcpy(other, image, LENGTH);
    other[LIST + 3] = 1;
    expect(needs_edition_2(other, LENGTH), "a limit that differs in its high byte");
    for (int cabin = 1; cabin < PLAN_CABINS; cabin++) {
        uint8_t *pair = other + LIST + 4 * cabin;
        memcpy(other, image, LENGTH);
        pair[2] = 1;
        expect(needs_edition_2(other, LENGTH), "a limit of another cabin");
        pair[2] = 0, pair[3] = 128;
        expect(needs_edition_2(other, LENGTH), "and one in its high byte");
        pair[0] = pair[2] = 1, other[LIST] = 2;
        expect(needs_edition_2(other, LENGTH), "a guarantee of another cabin");
        memcpy(other, image, LENGTH);
        other[CABIN] = (uint8_t)cabin;
        expect(not_converted(1, other, LENGTH, PLAN_IMAGE_MAX, PLAN_NOT_ACCEPTED), "a step of another cabin, whose limit is 0");
        pair[2] = 1, other[LIST] = 2;
        expect(needs_edition_2(other, LENGTH), "a step of another cabin");
        other[CABIN + 1] = 1;
        expect(not_converted(1, other, LENGTH, 0, PLAN_NOT_ACCEPTED), "a cabin out of range, another list and no room");
        other[CABIN + 1] = 0;
        expect(not_converted(1, other, LENGTH - 1, 0, PLAN_NOT_ACCEPTED), "an image cut short, another list and no room");
    }
}

/* Whether edition 1 can say a sound table: cabin 0 has it to itself, and no contact is above 99 (W9). */
static int old_can_say(const plan_table *t) {
    plan_table one = *t;
    of_one_cabin(&one);
    for (int i = 0; i < PLAN_PLACES; i++) {
        if (t->kinds[i] == PLAN_CONTACT && t->contents[i] > 99) return 0;
    }
    return same(t, &one);
}

/* Whether an image that may be damaged is converted to the other edition exactly if it is loaded and edition 1 can say it: then it is the image of the
 * table loaded. What is loaded from edition 1, edition 1 can say. Its own edition is refused. Counts the refusals. */
static int answered(int edition, const uint8_t *bytes, size_t length, int met[18]) {
    static uint8_t image[PLAN_IMAGE_MAX], old[PLAN_IMAGE_MAX];
    plan_table t;
    const int refusal = plan_load_image(&t, bytes, length).refusal, needs = old_can_say(&t) ? PLAN_DONE : PLAN_NEEDS_EDITION_2;
    const size_t full = plan_write_image(&t, image, sizeof image).length, size = old_image(image, full, old);
    const int wanted = refusal ? refusal : needs;
    met[wanted]++;
    if (!not_converted(edition, bytes, length, PLAN_IMAGE_MAX, PLAN_NOT_ACCEPTED)) return 0;
    if (wanted) return not_converted(3 - edition, bytes, length, PLAN_IMAGE_MAX, wanted) && not_converted(3 - edition, bytes, length, 0, wanted);
    return edition == 1 ? converted(2, bytes, length, image, full) : converted(1, bytes, length, old, size);
}

/* Every value in every byte of an image; the image cut short, and with a byte more. */
static int damaged(int edition, const uint8_t *image, size_t length, int met[18]) {
    static uint8_t bytes[PLAN_IMAGE_MAX + 1];
    int all = answered(edition, image, length, met);
    memset(bytes, 0, sizeof bytes);
    memcpy(bytes, image, length);
    for (size_t i = 0; i < length; i++) {
        for (int value = 0; value < 256; value++) {
            bytes[i] = (uint8_t)value;
            all = all && answered(edition, bytes, length, met);
        }
        bytes[i] = image[i];
        all = all && not_converted(1, bytes, i, PLAN_IMAGE_MAX, PLAN_NOT_ACCEPTED) && not_converted(2, bytes, i, PLAN_IMAGE_MAX, PLAN_NOT_ACCEPTED);
    }
    return all && answered(edition, bytes, length + 1, met);
}

/* Damaged images of both editions: two steps, and three of two cabins with bits. Then bytes that are no image. */
static void damaged_images(void) {
    static const plan_quota quotas[PLAN_CABINS] = {{1, 3}, {0, 0}, {0, 0}, {1, 2}};
    uint8_t image[42 + 3 * 22], old[10 + 3 * 20], other[sizeof image];
    int met[18] = {0}, all = 1;
    lent m = p1();
    plan_table *t = &m.table;
    plan_link(t, 0, 0, 1, 1);
    const size_t length = plan_write_image(t, image, sizeof image).length, size = old_image(image, length, old);
    expect(damaged(1, old, size, met) && met[PLAN_DONE] > 200 && met[PLAN_NOT_ACCEPTED] > 1000, "an image of edition 1, damaged");
    expect(damaged(2, image, length, met) && met[PLAN_NEEDS_EDITION_2] > 1000, "an image of edition 2, damaged");
    turned(image, length, 42, 22, other);
    expect(damaged(2, other, length, met), "its records exchanged");
    plan_fresh(t, 6, quotas);
    plan_add(t, 0, 0, PLAN_CONTACT, 0, 3);
    plan_add(t, 1, 0, PLAN_CONTACT, 99, 0);
    plan_link(t, 1, 0, 0, 1);
    plan_clear(t, 1, 0);
    expect(plan_write_image(t, image, sizeof image).length == sizeof image, "two cabins");
    expect(damaged(2, image, sizeof image, met), "an image of two cabins, damaged");
    memcpy(image + 42 + 44, old + 10, 20);
    expect(answered(2, image, sizeof image - 2, met) && answered(2, image, sizeof image, met), "the last step of edition 1");
    for (int value = 0; value < 256; value++) {
        memset(image, value, sizeof image);
        all = all && answered(1, image, sizeof image, met) && answered(2, image, sizeof image, met);
    }
    expect(all, "one value in every byte");
}

/* Tries every call that can be refused on a table, whichever refusal comes, and says whether a refused call left every byte. */
static int leaves_every_byte(lent *m, const uint16_t a[4], const uint8_t *line) {
    const lent was = *m;
    plan_table *t = &m->table;
    uint8_t lent_bytes[PLAN_IMAGE_MAX];
    const size_t room = sizeof lent_bytes;
    const uint8_t results[2] = {(uint8_t)a[0], (uint8_t)a[1]};
    const plan_quota quotas[PLAN_CABINS] = {{a[1], a[2]}, {a[3], a[0]}};
    int all = 1;
    if (plan_add(t, a[0], a[1], a[2], a[3], a[1]).refusal) all = all && memcmp(m, &was, sizeof was) == 0;
    *m = was;
    if (plan_link(t, a[0], a[1], a[2], a[3]).refusal) all = all && memcmp(m, &was, sizeof was) == 0;
    *m = was;
    if (plan_clear(t, a[0], a[1]).refusal) all = all && memcmp(m, &was, sizeof was) == 0;
    *m = was;
    if (plan_squeeze(t, a[0], quotas).refusal) all = all && memcmp(m, &was, sizeof was) == 0;
    *m = was;
    if (plan_key_line(t, line, strlen((const char *)line)).refusal) all = all && memcmp(m, &was, sizeof was) == 0;
    *m = was;
    memset(lent_bytes, UNTOUCHED, room);
    if (plan_clear_with_slip(t, a[0], a[1], lent_bytes, a[2] < room ? a[2] : room).refusal) {
        all = all && all_untouched(lent_bytes, room) && memcmp(m, &was, sizeof was) == 0;
    }
    *m = was;
    if (plan_take_back(t, lent_bytes, a[3] < room ? a[3] : room).refusal) all = all && memcmp(m, &was, sizeof was) == 0;
    *m = was;
    memset(lent_bytes, UNTOUCHED, room);
    if (plan_preview_clear(t, a[0], a[1], lent_bytes, a[2] < room ? a[2] : room).refusal) all = all && all_untouched(lent_bytes, room);
    memset(lent_bytes, UNTOUCHED, room);
    if (plan_rung(t, lent_bytes, a[2] < room ? a[2] : room).refusal) all = all && all_untouched(lent_bytes, room);
    memset(lent_bytes, UNTOUCHED, room);
    if (plan_trial(t, a[3], results, 2, lent_bytes, a[2] < room ? a[2] : room).refusal) all = all && all_untouched(lent_bytes, room);
    memset(lent_bytes, UNTOUCHED, room);
    if (plan_write_image(t, lent_bytes, a[3] < room ? a[3] : room).refusal) all = all && all_untouched(lent_bytes, room);
    (void)plan_read(t, a[0]);
    (void)plan_counts(t);
    (void)plan_image_length(t);
    (void)plan_is_sound(t);
    return all && memcmp(m, &was, sizeof was) == 0;
}

/* A call that has to be refused with this number, and leave every byte. */
#define REFUSED(number, m, call) do { \
        lent was_ = (m); \
        expect(gave(call, number, 0, 0) && memcmp(&was_, &(m), sizeof was_) == 0, #call ", refusal " #number); \
    } while (0)

static void refusals(void) {
    static const uint16_t capacities[5] = {0, 129, 256, 257, 65535};
    static const uint16_t odd[8] = {0, 1, 2, 3, 4, 128, 256, 65535};
    static const char *const lines[5] = {"H*100001000A", "H*200000012A", "H*30000A", "H*4A", "H*5A"};
    lent f = f4(), p = p1(), out = f4(), one = f4();
    plan_table fresh1;
    int all = 1;
    expect(gave(fresh(&fresh1, 1), 0, 0, 0) && gave(fresh(&one.table, 128), 0, 0, 0), "fresh 1 and 128");
    for (int i = 0; i < 5; i++) {
        memset(&one.table, UNTOUCHED, sizeof one.table);
        all = all && gave(fresh(&one.table, capacities[i]), PLAN_BAD_CAPACITY, 0, 0) && same(&one.table, &fresh1);
    }
    expect(all && edges_stand(&one), "capacities that are refused");
    out.table.used[0] = 0;
    REFUSED(1, out, plan_add(&out.table, 9, 9, 9, 9, 9));
    REFUSED(1, out, plan_link(&out.table, 9, 9, 9, 9));
    REFUSED(1, out, plan_clear(&out.table, 9, 9));
    REFUSED(1, out, squeeze(&out.table, 0));
    REFUSED(1, out, plan_counts(&out.table));
    REFUSED(1, out, plan_key_line(&out.table, (const uint8_t *)"H*5A", 4));
    expect(plan_is_sound(&out.table) == 0 && plan_read(&out.table, 9).refusal == 1, "read of a table that is not sound");
    expect(plan_image_length(&out.table).refusal == 1 && plan_image_length(&out.table).length == 0, "image length of one");
    expect(plan_write_image(&out.table, one.before, 0).refusal == 1, "image of one");
    expect(plan_trial(&out.table, 1, out.before, EDGE, one.before, 0).refusal == 1 && edges_stand(&one), "trial of one");
    expect(plan_read(&f.table, 1).refusal == 3 && plan_read(&f.table, 65535).refusal == 3, "F4, read 1");
    /* cabin 7 may have no step, so that 14 would come later */
    REFUSED(3, f, plan_add(&f.table, 1, 4, 0, 0, 7));
    REFUSED(3, f, plan_link(&f.table, 256, 4, 9, 9));
    REFUSED(3, f, plan_clear(&f.table, 128, 4));
    REFUSED(4, f, plan_clear(&f.table, 0, 4));
    REFUSED(4, p, plan_add(&p.table, 0, 256, 0, 0, 7));
    REFUSED(4, p, plan_link(&p.table, 0, 4, 9, 9));
    REFUSED(4, p, plan_link(&p.table, 0, 0, 0, 4));
    REFUSED(5, p, plan_add(&p.table, 0, 0, 0, 0, 7));
    REFUSED(5, p, plan_link(&p.table, 0, 0, 0, 0));
    REFUSED(6, f, plan_clear(&f.table, 0, 0));
    REFUSED(6, f, plan_link(&f.table, 0, 0, 9, 9));
    REFUSED(7, f, plan_add(&f.table, 0, 0, PLAN_WAIT, 0, 7));
    REFUSED(7, f, plan_add(&f.table, 0, 0, PLAN_WAIT, 601, 0));
    REFUSED(7, f, plan_add(&f.table, 0, 0, PLAN_CONTACT, 1000, 0));
    REFUSED(7, f, plan_add(&f.table, 0, 0, PLAN_CONTACT, 65535, 0));
    REFUSED(7, f, plan_add(&f.table, 0, 0, PLAN_MESSAGE, 16, 0));
    REFUSED(7, f, plan_add(&f.table, 0, 0, PLAN_ALARM, 0, 0));
    REFUSED(7, f, plan_add(&f.table, 0, 0, 257, 0, 0));
    one.table = fresh1;
    REFUSED(8, one, plan_add(&one.table, 0, 0, PLAN_CONTACT, 0, 0));
    REFUSED(9, f, plan_key_line(&f.table, (const uint8_t *)"H*5A", 4));
    REFUSED(9, f, plan_key_line(&f.table, (const uint8_t *)"H*4A ", 5));
    REFUSED(9, f, plan_key_line(&f.table, f.before, 0));
    REFUSED(6, f, plan_key_line(&f.table, (const uint8_t *)"H*30000A", 8));
    for (int i = 0; i < 5; i++) REFUSED(2, p, squeeze(&p.table, capacities[i]));
    REFUSED(13, p, squeeze(&p.table, 1));
    all = 1;
    for (int i = 0; i < 8 * 8 * 8 * 8; i++) {
        const uint16_t a[4] = {odd[i % 8], odd[i / 8 % 8], odd[i / 64 % 8], odd[i / 512]};
        lent *tables[4];
        tables[0] = &f, tables[1] = &p, tables[2] = &out, tables[3] = &one;
        for (int k = 0; k < 4; k++) all = all && leaves_every_byte(tables[k], a, (const uint8_t *)lines[i % 5]);
    }
    expect(all, "a refused call leaves every byte, and so does a call that reads");
}

/* Whether fresh answers so over bytes that are no table, and leaves the list as it is: refused, with a fresh table of capacity 1; else with a table
 * that has the list, and is otherwise that of one cabin. */
static int made(uint16_t capacity, const plan_quota quotas[PLAN_CABINS], int refusal) {
    lent m;
    plan_table expected;
    plan_quota list[PLAN_CABINS];
    memset(&m, UNTOUCHED, sizeof m);
    memcpy(list, quotas, sizeof list);
    fresh(&expected, refusal ? 1 : capacity);
    if (!refusal) memcpy(expected.quotas, quotas, sizeof expected.quotas);
    if (!gave(plan_fresh(&m.table, capacity, list), refusal, 0, 0) || memcmp(list, quotas, sizeof list) != 0) return 0;
    return same(&m.table, &expected) && edges_stand(&m) && plan_is_sound(&m.table) == 1;
}

/* Lists of guarantees and limits (W5): that of one cabin, and those that a fresh table takes or refuses. */
static void lists(void) {
    static const uint16_t capacities[6] = {0, 1, 2, 128, 129, 65535};
    plan_quota around[PLAN_CABINS + 2], quotas[PLAN_CABINS];
    int all = 1;
    for (int i = 0; i < 6; i++) {
        const uint16_t most = (uint16_t)(capacities[i] ? capacities[i] - 1 : 0);
        memset(around, UNTOUCHED, sizeof around);
        plan_sole_quotas(around + 1, capacities[i]);
        for (int k = 0; k < PLAN_CABINS; k++) all = all && around[k + 1].guarantee == (k ? 0 : most) && around[k + 1].limit == (k ? 0 : most);
        all = all && all_untouched((const uint8_t *)around, sizeof around[0]);
        all = all && all_untouched((const uint8_t *)(around + PLAN_CABINS + 1), sizeof around[0]);
    }
    expect(all, "the list of one cabin");
    memset(quotas, 0, sizeof quotas);
    expect(made(1, quotas, PLAN_DONE) && made(128, quotas, PLAN_DONE), "a list of zeros");
    for (int i = 0; i < PLAN_CABINS; i++) {
        quotas[i].guarantee = 3;
        quotas[i].limit = 2;
        expect(made(128, quotas, PLAN_BAD_CABINS), "a limit below its guarantee");
        expect(made(129, quotas, PLAN_BAD_CAPACITY) && made(0, quotas, PLAN_BAD_CAPACITY), "and a capacity out of range");
        quotas[i].limit = 3;
        expect(made(4, quotas, PLAN_DONE) && made(3, quotas, PLAN_BAD_CABINS), "one cabin is guaranteed all steps, or one more");
        quotas[i].guarantee = 0;
        quotas[i].limit = 65535;
    }
    expect(made(1, quotas, PLAN_DONE) && made(128, quotas, PLAN_DONE), "no bound on limits");
    for (uint16_t i = 0; i < PLAN_CABINS; i++) quotas[i].guarantee = i;
    expect(made(29, quotas, PLAN_DONE) && made(28, quotas, PLAN_BAD_CABINS), "guarantees together, 28");
    for (int i = 0; i < PLAN_CABINS; i++) quotas[i].guarantee = 65536 / PLAN_CABINS;
    expect(made(128, quotas, PLAN_BAD_CABINS), "guarantees together, 65,536");
    memset(quotas, 0, sizeof quotas);
    quotas[2].guarantee = quotas[5].guarantee = 32768;
    quotas[2].limit = quotas[5].limit = 65535;
    expect(made(128, quotas, PLAN_BAD_CABINS) && made(1, quotas, PLAN_BAD_CABINS), "twice 32,768");
}

/* Adds of several cabins, one step below the other. Cabin 0 is guaranteed 1 step and may have 2, cabin 1 2 and 3, cabin 3 none and 5; the others may
 * have none. */
static void cabins(void) {
    static const plan_quota quotas[PLAN_CABINS] = {{1, 2}, {2, 3}, {0, 0}, {0, 5}};
    static const uint16_t charged[6] = {0, 3, 3, 0, 1, 1};
    lent m = f4(), out;
    plan_table *t = &m.table;
    expect(gave(plan_fresh(t, 6, quotas), 0, 0, 0), "a table of three cabins");
    REFUSED(16, m, plan_add(t, 0, 0, PLAN_CONTACT, 0, 8));
    REFUSED(16, m, plan_add(t, 9, 9, 9, 9, 256));
    REFUSED(16, m, plan_add(t, 9, 9, 9, 9, 65535));
    out = m;
    out.table.last = 6;
    REFUSED(1, out, plan_add(&out.table, 9, 9, 9, 9, 8));
    REFUSED(14, m, plan_add(t, 0, 0, PLAN_CONTACT, 0, 2));
    REFUSED(7, m, plan_add(t, 0, 0, PLAN_CONTACT, 1000, 2));
    expect(gave(plan_add(t, 0, 0, PLAN_CONTACT, 0, 3), 0, 1, 0) && gave(plan_add(t, 1, 0, PLAN_CONTACT, 0, 3), 0, 2, 0), "two that are not reserved");
    REFUSED(15, m, plan_add(t, 2, 0, PLAN_CONTACT, 0, 3));
    REFUSED(14, m, plan_add(t, 2, 0, PLAN_CONTACT, 0, 2));
    REFUSED(7, m, plan_add(t, 2, 0, PLAN_ALARM, 0, 3));
    expect(gave(plan_add(t, 2, 0, PLAN_CONTACT, 0, 0), 0, 3, 0), "the step that cabin 0 is guaranteed");
    REFUSED(15, m, plan_add(t, 3, 0, PLAN_CONTACT, 0, 0));
    expect(gave(plan_add(t, 3, 0, PLAN_CONTACT, 0, 1), 0, 4, 0) && gave(plan_add(t, 4, 0, PLAN_CONTACT, 0, 1), 0, 5, 0), "the two of cabin 1");
    for (uint16_t i = 0; i < 4; i++) REFUSED(8, m, plan_add(t, 5, 0, PLAN_CONTACT, 0, i));
    REFUSED(16, m, plan_add(t, 5, 0, PLAN_CONTACT, 0, 8));
    for (uint16_t i = 0; i < 6; i++) expect(t->cabins[i] == charged[i] && plan_read(t, i).cabin == charged[i], "the cabin of a step");
    expect(gave(plan_clear(t, 4, 0), 0, 1, 1) && t->cabins[5] == 0, "a freed step has cabin 0");
    REFUSED(15, m, plan_add(t, 4, 0, PLAN_CONTACT, 0, 3));
    REFUSED(15, m, plan_add(t, 4, 0, PLAN_CONTACT, 0, 0));
    expect(gave(plan_add(t, 4, 0, PLAN_CONTACT, 0, 1), 0, 5, 0) && t->cabins[5] == 1, "it is kept for the cabin that had it");
    expect(gave(plan_clear(t, 0, 0), 0, 5, 5) && gave(plan_add(t, 0, 0, PLAN_CONTACT, 0, 3), 0, 1, 0), "a charge goes with its steps");
    expect(memcmp(t->quotas, quotas, sizeof quotas) == 0 && edges_stand(&m), "the list stays");
}

/* A cabin below its guarantee is never refused for want of a step: all others add until they are refused, then it adds what it is guaranteed. */
static void guarantees(void) {
    plan_quota quotas[PLAN_CABINS];
    for (uint16_t i = 0; i < PLAN_CABINS; i++) quotas[i].guarantee = i, quotas[i].limit = 128;
    for (uint16_t cabin = 0; cabin < PLAN_CABINS; cabin++) {
        const uint16_t wanted = cabin ? PLAN_STEPS_RESERVED : PLAN_FULL;
        plan_table t;
        uint16_t last = 0;
        int all = gave(plan_fresh(&t, 128, quotas), 0, 0, 0);
        for (uint16_t other = 0; other < PLAN_CABINS; other++) {
            plan_reply r;
            if (other == cabin) continue;
            while ((r = plan_add(&t, last, 0, PLAN_WAIT, 1, other)).refusal == PLAN_DONE) last = r.first;
        }
        for (uint16_t other = 0; other < PLAN_CABINS; other++) {
            if (other != cabin) all = all && plan_add(&t, last, 0, PLAN_WAIT, 1, other).refusal == wanted;
        }
        expect(all && gave(plan_counts(&t), 0, 128 - cabin, cabin), "all other cabins have what they get");
        for (uint16_t i = 0; i < cabin; i++, last++) all = all && gave(plan_add(&t, last, 0, PLAN_WAIT, 1, cabin), 0, last + 1, 0);
        expect(all && plan_add(&t, last, 0, PLAN_WAIT, 1, cabin).refusal == PLAN_FULL, "a cabin gets what it is guaranteed");
    }
}

/* Key lines add for cabin 0, and are refused as it is. */
static void keyed_cabins(void) {
    static const plan_quota few[PLAN_CABINS] = {{0, 1}, {0, 9}}, none[PLAN_CABINS] = {{0, 3}, {3, 3}};
    const uint8_t *line = (const uint8_t *)"H*100001000A", *second = (const uint8_t *)"H*100011000A";
    lent m = f4();
    plan_fresh(&m.table, 4, few);
    expect(gave(plan_key_line(&m.table, line, 12), 0, 1, 0) && plan_read(&m.table, 1).cabin == 0, "a key line adds for cabin 0");
    REFUSED(14, m, plan_key_line(&m.table, second, 12));
    expect(gave(plan_add(&m.table, 0, 1, PLAN_CONTACT, 0, 1), 0, 2, 0), "another cabin adds");
    plan_fresh(&m.table, 4, none);
    REFUSED(15, m, plan_key_line(&m.table, line, 12));
}

/* What soundness asks of cabins: each of these tables fails one clause, but the last, whose guarantees leave too few free steps too. */
static void unsound_cabins(void) {
    static const plan_quota quotas[PLAN_CABINS] = {{1, 2}, {2, 3}, {0, 0}, {0, 5}};
    lent m = f4(), tables[9];
    plan_table *t = &m.table;
    plan_fresh(t, 6, quotas);
    plan_add(t, 0, 0, PLAN_CONTACT, 0, 3);
    plan_add(t, 1, 0, PLAN_CONTACT, 0, 3);
    expect(plan_is_sound(t) == 1, "a table with steps of cabin 3");
    for (int i = 0; i < 9; i++) tables[i] = m;
    tables[0].table.cabins[1] = 8;
    tables[1].table.cabins[1] = 65535;
    tables[2].table.cabins[0] = 3;
    tables[3].table.cabins[3] = 3;
    tables[4].table.cabins[127] = 1;
    tables[5].table.quotas[1].limit = 1;
    tables[6].table.quotas[3].limit = 1;
    tables[7].table.quotas[1].guarantee = 3;
    tables[8].table.quotas[2].guarantee = 65533, tables[8].table.quotas[2].limit = 65535;
    for (int i = 0; i < 9; i++) {
        expect(plan_is_sound(&tables[i].table) == 0, "a table that is not sound by its cabins");
        REFUSED(1, tables[i], plan_add(&tables[i].table, 2, 0, PLAN_CONTACT, 0, 0));
    }
}

/* A squeeze (W2). Steps 0, 2, 3 and 5 become 0 to 3: a ring 2 to 3 to 5 to 2, which step 0 enters at 5, weak links from 3 to 5 and to itself, and own
 * bits 1. Then the tables in which all fields of step 2 differ. */
static void squeezes(void) {
    static const uint16_t adds[5][4] = {{0, 0, 2, 0}, {0, 1, 1, 5}, {2, 0, 3, 600}, {0, 2, 2, 15}, {3, 3, 1, 9}};
    static const uint16_t kinds[4] = {0, 1, 3, 1}, contents[4] = {0, 5, 600, 9}, ones[4] = {1, 1, 1, 1};
    static const uint16_t targets[16] = {0, 0, 0, 3, 2, 0, 0, 0, 0, 2, 0, 3, 1, 0, 0, 0};
    static const uint16_t bits[16] = {0, 0, 0, 1, 1, 0, 0, 0, 0, 0, 0, 0, 1, 0, 0, 0};
    static const uint16_t counts[8] = {0, 0, 0, 1, 1, 1, 1, 1}, capacities[4] = {4, 5, 8, 128}, upward[4] = {4, 5, 6, 7};
    lent m = f4(), n;
    plan_table *t = &m.table, expected;
    fresh(t, 8);
    for (int i = 0; i < 5; i++) plan_add(t, adds[i][0], adds[i][1], adds[i][2], adds[i][3], 0);
    plan_link(t, 0, 1, 5, 0);
    plan_link(t, 2, 0, 3, 1);
    plan_link(t, 3, 3, 0, 3);
    expect(gave(plan_clear(t, 0, 0), 0, 1, 1) && gave(plan_clear(t, 0, 2), 0, 1, 1) && gave(plan_clear(t, 0, 1), 0, 3, 0), "a table with gaps");
    t->own[0] = 1;
    memset(&expected, 0, sizeof expected);
    expected.last = 3;
    memcpy(expected.used, ones, sizeof ones);
    memcpy(expected.kinds, kinds, sizeof kinds);
    memcpy(expected.contents, contents, sizeof contents);
    memcpy(expected.own, ones, sizeof ones);
    memcpy(expected.targets, targets, sizeof targets);
    memcpy(expected.bits, bits, sizeof bits);
    memcpy(expected.counts, counts, sizeof counts);
    for (int i = 0; i < 4; i++) {
        n = m;
        expected.capacity = capacities[i];
        plan_sole_quotas(expected.quotas, capacities[i]);
        expect(gave(squeeze(&n.table, capacities[i]), 0, 0, 0) && same(&n.table, &expected) && edges_stand(&n), "squeezed");
        expect(gave(squeeze(&n.table, capacities[i]), 0, 0, 0) && same(&n.table, &expected) && edges_stand(&n), "squeezed twice");
    }
    expect(gave(squeeze(&n.table, 5), 0, 0, 0) && gave(plan_add(&n.table, 0, 0, PLAN_WAIT, 1, 0), 0, 4, 0), "add after a squeeze");
    REFUSED(PLAN_FULL, n, plan_add(&n.table, 0, 1, PLAN_WAIT, 1, 0));
    REFUSED(PLAN_DOES_NOT_FIT, n, squeeze(&n.table, 4));
    REFUSED(PLAN_DOES_NOT_FIT, m, squeeze(&m.table, 3));
    REFUSED(PLAN_BAD_CAPACITY, m, squeeze(&m.table, 0));
    for (int p = 0; p < 3; p++) {
        plan_quota quotas[PLAN_CABINS];
        plan_table u = different(patterns[p]);
        expected = numbered(8, 7, patterns[p], upward);
        listed(quotas, 8);
        expect(gave(plan_squeeze(&u, 8, quotas), 0, 0, 0) && same(&u, &expected), "squeezed with all fields of step 2 different");
    }
}

/* Lists of a squeeze (W5): 16 after 2 and before 13, and 13 where the charges do not fit the list. The table has eight steps; each cabin but 4 has
 * one. */
static void squeezed_lists(void) {
    plan_quota quotas[PLAN_CABINS];
    lent m = f4(), n;
    m.table = different(patterns[0]);
    n = m;
    n.table.last = 11;
    listed(quotas, 8);
    quotas[4].guarantee = 301, quotas[4].limit = 300;
    REFUSED(1, n, plan_squeeze(&n.table, 0, quotas));
    REFUSED(2, m, plan_squeeze(&m.table, 129, quotas));
    REFUSED(16, m, plan_squeeze(&m.table, 7, quotas));
    REFUSED(16, m, plan_squeeze(&m.table, 128, quotas));
    listed(quotas, 12);
    REFUSED(13, m, plan_squeeze(&m.table, 11, quotas));
    REFUSED(16, m, plan_squeeze(&m.table, 8, quotas));
    quotas[1].guarantee = quotas[3].guarantee = 32768, quotas[1].limit = quotas[3].limit = 65535;
    REFUSED(16, m, plan_squeeze(&m.table, 128, quotas));
    REFUSED(13, m, squeeze(&m.table, 11));
    REFUSED(13, m, squeeze(&m.table, 128));
    for (int i = 0; i < PLAN_CABINS; i++) {
        const int fits = i == 4;
        listed(quotas, 8);
        quotas[i].guarantee = quotas[i].limit = 0;
        n = m;
        expect(gave(plan_squeeze(&n.table, 8, quotas), fits ? 0 : 13, 0, 0), "a cabin with a limit of 0");
        expect(fits || memcmp(&n, &m, sizeof n) == 0, "which changes nothing where it does not fit");
    }
    memcpy(quotas, m.table.quotas, sizeof quotas);
    n = m;
    expect(gave(plan_squeeze(&n.table, 128, quotas), 0, 0, 0) && memcmp(n.table.quotas, quotas, sizeof quotas) == 0, "the list of before");
    expect(gave(plan_add(&n.table, 0, 3, PLAN_WAIT, 1, 1), 0, 8, 0) && n.table.cabins[8] == 1, "more room for all cabins");
    for (int i = 0; i < PLAN_CABINS; i++) quotas[i].guarantee = 0, quotas[i].limit = i == 4 ? 0 : 2;
    expect(gave(plan_squeeze(&n.table, 9, quotas), 0, 0, 0) && memcmp(n.table.quotas, quotas, sizeof quotas) == 0, "and full again");
    expect(plan_is_sound(&n.table) == 1 && edges_stand(&n), "after the lists");
}

/* Whether a trial ends so after these steps, and leaves the table and the bytes around the trace and past the moves. The trace is as long as the
 * limit, and then longer, up to what 16 bits do not hold. */
static int tried(const plan_table *t, uint16_t limit, const uint8_t *results, size_t length, int ending, const uint8_t *entered, size_t moves) {
    enum { MOST = 65535 + 1 };
    static uint8_t around[EDGE + MOST + EDGE];
    const size_t rooms[3] = {limit, (size_t)limit + 1, MOST};
    const plan_table was = *t;
    int all = 1;
    for (int i = 0; i < 3; i++) {
        memset(around, UNTOUCHED, sizeof around);
        plan_trial_reply r = plan_trial(t, limit, results, length, around + EDGE, rooms[i]);
        all = all && r.refusal == 0 && r.ending == ending && r.last == (moves ? entered[moves - 1] : 0) && r.moves == moves;
        all = all && all_untouched(around, EDGE) && memcmp(around + EDGE, entered, moves) == 0;
        all = all && all_untouched(around + EDGE + moves, sizeof around - EDGE - moves);
    }
    return all && same(t, &was);
}

/* Whether a trial is refused so, with all other numbers 0, and writes nothing. */
static int not_tried(const plan_table *t, uint16_t limit, const uint8_t *results, size_t length, size_t room, int refusal) {
    static uint8_t trace[65536 + EDGE];
    memset(trace, UNTOUCHED, sizeof trace);
    plan_trial_reply r = plan_trial(t, limit, results, length, trace, room);
    return r.refusal == refusal && r.ending == 0 && r.last == 0 && r.moves == 0 && all_untouched(trace, sizeof trace);
}

/* Trials (W3): a wait that leads to itself, F4, a chain of messages, and a ring 1 to 2 to 3 to 4 to 1 of a contact, a message, a wait and a contact,
 * which step 0 enters at 1. From 4 a line fault leads to wait 5, and from 1 an answer to contact 6; neither leads on. Message and wait have other
 * exits too. */
static void trials(void) {
    static uint8_t upward[127];
    static const uint16_t adds[6][4] = {{0, 0, 1, 1}, {1, 1, 2, 2}, {2, 0, 3, 3}, {3, 0, 1, 4}, {4, 3, 3, 5}, {1, 0, 1, 6}};
    static const uint8_t results[6] = {1, 2, 1, 3, 0, 2}, shut[4] = {1, 2, 1, 0}, answers[2] = {0, 0}, unfit[3] = {0, 0, 4};
    static const uint8_t round[9] = {1, 2, 3, 4, 1, 2, 3, 4, 5}, other[2] = {1, 6}, wait[3] = {1, 1, 1};
    lent m = f4(), f = f4();
    plan_table *t = &m.table;
    plan_add(t, 0, 0, PLAN_WAIT, 1, 0);
    plan_link(t, 0, 0, 1, 0);
    expect(tried(t, 3, results, 0, PLAN_STOPPED, wait, 3), "W3's example");
    expect(tried(&f.table, 0, results, 0, PLAN_OPEN, wait, 0), "F4 with limit 0");
    expect(tried(&f.table, 65535, results, 6, PLAN_OPEN, wait, 0), "F4 with limit 65535");
    fresh(t, 128);
    for (uint16_t step = 0; step < 127; step++) upward[step] = (uint8_t)plan_add(t, step, 0, PLAN_MESSAGE, 0, 0).first;
    expect(tried(t, 127, results, 6, PLAN_OPEN, upward, 127), "127 messages, open at the limit");
    expect(tried(t, 126, results, 6, PLAN_STOPPED, upward, 126), "127 messages, stopped before the last");
    fresh(t, 7);
    for (int i = 0; i < 6; i++) plan_add(t, adds[i][0], adds[i][1], adds[i][2], adds[i][3], 0);
    plan_link(t, 0, 0, 4, PLAN_NO_REPLY);
    plan_link(t, 0, 0, 2, PLAN_ENGAGED);
    plan_link(t, 0, 0, 3, PLAN_NO_REPLY);
    expect(tried(t, 9, results, 4, PLAN_OPEN, round, 9), "open at the limit");
    expect(tried(t, 20, results, 4, PLAN_OPEN, round, 9), "open before the limit");
    expect(tried(t, 20, results, 6, PLAN_OPEN, round, 9), "open with results left");
    for (uint16_t limit = 8; limit < 11; limit++) {
        expect(tried(t, limit, results, 3, PLAN_SPENT, round, 8), "spent at the limit and before it");
        expect(tried(t, limit, shut, 4, PLAN_OPEN, round, 8), "open by the last result");
    }
    for (uint16_t limit = 0; limit < 9; limit++) expect(tried(t, limit, results, 4, PLAN_STOPPED, round, limit), "stopped");
    for (uint16_t limit = 2; limit < 4; limit++) {
        expect(tried(t, limit, answers, 1, PLAN_SPENT, other, 2), "spent at a contact with no links");
        expect(tried(t, limit, answers, 2, PLAN_OPEN, other, 2), "open there");
    }
    expect(tried(t, 1, results, 0, PLAN_SPENT, round, 1), "no results");
    expect(tried(t, 0, results, 0, PLAN_STOPPED, round, 0), "no results and no moves");
    for (uint16_t limit = 0; limit < 3; limit++) {
        expect(not_tried(t, limit, unfit, 3, limit, PLAN_BAD_RESULT), "a result above 3 that is not used up");
        expect(not_tried(t, limit, unfit + 2, 1, 0, PLAN_BAD_RESULT), "a result above 3, whatever the trace");
    }
    expect(not_tried(t, 1, results, 0, 0, PLAN_TOO_SHORT) && not_tried(t, 20, results, 6, 19, PLAN_TOO_SHORT), "a trace too short");
    expect(not_tried(t, 65535, results, 6, 65534, PLAN_TOO_SHORT) && not_tried(t, 65535, results, 0, 0, PLAN_TOO_SHORT), "for the largest limit");
    f.table.used[0] = 0;
    expect(not_tried(&f.table, 3, results, 6, 3, PLAN_NOT_SOUND) && not_tried(&f.table, 3, unfit, 3, 2, PLAN_NOT_SOUND), "a table that is not sound");
    expect(edges_stand(&m) && edges_stand(&f), "after the trials");
}

/* Lengths that 8 or 16 bits do not hold: limits, results, traces, buffers, images and key lines. */
static void lengths(void) {
    enum { MOST = 70000, LINE = 1000000, LENGTH = 42 + 2 * 22 };
    static const uint16_t limits[5] = {256, 257, 300, 65534, 65535};
    static const size_t many[4] = {65535, 65536, 65537, MOST};
    static uint8_t results[MOST], lent_bytes[MOST + 1], line[LINE], ones[65535];
    lent m = p1();
    memset(ones, 1, sizeof ones);
    memset(results, PLAN_ENGAGED, sizeof results);
    fresh(&m.table, 4);
    plan_add(&m.table, 0, 0, PLAN_WAIT, 600, 0);
    plan_link(&m.table, 0, 0, 1, 0);
    for (int i = 0; i < 5; i++) {
        expect(tried(&m.table, limits[i], results, 0, PLAN_STOPPED, ones, limits[i]), "a ring of waits, no results");
        expect(tried(&m.table, limits[i], results, 65536, PLAN_STOPPED, ones, limits[i]), "a ring of waits, results left");
    }
    fresh(&m.table, 4);
    plan_add(&m.table, 0, 0, PLAN_CONTACT, 0, 0);
    plan_link(&m.table, 0, 0, 1, PLAN_ENGAGED);
    const lent was = m;
    for (int i = 0; i < 5; i++) {
        const uint16_t n = limits[i];
        for (int k = 0; k < 4; k++) expect(tried(&m.table, n, results, many[k], PLAN_STOPPED, ones, n), "a ring of contacts, results left");
        expect(tried(&m.table, n, results, n, PLAN_STOPPED, ones, n), "one result left");
        expect(tried(&m.table, n, results, (size_t)n - 1, PLAN_SPENT, ones, n), "the last result used up at the limit");
        expect(tried(&m.table, n, results, (size_t)n - 2, PLAN_SPENT, ones, (size_t)n - 1), "the last result used up before the limit");
        expect(not_tried(&m.table, n, results, MOST, (size_t)n - 1, PLAN_TOO_SHORT), "a long trace, one byte short");
        expect(not_tried(&m.table, n, results, 0, n % 256, PLAN_TOO_SHORT), "a trace of what 8 bits leave of the limit");
    }
    results[MOST - 1] = 4;
    expect(not_tried(&m.table, 300, results, MOST, 300, PLAN_BAD_RESULT), "a result above 3 behind 65,536 others");
    memset(lent_bytes, UNTOUCHED, sizeof lent_bytes);
    plan_write_reply w = plan_write_image(&m.table, lent_bytes, 65536);
    expect(w.refusal == 0 && w.length == LENGTH && all_untouched(lent_bytes + LENGTH, sizeof lent_bytes - LENGTH), "an image into 65,536 bytes");
    expect(memcmp(&m, &was, sizeof m) == 0, "the table after them");
    memcpy(line, "H*4A", 4);
    REFUSED(9, m, plan_key_line(&m.table, line, 65536 + 4));
    REFUSED(9, m, plan_key_line(&m.table, line, LINE));
    expect(gave(plan_load_image(&m.table, lent_bytes, 65536 + LENGTH), PLAN_NOT_ACCEPTED, 0, 0), "an image and 65,536 bytes");
    expect(gave(plan_load_image(&m.table, lent_bytes, LENGTH), 0, 0, 0) && same(&m.table, &was.table), "the image alone");
}

/* Conversions with lengths that 16 bits do not hold: the room, the image, and what a count of steps asks for. */
static void converted_lengths(void) {
    enum { FULL = 64, MOST = 70000 };
    static const size_t rooms[4] = {65535, 65536, 65536 + 29, MOST};
    static uint8_t bytes[MOST], buffer[MOST];
    uint8_t image[FULL];
    lent m = f4();
    plan_write_image(&m.table, image, FULL);
    for (int i = 0; i < 4; i++) {
        memset(buffer, UNTOUCHED, sizeof buffer);
        plan_write_reply w = plan_convert_up(p10, sizeof p10, buffer, rooms[i]);
        expect(w.refusal == 0 && w.length == FULL && memcmp(buffer, image, FULL) == 0 && all_untouched(buffer + FULL, MOST - FULL), "much room, up");
        memset(buffer, UNTOUCHED, sizeof buffer);
        w = plan_convert_down(image, FULL, buffer, rooms[i]);
        expect(w.refusal == 0 && w.length == 30 && memcmp(buffer, p10, 30) == 0 && all_untouched(buffer + 30, MOST - 30), "much room, down");
    }
    memcpy(bytes, p10, sizeof p10);
    expect(not_converted(2, bytes, 65536 + sizeof p10, PLAN_IMAGE_MAX, PLAN_NOT_ACCEPTED), "an image of edition 1 and 65,536 bytes");
    /* 3,277 records, whose length is 14 in 16 bits, and 2,978, whose length is 22 */
    for (size_t at = 10; at < 10 + 20 * 3277; at += 20) memcpy(bytes + at, p10 + 10, 20);
    bytes[8] = 3277 % 256, bytes[9] = 3277 / 256;
    expect(not_converted(2, bytes, 10 + 20 * 3277, PLAN_IMAGE_MAX, PLAN_NOT_ACCEPTED), "3,277 records");
    expect(not_converted(2, bytes, 14, PLAN_IMAGE_MAX, PLAN_NOT_ACCEPTED), "the length of 3,277 records in 16 bits");
    memset(bytes, 0, sizeof bytes);
    memcpy(bytes, image, FULL);
    expect(not_converted(1, bytes, 65536 + FULL, PLAN_IMAGE_MAX, PLAN_NOT_ACCEPTED), "an image of edition 2 and 65,536 bytes");
    for (size_t at = 42; at < 42 + 22 * 2978; at += 22) memcpy(bytes + at, image + 42, 22);
    bytes[8] = 2978 % 256, bytes[9] = 2978 / 256;
    expect(not_converted(1, bytes, 42 + 22 * 2978, PLAN_IMAGE_MAX, PLAN_NOT_ACCEPTED), "2,978 records");
    expect(not_converted(1, bytes, 22, PLAN_IMAGE_MAX, PLAN_NOT_ACCEPTED), "the length of 2,978 records in 16 bits");
}

/* Words of two bytes, the low one first, as they stand in images and slips. */
static void put_words(uint8_t *bytes, const uint16_t *words, int many) {
    for (int i = 0; i < many; i++) bytes[2 * i] = (uint8_t)words[i], bytes[2 * i + 1] = (uint8_t)(words[i] >> 8);
}

static uint16_t word(const uint8_t *bytes) { return (uint16_t)(bytes[0] + 256 * bytes[1]); }

/* The record of a step in edition 2; a free step has one too, with zeros. */
static void record_of(const plan_table *t, uint16_t step, uint8_t *record) {
    const uint16_t *to = t->targets + step * 4, *bits = t->bits + step * 4;
    const uint16_t sum = (uint16_t)(bits[0] + 2 * bits[1] + 4 * bits[2] + 8 * bits[3] + 16 * t->own[step]);
    const uint16_t words[11] = {22, 4, step, t->kinds[step], t->contents[step], sum, to[0], to[1], to[2], to[3], t->cabins[step]};
    put_words(record, words, 11);
}

/* The slip of a clearing, by the tables before and after it; gives its length. */
static size_t slip_of(const plan_table *before, const plan_table *after, uint16_t step, uint16_t exit, uint8_t *slip) {
    uint16_t head[3] = {step, exit, 0};
    for (uint16_t i = 0; i < PLAN_PLACES; i++) {
        uint8_t *old = slip + 6 + 44 * head[2];
        record_of(before, i, old);
        record_of(after, i, old + 22);
        if (memcmp(old, old + 22, 22) != 0) head[2]++;
    }
    put_words(slip, head, 3);
    return 6 + 44 * (size_t)head[2];
}

/* A call that is lent a table and a buffer: a clearing with a slip, its preview, or plan_rung, which takes no exit. */
typedef plan_reply with_buffer(plan_table *t, uint16_t step, uint16_t exit, uint8_t *buffer, size_t length);

static plan_reply preview(plan_table *t, uint16_t step, uint16_t exit, uint8_t *buffer, size_t length) {
    return plan_preview_clear(t, step, exit, buffer, length);
}

static plan_reply rung(plan_table *t, uint16_t step, uint16_t exit, uint8_t *buffer, size_t length) {
    (void)step, (void)exit;
    return plan_rung(t, buffer, length);
}

/* Whether such a call is refused so, and changes no byte. */
static int not_made(with_buffer *call, lent *m, uint16_t step, uint16_t exit, size_t room, int refusal) {
    static uint8_t buffer[PLAN_SLIP_MAX + EDGE];
    const lent was = *m;
    memset(buffer, UNTOUCHED, sizeof buffer);
    return gave(call(&m->table, step, exit, buffer, room), refusal, 0, 0) && all_untouched(buffer, sizeof buffer) && memcmp(m, &was, sizeof was) == 0;
}

static int not_cleared(lent *m, uint16_t step, uint16_t exit, size_t room, int refusal) {
    return not_made(plan_clear_with_slip, m, step, exit, room, refusal);
}

static int not_previewed(lent *m, uint16_t step, uint16_t exit, size_t room, int refusal) {
    return not_made(preview, m, step, exit, room, refusal);
}

/* Whether a take-back is refused so, and changes no byte. */
static int not_taken_back(lent *m, const uint8_t *slip, size_t length, int refusal) {
    const lent was = *m;
    return gave(plan_take_back(&m->table, slip, length), refusal, 0, 0) && memcmp(m, &was, sizeof was) == 0;
}

/* Whether a clearing with a slip answers so and is that of plan_clear, and writes its slip and no byte more: into a buffer that is just long enough,
 * and then longer; one byte less, or none, is refused. Then whether it is taken back, once: the slip cut short, or with a byte more, is refused. */
static int regretted(lent *m, uint16_t step, uint16_t exit, int doubtful, int freed) {
    static uint8_t slip[PLAN_SLIP_MAX], around[EDGE + PLAN_SLIP_MAX + EDGE];
    const lent was = *m;
    lent cleared = *m;
    int all = gave(plan_clear(&cleared.table, step, exit), 0, doubtful, freed);
    const size_t length = slip_of(&was.table, &cleared.table, step, exit, slip), rooms[3] = {length, length + 1, PLAN_SLIP_MAX};
    const uint8_t *written = around + EDGE;
    all = all && length == 50 + 44 * (size_t)doubtful;
    all = all && not_cleared(m, step, exit, length - 1, PLAN_TOO_SHORT) && not_cleared(m, step, exit, 0, PLAN_TOO_SHORT);
    for (int i = 0; i < 3; i++) {
        *m = was;
        memset(around, UNTOUCHED, sizeof around);
        all = all && gave(plan_clear_with_slip(&m->table, step, exit, around + EDGE, rooms[i]), 0, doubtful, freed);
        all = all && memcmp(m, &cleared, sizeof cleared) == 0 && all_untouched(around, EDGE) && memcmp(written, slip, length) == 0;
        all = all && all_untouched(written + length, sizeof around - EDGE - length);
    }
    for (size_t cut = 0; cut < length; cut++) all = all && not_taken_back(m, written, cut, PLAN_SLIP_NOT_ACCEPTED);
    all = all && not_taken_back(m, written, length + 1, PLAN_SLIP_NOT_ACCEPTED);
    all = all && gave(plan_take_back(&m->table, written, length), 0, freed, 0) && memcmp(m, &was, sizeof was) == 0;
    return all && memcmp(written, slip, length) == 0 && not_taken_back(m, written, length, PLAN_SLIP_NOT_ACCEPTED);
}

/* A clearing taken back (W7): P1, P5, P6, P8 and P9, the shortest and the longest slips. */
static void slips(void) {
    static const uint16_t p1_slip[47] = {0, 0, 2, /* step, exit, changed steps; then the old and the new record of steps 0 and 1 */
                                         22, 4, 0, 0, 0, 0, 1, 0, 0, 0, 0, 22, 4, 0, 0, 0, 0, 0, 0, 0, 0, 0,
                                         22, 4, 1, 1, 0, 0, 0, 0, 0, 0, 0, 22, 4, 1, 0, 0, 0, 0, 0, 0, 0, 0};
    static const uint16_t p9_slip[47] = {0, 0, 2,
                                         22, 4, 0, 0, 0, 2, 1, 1, 0, 0, 0, 22, 4, 0, 0, 0, 2, 0, 1, 0, 0, 0,
                                         22, 4, 1, 1, 0, 0, 0, 0, 0, 0, 0, 22, 4, 1, 1, 0, 16, 0, 0, 0, 0, 0};
    uint8_t expected[94], slip[94];
    lent m = p1();
    plan_table *t = &m.table;
    put_words(expected, p1_slip, 47);
    expect(gave(plan_clear_with_slip(t, 0, 0, slip, sizeof slip), 0, 1, 1) && memcmp(slip, expected, sizeof slip) == 0, "the slip of P1, cleared");
    expect(gave(plan_take_back(t, slip, sizeof slip), 0, 1, 0) && regretted(&m, 0, 0, 1, 1), "P1, cleared and taken back");
    plan_link(t, 0, PLAN_ANSWERED, 0, PLAN_ENGAGED);
    expect(regretted(&m, 0, PLAN_ENGAGED, 0, 0), "a weak link");
    put_words(expected, p9_slip, 47);
    expect(gave(plan_clear_with_slip(t, 0, 0, slip, sizeof slip), 0, 1, 0) && memcmp(slip, expected, sizeof slip) == 0, "the slip of P9");
    expect(gave(plan_take_back(t, slip, sizeof slip), 0, 0, 0) && regretted(&m, 0, 0, 1, 0), "P9, taken back");
    m = p1();
    plan_link(t, 0, PLAN_ANSWERED, 1, PLAN_ANSWERED);
    expect(regretted(&m, 1, 0, 0, 0) && regretted(&m, 0, 0, 1, 1), "P8, taken back");
    m = p1();
    plan_add(t, 1, PLAN_NO_REPLY, PLAN_CONTACT, 1, 0);
    plan_link(t, 0, PLAN_ANSWERED, 2, PLAN_NO_REPLY);
    plan_link(t, 1, PLAN_NO_REPLY, 0, PLAN_ENGAGED);
    expect(regretted(&m, 0, PLAN_ANSWERED, 2, 0), "P5, taken back");
    plan_clear(t, 0, PLAN_ANSWERED);
    expect(regretted(&m, 0, PLAN_ENGAGED, 2, 2), "P6, taken back");
    fresh(t, 128);
    for (uint16_t step = 0; step < 127; step++) plan_add(t, step, step % 4, PLAN_WAIT, 600, 0);
    expect(regretted(&m, 0, 0, 127, 127) && regretted(&m, 126, 2, 1, 1), "128 steps, the longest slip");
    plan_link(t, 126, 2, 0, 1);
    plan_link(t, 0, 0, 127, 3);
    expect(regretted(&m, 0, 0, 127, 0), "128 steps that stay");
    expect(edges_stand(&m), "after the slips");
}

/* Refusals of both calls, each before the next of its order. */
static void slips_refused(void) {
    static const size_t rooms[2] = {0, PLAN_SLIP_MAX};
    uint8_t slip[94];
    lent m = p1(), cleared = m, out;
    plan_clear_with_slip(&cleared.table, 0, 0, slip, sizeof slip);
    out = cleared;
    out.table.last = 4;
    for (int i = 0; i < 2; i++) {
        expect(not_cleared(&out, 9, 9, rooms[i], 1) && not_cleared(&out, 0, 0, rooms[i], 1), "a clearing in a table that is not sound");
        expect(not_cleared(&m, 2, 4, rooms[i], 3) && not_cleared(&m, 65535, 0, rooms[i], 3), "at a step that is not in use");
        expect(not_cleared(&m, 0, 4, rooms[i], 4) && not_cleared(&m, 1, 256, rooms[i], 4), "at an exit above 3");
        expect(not_cleared(&m, 0, 1, rooms[i], 6) && not_cleared(&m, 1, 0, rooms[i], 6), "at an empty exit");
    }
    expect(not_taken_back(&out, slip, sizeof slip, 1) && not_taken_back(&out, slip, 0, 1), "a take-back in a table that is not sound");
    expect(not_taken_back(&cleared, slip, 0, 18) && not_taken_back(&m, slip, 0, 18), "no slip");
    expect(not_taken_back(&m, slip, sizeof slip, 18), "a clearing that was not made");
    expect(gave(plan_take_back(&cleared.table, slip, sizeof slip), 0, 1, 0) && memcmp(&cleared, &m, sizeof m) == 0, "the slip that was refused");
}

static const plan_quota two_cabins[PLAN_CABINS] = {{1, 2}, {0, 3}};

/* A table of two cabins: steps 1 and 2, which leads back to 1, are of cabin 1, step 3 is of cabin 0. Clearing exit 0 of step 0 frees 1 and 2. */
static lent shared(void) {
    lent m = f4();
    plan_fresh(&m.table, 8, two_cabins);
    plan_add(&m.table, 0, 0, PLAN_CONTACT, 0, 1);
    plan_add(&m.table, 1, 2, PLAN_MESSAGE, 15, 1);
    plan_add(&m.table, 0, 3, PLAN_WAIT, 600, 0);
    plan_link(&m.table, 0, 0, 2, 2);
    return m;
}

/* What may happen between a clearing and its take-back: calls that change nothing, and changes that leave the slip's steps as they are. */
static void regrets(void) {
    enum { LENGTH = 50 + 44 * 2 };
    uint8_t slip[LENGTH], other[PLAN_SLIP_MAX], bytes[PLAN_IMAGE_MAX];
    lent m = shared(), n;
    plan_table *t = &m.table;
    const lent before = m;
    expect(gave(plan_clear_with_slip(t, 0, 0, slip, LENGTH), 0, 2, 2) && word(slip + 4) == 3, "a clearing that frees two steps");
    const lent cleared = m;
    expect(plan_read(t, 3).refusal == 0 && plan_trial(t, 9, slip, 0, bytes, 9).refusal == 0 && gave(plan_counts(t), 0, 2, 6), "calls that read");
    expect(gave(plan_preview_clear(t, 0, 3, bytes, PLAN_STEPS_ROOM), 0, 1, 1) && bytes[0] == 3, "a preview of another clearing");
    expect(plan_write_image(t, bytes, sizeof bytes).length == 42 + 2 * 22 && plan_key_line(t, (const uint8_t *)"H*4A", 4).refusal == 0, "and write");
    REFUSED(3, m, plan_add(t, 1, 0, PLAN_CONTACT, 0, 0));
    REFUSED(6, m, plan_clear(t, 0, 0));
    REFUSED(13, m, squeeze(t, 1));
    REFUSED(18, m, plan_take_back(t, bytes, 42));
    expect(gave(plan_take_back(t, slip, LENGTH), 0, 2, 0) && memcmp(&m, &before, sizeof m) == 0, "taken back after them");
    expect(gave(plan_key_line(t, (const uint8_t *)"H*30000A", 8), 0, 2, 2) && memcmp(&m, &cleared, sizeof m) == 0, "cleared by a key line");
    expect(gave(plan_take_back(t, slip, LENGTH), 0, 2, 0) && memcmp(&m, &before, sizeof m) == 0, "and taken back");

    m = cleared;
    expect(gave(plan_add(t, 0, 0, PLAN_CONTACT, 9, 1), 0, 4, 0) && not_taken_back(&m, slip, LENGTH, 18), "a step added at the cleared exit");
    expect(gave(plan_clear(t, 0, 0), 0, 1, 1) && gave(plan_take_back(t, slip, LENGTH), 0, 2, 0), "and cleared again");
    n = before;
    n.table.last = 4;
    expect(memcmp(&m, &n, sizeof m) == 0, "the last number given stays");
    m = cleared;
    plan_link(t, 0, 3, 0, 0);
    expect(not_taken_back(&m, slip, LENGTH, 18), "a link copied into the cleared exit");
    m = cleared;
    plan_link(t, 0, 3, 0, 1);
    expect(not_taken_back(&m, slip, LENGTH, 18), "a link copied into another exit of its step");

    m = cleared, n = before;
    plan_add(&n.table, 3, 0, PLAN_CONTACT, 9, 1);
    expect(gave(plan_add(t, 3, 0, PLAN_CONTACT, 9, 1), 0, 4, 0), "a step added elsewhere");
    expect(gave(plan_take_back(t, slip, LENGTH), 0, 2, 0) && memcmp(&m, &n, sizeof m) == 0, "stays, with its number");
    expect(gave(plan_clear(t, 3, 0), 0, 1, 1) && not_taken_back(&m, slip, LENGTH, 18), "a clearing elsewhere, after the take-back");
    m = cleared;
    plan_add(t, 3, 0, PLAN_CONTACT, 9, 1);
    expect(gave(plan_add(t, 3, 1, PLAN_CONTACT, 9, 1), 0, 5, 0) && not_taken_back(&m, slip, LENGTH, 18), "a limit, reached meanwhile");
    expect(gave(plan_clear(t, 3, 1), 0, 1, 1) && gave(plan_take_back(t, slip, LENGTH), 0, 2, 0), "and left again");

    m = p1();
    plan_add(t, 0, 1, PLAN_CONTACT, 1, 0);
    plan_clear_with_slip(t, 0, 0, other, sizeof other);
    plan_add(t, 2, 0, PLAN_CONTACT, 2, 0);
    expect(gave(plan_add(t, 2, 1, PLAN_CONTACT, 0, 0), 0, 1, 0) && not_taken_back(&m, other, 94, 18), "a number given again");
    expect(gave(plan_clear(t, 2, 1), 0, 1, 1) && gave(plan_take_back(t, other, 94), 0, 1, 0), "and freed again");
    m = cleared;
    expect(gave(plan_squeeze(t, 4, two_cabins), 0, 0, 0) && not_taken_back(&m, slip, LENGTH, 18), "a squeeze in between");
    m = before;
    expect(gave(plan_clear_with_slip(t, 2, 2, other, 50), 0, 0, 0) && gave(plan_clear_with_slip(t, 0, 0, slip, LENGTH), 0, 2, 2), "two clearings");
    expect(not_taken_back(&m, other, 50, 18), "the first cannot be taken back before the second");
    expect(gave(plan_take_back(t, slip, LENGTH), 0, 2, 0) && gave(plan_take_back(t, other, 50), 0, 0, 0), "the second first");
    expect(memcmp(&m, &before, sizeof m) == 0 && plan_is_sound(t) == 1, "after both");
}

/* Puts a record into its step. */
static void put_record(plan_table *t, const uint8_t *record) {
    const uint16_t step = word(record + 4), bits = word(record + 10);
    t->kinds[step] = word(record + 6);
    t->contents[step] = word(record + 8);
    t->own[step] = bits / 16;
    t->cabins[step] = word(record + 20);
    t->used[step] = step == 0 || t->kinds[step] != 0;
    for (int i = 0; i < 4; i++) t->targets[step * 4 + i] = word(record + 12 + 2 * i), t->bits[step * 4 + i] = bits >> i & 1;
}

/* Works out all counters. */
static void recount(plan_table *t) {
    memset(t->counts, 0, sizeof t->counts);
    for (int i = 0; i < PLAN_PLACES * 4; i++) {
        if (t->targets[i] != 0 && t->targets[i] < PLAN_PLACES) t->counts[t->targets[i] * 2 + t->bits[i]]++;
    }
}

/* Whether a slip is to be accepted, by the sentence of W7, and the table that it gives then. */
static int to_be_accepted(const plan_table *t, const uint8_t *slip, size_t length, plan_table *before) {
    static uint8_t again[PLAN_SLIP_MAX];
    uint8_t record[22];
    if (length < 6 || length > PLAN_SLIP_MAX || length % 44 != 6) return 0;
    *before = *t;
    for (const uint8_t *old = slip + 6; old < slip + length; old += 44) {
        if (word(old + 4) >= PLAN_PLACES || word(old + 26) != word(old + 4)) return 0;
        record_of(t, word(old + 4), record);
        if (memcmp(record, old + 22, 22) != 0) return 0;
        put_record(before, old);
    }
    recount(before);
    plan_table after = *before;
    if (plan_clear(&after, word(slip), word(slip + 2)).refusal != 0 || !same(&after, t)) return 0;
    return slip_of(before, &after, word(slip), word(slip + 2), again) == length && memcmp(again, slip, length) == 0;
}

/* Whether bytes are taken back exactly if they are to be accepted. Counts both. */
static int answered_slip(lent *m, const uint8_t *slip, size_t length, int met[2]) {
    const lent was = *m;
    plan_table before;
    const int accepted = to_be_accepted(&m->table, slip, length, &before);
    met[accepted]++;
    if (!accepted) return not_taken_back(m, slip, length, PLAN_SLIP_NOT_ACCEPTED);
    const int back = plan_counts(&before).first - plan_counts(&m->table).first;
    const int all = gave(plan_take_back(&m->table, slip, length), 0, back, 0) && same(&m->table, &before) && edges_stand(m);
    *m = was;
    return all;
}

/* Damaged slips: every value in every byte, records exchanged, doubled, added and left out. A slip that no clearing wrote is accepted where it could
 * have been written, as one with another content of a step that went. */
static void damaged_slips(void) {
    enum { LENGTH = 50 + 44 * 2 };
    uint8_t slip[LENGTH + 44], bytes[LENGTH + 44];
    int met[2] = {0, 0}, all = 1;
    lent m = shared();
    plan_table *t = &m.table;
    plan_clear_with_slip(t, 0, 0, slip, LENGTH);
    memcpy(bytes, slip, LENGTH);
    for (size_t i = 0; i < LENGTH; i++) {
        for (int value = 0; value < 256; value++) {
            bytes[i] = (uint8_t)value;
            all = all && answered_slip(&m, bytes, LENGTH, met);
        }
        bytes[i] = slip[i];
    }
    expect(all && met[0] > 30000 && met[1] > 200, "every value in every byte");
    bytes[6 + 44 + 8] ^= 5;
    expect(gave(plan_take_back(t, bytes, LENGTH), 0, 2, 0) && plan_read(t, 1).content == 5, "another content of a step that went");
    expect(gave(plan_clear_with_slip(t, 0, 0, slip, LENGTH), 0, 2, 2) && memcmp(slip, bytes, LENGTH) == 0, "is in the slip of its clearing");
    memcpy(bytes + 6, slip + 6 + 44, 44);
    memcpy(bytes + 6 + 44, slip + 6, 44);
    expect(not_taken_back(&m, bytes, LENGTH, 18), "records exchanged");
    memcpy(bytes, slip, LENGTH);
    memcpy(bytes + LENGTH, slip + LENGTH - 44, 44);
    bytes[4] = 4;
    expect(not_taken_back(&m, bytes, LENGTH + 44, 18), "a step in it twice");
    for (uint16_t step = 3; step < 128; step++) {
        record_of(t, step, bytes + LENGTH);
        record_of(t, step, bytes + LENGTH + 22);
        all = all && not_taken_back(&m, bytes, LENGTH + 44, 18);
    }
    expect(all, "a step in it that did not change");
    memcpy(bytes, slip, LENGTH);
    bytes[4] = 2;
    expect(not_taken_back(&m, bytes, LENGTH - 44, 18), "a changed step left out");
    bytes[4] = 0;
    expect(not_taken_back(&m, bytes, 6, 18), "no step in it");
    memset(bytes, 0, sizeof bytes);
    expect(not_taken_back(&m, bytes, LENGTH, 18) && not_taken_back(&m, bytes, 6, 18), "zeros");
    memset(bytes, 255, sizeof bytes);
    expect(not_taken_back(&m, bytes, LENGTH, 18) && not_taken_back(&m, bytes, 50, 18), "ones");
    expect(gave(plan_take_back(t, slip, LENGTH), 0, 2, 0) && edges_stand(&m), "the slip itself, after all of them");
}

/* Slips with lengths that 16 bits do not hold: the buffer, the bytes, and what a number of changed steps asks for. */
static void slip_lengths(void) {
    enum { LENGTH = 94, MANY = 1490, MOST = 6 + 44 * MANY };
    static const size_t rooms[4] = {65535, 65536, 65536 + LENGTH - 1, MOST};
    static uint8_t bytes[65536 + LENGTH + EDGE];
    lent m = p1();
    const lent was = m;
    for (int i = 0; i < 4; i++) {
        m = was;
        memset(bytes, UNTOUCHED, sizeof bytes);
        const plan_reply r = plan_clear_with_slip(&m.table, 0, 0, bytes, rooms[i]);
        expect(gave(r, 0, 1, 1) && all_untouched(bytes + LENGTH, sizeof bytes - LENGTH), "much room");
    }
    expect(not_taken_back(&m, bytes, 65536 + LENGTH, 18) && not_taken_back(&m, bytes, 65536, 18), "a slip and 65,536 bytes");
    memset(bytes + LENGTH, 0, sizeof bytes - LENGTH);
    expect(not_taken_back(&m, bytes, 65536 + LENGTH, 18) && not_taken_back(&m, bytes, 65536 + 6, 18), "which are zeros");
    /* 1,490 changed steps have a length of 30 in 16 bits, and 16,386 one of 94 */
    for (size_t at = LENGTH; at < MOST; at += 44) memcpy(bytes + at, bytes + LENGTH - 44, 44);
    bytes[4] = MANY % 256, bytes[5] = MANY / 256;
    expect(not_taken_back(&m, bytes, MOST, 18) && not_taken_back(&m, bytes, MOST % 65536, 18), "1,490 changed steps");
    bytes[4] = 2, bytes[5] = 64;
    expect(not_taken_back(&m, bytes, LENGTH, 18), "16,386 changed steps");
    bytes[5] = 0;
    expect(gave(plan_take_back(&m.table, bytes, LENGTH), 0, 1, 0) && memcmp(&m, &was, sizeof m) == 0, "the slip alone");
}

/* Whether an image of the edition takes a content of a kind (W9); a table takes what edition 2 does. */
static int takes(int edition, uint16_t kind, uint16_t content) {
    if (kind == PLAN_CONTACT) return content <= (edition == 1 ? 99 : 999);
    return kind == PLAN_MESSAGE ? content <= 15 : content >= 1 && content <= 600;
}

/* Whether this kind and content, in place of those of P1's step, are taken or refused wherever they can be given: in an add, in a key line, in a table
 * and in images of both editions, loaded and converted. */
static int answered_content(const plan_table *p, uint16_t kind, uint16_t content) {
    enum { LENGTH = 42 + 2 * 22, OLD_LENGTH = 10 + 2 * 20 };
    const int taken = takes(2, kind, content), old_taken = takes(1, kind, content);
    const int refusal = taken ? PLAN_DONE : PLAN_BAD_KIND, down = taken ? PLAN_NEEDS_EDITION_2 : PLAN_NOT_ACCEPTED;
    uint8_t image[LENGTH], old[OLD_LENGTH], line[12];
    plan_table t = *p, u;
    t.kinds[1] = kind, t.contents[1] = content;
    int all = plan_is_sound(&t) == taken;
    fresh(&u, 4);
    all = all && gave(plan_add(&u, 0, 0, kind, content, 0), refusal, taken, 0) && same(&u, &t) == taken;
    if (content <= 999) {
        memcpy(line, "H*100000000A", sizeof line);
        line[7] += (uint8_t)kind, line[8] += (uint8_t)(content / 100), line[9] += (uint8_t)(content / 10 % 10), line[10] += (uint8_t)(content % 10);
        fresh(&u, 4);
        all = all && gave(plan_key_line(&u, line, sizeof line), refusal, taken, 0) && same(&u, &t) == taken;
    }
    plan_write_image(p, image, LENGTH);
    record_of(&t, 1, image + 42 + 22);
    old_image(image, LENGTH, old);
    all = all && (taken ? gave(plan_load_image(&u, image, LENGTH), 0, 0, 0) && same(&u, &t) : not_loaded(image, LENGTH));
    all = all && (old_taken ? gave(plan_load_image(&u, old, OLD_LENGTH), 0, 0, 0) && same(&u, &t) : not_loaded(old, OLD_LENGTH));
    if (old_taken) return all && both_ways(&t);
    all = all && not_converted(1, image, LENGTH, 0, down) && not_converted(1, image, LENGTH, PLAN_IMAGE_MAX, down);
    return all && not_converted(2, old, OLD_LENGTH, 0, PLAN_NOT_ACCEPTED) && not_converted(2, old, OLD_LENGTH, PLAN_IMAGE_MAX, PLAN_NOT_ACCEPTED);
}

/* Longer phone books (W9): the contents of each kind, then one larger contact among three in images of both editions, in a squeeze and in a slip. */
static void contacts(void) {
    enum { LENGTH = 42 + 4 * 22, OLD_LENGTH = 10 + 4 * 20, CONTENT = 6 + 44 + 8 };
    static const char *const kinds[3] = {"contents of contacts", "contents of messages", "contents of waits"};
    static const uint16_t larger[3] = {100, 256, 999}, of_a_slip[2] = {1000, 100};
    static const plan_quota shared_list[PLAN_CABINS] = {{1, 3}, {0, 1}};
    uint8_t image[LENGTH], old[OLD_LENGTH], other[LENGTH], slip[94];
    lent m = p1();
    const plan_table p = m.table;
    plan_table *t = &m.table;
    for (uint16_t kind = PLAN_CONTACT; kind <= PLAN_WAIT; kind++) {
        int all = 1;
        for (long content = 0; content < 65536; content += content < 1100 ? 1 : 97) all = all && answered_content(&p, kind, (uint16_t)content);
        expect(all, kinds[kind - 1]);
    }
    fresh(t, 4);
    for (uint16_t exit = 0; exit < 3; exit++) plan_add(t, 0, exit, PLAN_CONTACT, 99, 0);
    expect(both_ways(t), "three times contact 99");
    const lent was = m;
    for (int i = 0; i < 9; i++) {
        m = was;
        t->contents[i % 3 + 1] = larger[i / 3];
        plan_write_image(t, image, LENGTH);
        turned(image, LENGTH, 42, 22, other);
        expect(needs_edition_2(image, LENGTH) && needs_edition_2(other, LENGTH), "a contact above 99, under the list of edition 1");
        expect(not_converted(1, image, LENGTH - 1, 0, PLAN_NOT_ACCEPTED), "and the image cut short");
        old_image(image, LENGTH, old);
        turned(old, OLD_LENGTH, 10, 20, other);
        expect(not_loaded(old, OLD_LENGTH) && not_loaded(other, OLD_LENGTH), "a contact above 99 in edition 1");
        expect(not_converted(2, old, OLD_LENGTH, 0, PLAN_NOT_ACCEPTED) && not_converted(2, other, OLD_LENGTH, LENGTH, PLAN_NOT_ACCEPTED), "going up");
    }
    memcpy(t->quotas, shared_list, sizeof shared_list);
    plan_write_image(t, image, LENGTH);
    expect(needs_edition_2(image, LENGTH), "a contact above 99, and another list");

    m = f4();
    plan_add(t, 0, 0, PLAN_MESSAGE, 15, 0);
    plan_add(t, 0, 1, PLAN_CONTACT, 999, 0);
    plan_clear(t, 0, 0);
    expect(gave(squeeze(t, 2), 0, 0, 0) && plan_read(t, 1).kind == PLAN_CONTACT && plan_read(t, 1).content == 999, "contact 999, squeezed");
    expect(regretted(&m, 0, 1, 1, 1), "contact 999, cleared and taken back");
    plan_clear_with_slip(t, 0, 1, slip, sizeof slip);
    put_words(slip + CONTENT, of_a_slip, 1);
    expect(not_taken_back(&m, slip, sizeof slip, PLAN_SLIP_NOT_ACCEPTED), "a slip with contact 1000");
    put_words(slip + CONTENT, of_a_slip + 1, 1);
    expect(gave(plan_take_back(t, slip, sizeof slip), 0, 1, 0) && plan_read(t, 1).content == 100 && edges_stand(&m), "a slip with contact 100");
}

/* The steps that are in use in the first table and free in the second, ascending; gives their number. */
static int gone(const plan_table *before, const plan_table *after, uint8_t *steps) {
    int many = 0;
    for (int i = 0; i < PLAN_PLACES; i++) {
        if (before->used[i] && !after->used[i]) steps[many++] = (uint8_t)i;
    }
    return many;
}

/* Whether a call answers so, writes these steps and no byte more, and leaves every byte of the table: into a buffer that is just long enough, and
 * longer ones, of which one has 126 bytes in 16 bits; 126 bytes, or none, are refused. */
static int lists_steps(with_buffer *call, lent *m, uint16_t step, uint16_t exit, int first, int second, const uint8_t *steps, int many) {
    static const size_t rooms[5] = {127, 128, 65535, 65536, 65536 + 126};
    static uint8_t around[EDGE + 65536 + 126 + EDGE];
    const lent was = *m;
    const size_t length = (size_t)many;
    uint8_t *written = around + EDGE;
    int all = not_made(call, m, step, exit, 126, PLAN_TOO_SHORT) && not_made(call, m, step, exit, 0, PLAN_TOO_SHORT);
    for (int i = 0; i < 5; i++) {
        memset(around, UNTOUCHED, sizeof around);
        all = all && gave(call(&m->table, step, exit, written, rooms[i]), 0, first, second) && memcmp(m, &was, sizeof was) == 0;
        all = all && all_untouched(around, EDGE) && memcmp(written, steps, length) == 0 && all_untouched(written + length, sizeof around - EDGE - length);
    }
    return all;
}

/* Whether a preview answers so and writes these steps, and then whether the clearing answers so and frees these steps. */
static int foretold(lent *m, uint16_t step, uint16_t exit, int doubtful, int freed, const uint8_t *steps) {
    lent cleared = *m;
    uint8_t went[PLAN_PLACES];
    int all = lists_steps(preview, m, step, exit, doubtful, freed, steps, freed);
    all = all && gave(plan_clear(&cleared.table, step, exit), 0, doubtful, freed);
    return all && gone(&m->table, &cleared.table, went) == freed && memcmp(went, steps, (size_t)freed) == 0;
}

/* What a clearing would free (W8): P1, P5, P6, P8 and P9, rings, steps that a weak link keeps, chains against the order of numbers, all steps. */
static void previews(void) {
    static const uint8_t none[1] = {0}, one[1] = {1}, two[1] = {2}, one_two[2] = {1, 2}, one_three[2] = {1, 3}, one_to_three[3] = {1, 2, 3};
    uint8_t all_steps[127];
    lent m = p1();
    plan_table *t = &m.table;
    expect(foretold(&m, 0, PLAN_ANSWERED, 1, 1, one), "P1, one step would go");
    plan_link(t, 0, PLAN_ANSWERED, 0, PLAN_ENGAGED);
    expect(foretold(&m, 0, PLAN_ENGAGED, 0, 0, none), "a weak exit");
    expect(foretold(&m, 0, PLAN_ANSWERED, 1, 0, none), "P9, a weak link would keep the step");
    m = p1();
    plan_link(t, 0, PLAN_ANSWERED, 1, PLAN_ANSWERED);
    expect(foretold(&m, 1, PLAN_ANSWERED, 0, 0, none) && foretold(&m, 0, PLAN_ANSWERED, 1, 1, one), "P8, a step linked to itself");
    m = p1();
    plan_add(t, 1, PLAN_NO_REPLY, PLAN_CONTACT, 1, 0);
    plan_link(t, 0, PLAN_ANSWERED, 2, PLAN_NO_REPLY);
    expect(foretold(&m, 0, PLAN_ANSWERED, 2, 2, one_two) && foretold(&m, 1, PLAN_NO_REPLY, 1, 1, two), "a ring would go, or its second step");
    plan_link(t, 1, PLAN_NO_REPLY, 0, PLAN_ENGAGED);
    expect(foretold(&m, 0, PLAN_ANSWERED, 2, 0, none) && foretold(&m, 2, PLAN_NO_REPLY, 0, 0, none), "P5, a ring that a weak link would keep");
    plan_clear(t, 0, PLAN_ANSWERED);
    expect(foretold(&m, 0, PLAN_ENGAGED, 2, 2, one_two), "P6, the ring held from its second step");
    expect(foretold(&m, 2, PLAN_NO_REPLY, 1, 1, one) && foretold(&m, 1, PLAN_NO_REPLY, 0, 0, none), "P6, its links");

    /* 0 to 1 to 2 to 3, and a weak link from 0 to 2 */
    fresh(t, 9);
    plan_add(t, 0, 0, PLAN_CONTACT, 0, 0);
    plan_add(t, 1, 1, PLAN_CONTACT, 0, 0);
    plan_add(t, 2, 3, PLAN_CONTACT, 0, 0);
    plan_link(t, 1, 1, 0, 2);
    expect(foretold(&m, 0, 0, 3, 1, one), "one of three doubtful steps");
    plan_clear(t, 0, 2);
    expect(foretold(&m, 0, 0, 3, 3, one_to_three) && foretold(&m, 1, 1, 2, 2, one_to_three + 1), "all of three, or two");
    /* 0 to 3 to 1, and 0 to 2, which a weak link from 3 also leads to */
    fresh(t, 4);
    for (uint16_t exit = 0; exit < 3; exit++) plan_add(t, 0, exit, PLAN_WAIT, 1, 0);
    plan_link(t, 0, 0, 3, 2);
    plan_link(t, 0, 1, 3, 0);
    plan_clear(t, 0, 0);
    expect(foretold(&m, 0, 2, 2, 2, one_three), "3 leads to 1 and both would go, 2 stays");
    expect(foretold(&m, 0, 1, 1, 0, none) && foretold(&m, 3, 2, 1, 1, one), "2 would stay, held by 3");
    /* two strong links to one step */
    fresh(t, 3);
    plan_add(t, 0, 0, PLAN_CONTACT, 5, 0);
    t->targets[1] = 1, t->counts[2] = 2;
    expect(foretold(&m, 0, 0, 0, 0, none) && foretold(&m, 0, 1, 0, 0, none), "a target that still has a strong link");
    m = shared();
    expect(foretold(&m, 0, 0, 2, 2, one_two) && foretold(&m, 0, 3, 1, 1, one_three + 1) && foretold(&m, 1, 2, 1, 1, two), "steps of two cabins");
    fresh(t, 128);
    for (uint16_t step = 0; step < 127; step++) plan_add(t, step, step % 4, PLAN_WAIT, 600, 0), all_steps[step] = (uint8_t)(step + 1);
    expect(foretold(&m, 0, 0, 127, 127, all_steps) && foretold(&m, 63, 3, 64, 64, all_steps + 63), "128 steps, all would go, or half of them");
    expect(foretold(&m, 126, 2, 1, 1, all_steps + 126), "128 steps, the last would go");
    plan_link(t, 126, 2, 0, 1);
    plan_link(t, 0, 0, 127, 3);
    expect(foretold(&m, 0, 0, 127, 0, all_steps), "128 steps that would stay");
    expect(edges_stand(&m), "after the previews");
}

/* Every exit of tables in which the fields of step 2 differ: cleared and taken back, and told beforehand. */
static void every_exit(void) {
    lent m = f4();
    for (uint16_t i = 0; i < 3 * 11 * 4; i++) {
        const uint16_t step = i / 4 % 11, exit = i % 4;
        uint8_t steps[PLAN_PLACES];
        m.table = different(patterns[i / 44]);
        plan_table u = m.table;
        const plan_reply r = plan_clear(&u, step, exit);
        if (r.refusal == 0) {
            expect(regretted(&m, step, exit, r.first, r.second), "all fields of step 2 different, taken back");
            expect(foretold(&m, step, exit, r.first, gone(&m.table, &u, steps), steps), "all fields of step 2 different, told beforehand");
        } else {
            expect(not_cleared(&m, step, exit, r.refusal == 3 ? PLAN_SLIP_MAX : 0, r.refusal), "an exit that cannot be cleared");
            expect(not_previewed(&m, step, exit, r.refusal == 3 ? PLAN_STEPS_ROOM : 0, r.refusal), "nor its clearing be told");
        }
    }
}

/* Refusals of a preview, each before the next of its order. */
static void previews_refused(void) {
    static const size_t rooms[4] = {0, 1, 126, 127};
    lent m = p1(), out = m;
    out.table.last = 4;
    plan_link(&m.table, 0, 0, 0, 1);
    for (int i = 0; i < 4; i++) {
        expect(not_previewed(&out, 9, 9, rooms[i], 1) && not_previewed(&out, 0, 0, rooms[i], 1), "a preview of a table that is not sound");
        expect(not_previewed(&m, 2, 4, rooms[i], 3) && not_previewed(&m, 4, 0, rooms[i], 3), "at a step that is not in use");
        expect(not_previewed(&m, 128, 9, rooms[i], 3) && not_previewed(&m, 256, 0, rooms[i], 3), "at a step past the table");
        expect(not_previewed(&m, 65535, 65535, rooms[i], 3), "at step 65535");
        expect(not_previewed(&m, 0, 4, rooms[i], 4) && not_previewed(&m, 1, 256, rooms[i], 4), "at an exit above 3");
        expect(not_previewed(&m, 0, 65535, rooms[i], 4), "at exit 65535");
        expect(not_previewed(&m, 0, 2, rooms[i], 6) && not_previewed(&m, 1, 0, rooms[i], 6), "at an empty exit");
    }
    for (int i = 0; i < 3; i++) {
        expect(not_previewed(&m, 0, 0, rooms[i], PLAN_TOO_SHORT), "a short buffer, where a step would be doubtful");
        expect(not_previewed(&m, 0, 1, rooms[i], PLAN_TOO_SHORT), "a short buffer, where nothing would go");
    }
    plan_clear(&m.table, 0, 1);
    for (int i = 0; i < 3; i++) expect(not_previewed(&m, 0, 0, rooms[i], PLAN_TOO_SHORT), "a short buffer, where one step would go");
    fresh(&m.table, 2);
    plan_add(&m.table, 0, 3, PLAN_MESSAGE, 15, 0);
    expect(not_previewed(&m, 0, 3, 126, PLAN_TOO_SHORT) && not_previewed(&m, 0, 3, 2, PLAN_TOO_SHORT), "a short buffer, for a table of two steps");
}

/* Whether two tables have one plan: the numbers, the list, and of each step what plan_read says but for bits and counters. */
static int same_plan(const plan_table *a, const plan_table *b) {
    int all = a->capacity == b->capacity && a->last == b->last && memcmp(a->quotas, b->quotas, sizeof a->quotas) == 0;
    for (uint16_t step = 0; step < PLAN_PLACES; step++) {
        const plan_read_reply r = plan_read(a, step), s = plan_read(b, step);
        all = all && r.refusal == s.refusal && r.kind == s.kind && r.content == s.content && r.cabin == s.cabin;
        all = all && memcmp(r.targets, s.targets, sizeof r.targets) == 0;
    }
    return all;
}

/* Whether the written images of two tables are the same. */
static int same_image(const plan_table *a, const plan_table *b) {
    uint8_t image[PLAN_IMAGE_MAX], other[PLAN_IMAGE_MAX];
    const size_t length = plan_write_image(a, image, sizeof image).length;
    return plan_write_image(b, other, sizeof other).length == length && memcmp(image, other, length) == 0;
}

/* Steps 2 and 3 lead to each other. Step 1 leads to both by strong links, and step 0 by weak ones. The cabins differ. */
static lent two_ways(void) {
    lent m = f4();
    plan_table *t = &m.table;
    plan_fresh(t, 5, two_cabins);
    plan_add(t, 0, PLAN_ANSWERED, PLAN_CONTACT, 0, 1);
    plan_add(t, 1, PLAN_NO_REPLY, PLAN_CONTACT, 1, 0);
    plan_add(t, 1, PLAN_ENGAGED, PLAN_WAIT, 60, 1);
    plan_link(t, 1, PLAN_NO_REPLY, 0, PLAN_ENGAGED);
    plan_link(t, 1, PLAN_ENGAGED, 0, PLAN_LINE_FAULT);
    plan_link(t, 1, PLAN_ENGAGED, 2, PLAN_ENGAGED);
    plan_link(t, 1, PLAN_NO_REPLY, 3, PLAN_ANSWERED);
    return m;
}

/* Two clearings in either order (W14), at all places of that table, a free step and exit 4 among them: one plan, and as many steps freed. The second
 * gets 3 if the first freed its step, 6 if it is the first again, and else what it gets alone. An exit that can be cleared first gets 3 in one order at
 * most. Some pairs leave two tables of one plan, also where one order has the 3. */
static void either_order(void) {
    enum { PLACES = 5 * 5 };
    const lent m = two_ways();
    int others = 0, others_refused = 0;
    for (uint16_t a = 0; a < PLACES; a++) {
        int all = 1;
        for (uint16_t b = 0; b < PLACES; b++) {
            lent one = m, other = m;
            const plan_reply first = plan_clear(&one.table, a / 5, a % 5), alone = plan_clear(&other.table, b / 5, b % 5);
            const int stays = one.table.used[b / 5], twice = a == b && alone.refusal == 0;
            const plan_reply second = plan_clear(&one.table, b / 5, b % 5), last = plan_clear(&other.table, a / 5, a % 5);
            const int differ = !same(&one.table, &other.table), refused = alone.refusal == 0 && second.refusal == 3;
            all = all && same_plan(&one.table, &other.table) && first.second + second.second == alone.second + last.second;
            all = all && second.refusal == (!stays ? 3 : twice ? 6 : alone.refusal);
            all = all && (!refused || last.refusal == 0) && same_image(&one.table, &other.table) == !differ;
            all = all && edges_stand(&one) && edges_stand(&other);
            others += differ, others_refused += differ && refused;
        }
        expect(all, "two clearings in either order");
    }
    expect(others == 6 && others_refused == 1, "tables of one plan that differ");
}

/* Whether plan_rung lists these steps, so many of them contacts. */
static int rings(lent *m, int many, int contacts, const uint8_t *steps) {
    return lists_steps(rung, m, 0, 0, many, contacts, steps, many);
}

/* Whether plan_rung lists just the steps that trials of a small table enter, with all results that there are. So many results and moves are enough: a
 * step that some trial enters is entered on a way that meets no step twice. */
static int rings_as_tried(lent *m) {
    const uint16_t in_use = plan_counts(&m->table).first;
    uint8_t results[PLAN_PLACES], trace[PLAN_PLACES], steps[PLAN_PLACES], entered[PLAN_PLACES] = {0};
    int many = 0, contacts = 0;
    for (long i = 0; i < 1L << (2 * (in_use - 1)); i++) {
        for (int k = 0; k < in_use - 1; k++) results[k] = (uint8_t)((i >> (2 * k)) % 4);
        const plan_trial_reply r = plan_trial(&m->table, in_use, results, (size_t)in_use - 1, trace, in_use);
        for (int k = 0; k < r.moves; k++) entered[trace[k]] = 1;
    }
    for (int i = 0; i < PLAN_PLACES; i++) {
        if (entered[i]) steps[many++] = (uint8_t)i, contacts += m->table.kinds[i] == PLAN_CONTACT;
    }
    return rings(m, many, contacts, steps);
}

/* The steps that some trial enters: of each kind behind each exit, of rings, against the order of numbers, all steps, and after a squeeze. */
static void rungs(void) {
    static const uint8_t one_two_four[3] = {1, 2, 4}, one_three[2] = {1, 3};
    static const uint16_t contents[4] = {0, 999, 15, 600};
    uint8_t all_steps[127];
    lent m = f4();
    plan_table *t = &m.table;
    for (int i = 0; i < 127; i++) all_steps[i] = (uint8_t)(i + 1);
    expect(rings(&m, 0, 0, all_steps) && rings_as_tried(&m), "F4, nobody can be rung");
    for (uint16_t i = 0; i < 4 * 3 * 4; i++) {
        /* a step of each kind at an exit of step 0, and a contact at an exit of it */
        const uint16_t first = i / 12, kind = i / 4 % 3 + 1, exit = i % 4;
        const int goes_on = kind == PLAN_CONTACT || exit == PLAN_ANSWERED;
        const int many = first ? 0 : 1 + goes_on, contacts = first ? 0 : goes_on + (kind == PLAN_CONTACT);
        fresh(t, 3);
        plan_add(t, 0, first, kind, contents[kind], 0);
        plan_add(t, 1, exit, PLAN_CONTACT, 0, 0);
        expect(rings(&m, many, contacts, all_steps), "a contact behind each exit of each kind");
        expect(rings_as_tried(&m), "as trials enter them");
        /* the contact leads back, and step 0 to it by an exit that it never takes */
        plan_link(t, 0, first, 2, PLAN_LINE_FAULT);
        plan_link(t, 1, exit, 0, first == PLAN_LINE_FAULT ? PLAN_NO_REPLY : PLAN_LINE_FAULT);
        expect(rings(&m, many, contacts, all_steps), "a ring changes nothing");
    }
    m = p1();
    plan_link(t, 0, PLAN_ANSWERED, 1, PLAN_ANSWERED);
    expect(rings(&m, 1, 1, all_steps), "a step linked to itself");
    for (int i = 0; i < 3; i++) {
        m.table = different(patterns[i]);
        expect(rings(&m, 3, 1, one_two_four) && rings_as_tried(&m), "all fields of step 2 different");
    }
    m = two_ways();
    expect(rings(&m, 3, 2, all_steps), "two ways to each of two steps");
    for (uint16_t i = 0; i < 5 * 4; i++) {
        m = two_ways();
        plan_clear(t, i / 4, i % 4);
        expect(rings_as_tried(&m), "and with an exit of it cleared");
    }
    /* 0 to 3 to 1, and 0 to 2, of messages; then squeezed, where 3 becomes 2 */
    fresh(t, 4);
    for (uint16_t exit = 0; exit < 3; exit++) plan_add(t, 0, exit, PLAN_MESSAGE, 1, 0);
    plan_link(t, 0, PLAN_ANSWERED, 3, PLAN_ANSWERED);
    plan_clear(t, 0, PLAN_ANSWERED);
    plan_link(t, 0, PLAN_NO_REPLY, 0, PLAN_ANSWERED);
    expect(rings(&m, 2, 0, one_three), "3 leads to 1, and 2 is not entered");
    plan_clear(t, 0, PLAN_ENGAGED);
    expect(gave(squeeze(t, 3), 0, 0, 0) && rings(&m, 2, 0, all_steps), "under their new numbers");
    for (uint16_t kind = 1; kind < 4; kind++) {
        const int contact = kind == PLAN_CONTACT;
        fresh(t, 128);
        for (uint16_t step = 0; step < 127; step++) plan_add(t, step, contact ? step % 4 : PLAN_ANSWERED, kind, 1, 0);
        expect(rings(&m, 127, contact ? 127 : 0, all_steps), "128 steps, all but step 0 entered");
        plan_link(t, 63, contact ? 3 : 0, 0, PLAN_ENGAGED);
        plan_clear(t, 63, contact ? 3 : 0);
        expect(gave(plan_counts(t), 0, 128, 0) && rings(&m, 63, contact ? 63 : 0, all_steps), "128 steps, half of them held and not entered");
    }
    expect(edges_stand(&m), "after the steps entered");
}

/* The caretaker's plan: a message, contact 42, and on no reply the primary and nine more contacts in a chain. The alarm's engaged exit leads to the
 * primary too. Without contact 42's exit for no reply the ten are still in use, and no trial enters them. */
static void caretaker(void) {
    static const uint8_t steps[12] = {1, 2, 3, 4, 5, 6, 7, 8, 9, 10, 11, 12};
    static const uint8_t no_reply[11] = {2, 2, 2, 2, 2, 2, 2, 2, 2, 2, 2};
    lent m = f4();
    plan_table *t = &m.table;
    fresh(t, 33);
    plan_add(t, 0, PLAN_ANSWERED, PLAN_MESSAGE, 3, 0);
    plan_add(t, 1, PLAN_ANSWERED, PLAN_CONTACT, 42, 0);
    for (uint16_t step = 2; step < 12; step++) plan_add(t, step, PLAN_NO_REPLY, PLAN_CONTACT, (uint16_t)(step - 2), 0);
    plan_link(t, 2, PLAN_NO_REPLY, 0, PLAN_ENGAGED);
    expect(t->contents[3] == 0 && rings(&m, 12, 11, steps), "the caretaker's plan: all are entered");
    expect(tried(t, 12, no_reply, 10, PLAN_SPENT, steps, 12), "the last contact, where ten give no reply");
    expect(foretold(&m, 2, PLAN_NO_REPLY, 10, 0, steps) && gave(plan_clear(t, 2, PLAN_NO_REPLY), 0, 10, 0), "no step goes");
    expect(gave(plan_counts(t), 0, 13, 20) && rings(&m, 2, 1, steps), "and ten contacts are never rung");
    for (uint8_t result = 0; result < 4; result++) expect(tried(t, 12, &result, 1, PLAN_OPEN, steps, 2), "whatever the line result");
    plan_link(t, 0, PLAN_ENGAGED, 2, PLAN_LINE_FAULT);
    expect(rings(&m, 12, 11, steps) && edges_stand(&m), "another exit of contact 42 rings them again");
}

/* Refusals of plan_rung: 1 before 11, whatever the table. */
static void rungs_refused(void) {
    static const size_t rooms[4] = {0, 1, 126, 127};
    lent m = p1(), out = m, one = f4();
    out.table.last = 4;
    fresh(&one.table, 1);
    for (int i = 0; i < 4; i++) expect(not_made(rung, &out, 0, 0, rooms[i], PLAN_NOT_SOUND), "steps entered of a table that is not sound");
    for (int i = 0; i < 3; i++) {
        expect(not_made(rung, &m, 0, 0, rooms[i], PLAN_TOO_SHORT), "a short buffer, where one step is entered");
        expect(not_made(rung, &one, 0, 0, rooms[i], PLAN_TOO_SHORT), "a short buffer, where there is no step to enter");
    }
}

static void keys(void) {
    static const char *const lines[5] = {"H*100001000A", "H*200000012A", "H*30000A", "H*4A", "H*30000A"};
    static const int answers[5][3] = {{0, 1, 0}, {0, 0, 0}, {0, 1, 1}, {0, 1, 127}, {6, 0, 0}};
    lent m = f4();
    fresh(&m.table, 128);
    for (int i = 0; i < 5; i++) {
        plan_reply r = plan_key_line(&m.table, (const uint8_t *)lines[i], strlen(lines[i]));
        expect(gave(r, answers[i][0], answers[i][1], answers[i][2]) && edges_stand(&m), lines[i]);
    }
    expect(gave(plan_counts(&m.table), 0, 1, 127), "counts without a key line");
}

/* A dispatcher with bytes on both sides that no call may change. */
typedef struct {
    uint8_t before[EDGE];
    plan_line line;
    uint8_t after[EDGE];
} lent_line;

/* A dispatcher at which the cabins of these bits wait, each with this word, and this cabin was served last. */
static lent_line waiting(unsigned bits, uint16_t word, uint16_t last) {
    lent_line m;
    memset(&m, UNTOUCHED, sizeof m);
    for (int i = 0; i < PLAN_LINE_CABINS; i++) m.line.waiting[i] = (bits >> i) % 2 ? word : 0;
    m.line.last = last;
    return m;
}

/* The calls on a dispatcher that can be refused. */
enum line_call { RAISE, WITHDRAW, NEXT };

static plan_reply on_line(enum line_call call, plan_line *line, uint16_t cabin) {
    return call == RAISE ? plan_line_raise(line, cabin) : call == WITHDRAW ? plan_line_withdraw(line, cabin) : plan_line_next(line);
}

/* Whether a call answers so and leaves the dispatcher with the words of the second one, and no byte around it changed. */
static int line_gave(lent_line *m, enum line_call call, uint16_t cabin, int refusal, int first, const lent_line *expected) {
    return gave(on_line(call, &m->line, cabin), refusal, first, 0) && memcmp(m, expected, sizeof *m) == 0;
}

/* Whether a call is refused so and leaves every byte. */
static int line_refused(lent_line *m, enum line_call call, uint16_t cabin, int refusal) {
    const lent_line was = *m;
    return line_gave(m, call, cabin, refusal, 0, &was);
}

/* Who waits, a bit for each cabin: nobody, one, every second cabin, or all; and words of one that waits. */
static const unsigned crowds[6] = {0, 1, 0x8000, 0x5555, 0xAAAA, 0xFFFF};
static const uint16_t alarm_words[4] = {1, 2, 256, 65535};

/* A fresh dispatcher over any bytes, the words of a dispatcher in their places in memory, and a few calls in a row (W11). */
static void lines(void) {
    static const uint16_t calls[12][3] = {{RAISE, 3, 0}, {RAISE, 12, 0}, {NEXT, 0, 3}, {RAISE, 1, 0}, {RAISE, 3, 0}, {NEXT, 0, 12}, {NEXT, 0, 1},
        {WITHDRAW, 3, 0}, {RAISE, 0, 0}, {NEXT, 0, 0}, {RAISE, 15, 0}, {NEXT, 0, 15}};
    const lent_line fresh_line = waiting(0, 0, 15);
    uint16_t words[17];
    lent_line m, n;
    int all = 1;
    for (int value = 0; value < 256; value++) {
        m = fresh_line;
        memset(&m.line, value, sizeof m.line);
        /* only with 0 in every byte the last served is a cabin */
        for (int i = 0; value && i < 3; i++) all = all && line_refused(&m, (enum line_call)i, 3, PLAN_NOT_SOUND);
        all = all && gave(plan_line_fresh(&m.line), 0, 0, 0) && memcmp(&m, &fresh_line, sizeof m) == 0;
    }
    expect(all, "a fresh dispatcher, whatever stood there");
    for (uint16_t i = 0; i < 17; i++) words[i] = (uint16_t)(i == 16 ? 7 : 100 + i);
    memcpy(&m.line, words, sizeof words);
    expect(gave(plan_line_next(&m.line), 0, 8, 0) && gave(plan_line_withdraw(&m.line, 2), 0, 0, 0), "cabin 8 after 7, and 2 withdraws");
    words[8] = words[2] = 0, words[16] = 8;
    expect(memcmp(&m.line, words, sizeof words) == 0, "the words in memory");
    m = fresh_line;
    for (int i = 0; i < 12; i++) {
        expect(gave(on_line((enum line_call)calls[i][0], &m.line, calls[i][1]), 0, calls[i][2], 0), "twelve calls in a row");
    }
    expect(memcmp(&m, &fresh_line, sizeof m) == 0, "after which nobody waits, and 15 was served last");
    /* cabin 0 and a refusal both have 0 as their first number */
    m = n = waiting(1, 1, 15);
    n.line.waiting[0] = n.line.last = 0;
    expect(line_gave(&m, NEXT, 0, PLAN_DONE, 0, &n) && line_refused(&m, NEXT, 0, PLAN_NOBODY_WAITS), "cabin 0, and then nobody");
}

/* Every cabin raises and withdraws its alarm, each twice: its own word becomes 1 and 0, and no other word changes. Where it waits already, or does not
 * wait, no word does, whatever it is. */
static void alarms(void) {
    for (uint16_t cabin = 0; cabin < PLAN_LINE_CABINS; cabin++) {
        int raised = 1, kept = 1, withdrawn = 1;
        for (unsigned i = 0; i < 6 * 4 * PLAN_LINE_CABINS; i++) {
            lent_line m = waiting(crowds[i % 6], alarm_words[i / 6 % 4], (uint16_t)(i / 24)), n = m;
            if (m.line.waiting[cabin]) {
                kept = kept && line_gave(&m, RAISE, cabin, 0, 0, &n);
            } else {
                kept = kept && line_gave(&m, WITHDRAW, cabin, 0, 0, &n);
                n.line.waiting[cabin] = 1;
                raised = raised && line_gave(&m, RAISE, cabin, 0, 0, &n) && line_gave(&m, RAISE, cabin, 0, 0, &n);
            }
            n.line.waiting[cabin] = 0;
            withdrawn = withdrawn && line_gave(&m, WITHDRAW, cabin, 0, 0, &n) && line_gave(&m, WITHDRAW, cabin, 0, 0, &n);
        }
        expect(raised, "a cabin raises its alarm");
        expect(kept, "doing what is already so changes nothing");
        expect(withdrawn, "a cabin withdraws its alarm");
    }
}

/* Refusals on a dispatcher, in their order: 1 before 20 and 21. Two of the numbers past 15 are those of a cabin in 8 bits. */
static void line_refusals(void) {
    static const uint16_t past[6] = {16, 17, 255, 256, 256 + 15, 65535};
    for (int i = 0; i < 6; i++) {
        int all = 1, none = 1;
        for (int k = 0; k < 6 * 4; k++) {
            const uint16_t word = alarm_words[k / 6];
            lent_line out = waiting(crowds[k % 6], word, past[i]);
            for (uint16_t cabin = 0; cabin < PLAN_LINE_CABINS; cabin++) {
                lent_line m = waiting(crowds[k % 6], word, cabin);
                all = all && line_refused(&out, RAISE, cabin, PLAN_NOT_SOUND) && line_refused(&out, WITHDRAW, cabin, PLAN_NOT_SOUND);
                none = none && line_refused(&m, RAISE, past[i], PLAN_NO_SUCH_CABIN) && line_refused(&m, WITHDRAW, past[i], PLAN_NO_SUCH_CABIN);
            }
            for (int j = 0; j < 6; j++) {
                all = all && line_refused(&out, RAISE, past[j], PLAN_NOT_SOUND) && line_refused(&out, WITHDRAW, past[j], PLAN_NOT_SOUND);
            }
            all = all && line_refused(&out, NEXT, 0, PLAN_NOT_SOUND);
        }
        expect(all, "a last served above 15, whatever the cabin and whoever waits");
        expect(none, "a cabin above 15");
    }
    for (uint16_t last = 0; last < PLAN_LINE_CABINS; last++) {
        lent_line m = waiting(0, 0, last);
        expect(line_refused(&m, NEXT, 0, PLAN_NOBODY_WAITS), "next, and nobody waits");
    }
}

/* Next, whoever was served last and whoever waits: the first after that one, going round, and that one itself last. */
static void turns(void) {
    for (uint16_t last = 0; last < PLAN_LINE_CABINS; last++) {
        int all = 1;
        for (unsigned bits = 1; bits < 65536; bits++) {
            lent_line m = waiting(bits, alarm_words[bits % 4], last), n = m;
            uint16_t cabin = (uint16_t)((last + 1) % PLAN_LINE_CABINS);
            while ((bits >> cabin) % 2 == 0) cabin = (uint16_t)((cabin + 1) % PLAN_LINE_CABINS);
            n.line.waiting[cabin] = 0, n.line.last = cabin;
            all = all && line_gave(&m, NEXT, 0, 0, cabin, &n);
        }
        expect(all, "the first waiting cabin after the one last served");
    }
}

/* A waiting cabin that does not withdraw is served within 16 accepted calls: where all wait and each one served raises its alarm again, the cabin that
 * is k places ahead is the k-th, and the one last served the sixteenth. Refused calls in between change nothing. */
static void within_sixteen(void) {
    for (uint16_t cabin = 0; cabin < PLAN_LINE_CABINS; cabin++) {
        int all = 1;
        for (uint16_t last = 0; last < PLAN_LINE_CABINS; last++) {
            lent_line m = waiting(0xFFFF, 1, last);
            const int ahead = (cabin + PLAN_LINE_CABINS - last - 1) % PLAN_LINE_CABINS + 1;
            for (int k = 1; k <= ahead; k++) {
                const plan_reply r = plan_line_next(&m.line);
                all = all && r.refusal == 0 && (r.first == cabin) == (k == ahead) && r.first == (last + k) % PLAN_LINE_CABINS;
                all = all && line_refused(&m, RAISE, PLAN_LINE_CABINS, PLAN_NO_SUCH_CABIN) && gave(plan_line_raise(&m.line, r.first), 0, 0, 0);
            }
            all = all && ahead <= 16 && (ahead == 16) == (cabin == last);
        }
        expect(all, "a waiting cabin is served within 16 calls");
    }
}

/* A long history of calls by all cabins, refused ones too, against words kept here: spells of many alarms, of some, and of few. While a cabin waits, at
 * most 15 others are served, and at times 15 are. Now and then the dispatcher is made fresh. */
static void line_history(void) {
    static const unsigned nexts[3] = {1, 4, 6}, raises[3] = {8, 7, 7};
    lent_line m = waiting(0, 0, 15), n = m;
    uint16_t others[PLAN_LINE_CABINS] = {0};
    uint32_t random = 1;
    int all = 1, most = 0, met[22] = {0};
    for (long i = 0; i < 200000; i++) {
        random = random * 1664525u + 1013904223u;
        const uint16_t cabin = (uint16_t)((random >> 16) % 18);
        const unsigned spell = (unsigned)(i / 500 % 3), choice = random >> 29;
        const enum line_call call = choice < nexts[spell] ? NEXT : choice < raises[spell] ? RAISE : WITHDRAW;
        int refusal = 0, first = 0;
        if (i % 5000 == 4999) {
            all = all && gave(plan_line_fresh(&m.line), 0, 0, 0);
            n = waiting(0, 0, 15);
            memset(others, 0, sizeof others);
            continue;
        }
        if (call != NEXT) {
            refusal = cabin > 15 ? PLAN_NO_SUCH_CABIN : 0;
            if (!refusal && (call == WITHDRAW || !n.line.waiting[cabin])) n.line.waiting[cabin] = call == RAISE, others[cabin] = 0;
        } else {
            int k = 1;
            while (k <= 16 && !n.line.waiting[(n.line.last + k) % 16]) k++;
            refusal = k > 16 ? PLAN_NOBODY_WAITS : 0;
            if (!refusal) {
                first = n.line.last = (uint16_t)((n.line.last + k) % 16);
                n.line.waiting[first] = 0;
                for (int c = 0; c < 16; c++) others[c] = (uint16_t)(n.line.waiting[c] ? others[c] + 1 : 0);
            }
        }
        all = all && line_gave(&m, call, cabin, refusal, first, &n);
        for (int c = 0; c < 16; c++) most = others[c] > most ? others[c] : most;
        met[refusal]++;
    }
    expect(all, "a history on one line");
    expect(most == 15 && met[0] > 1000 && met[PLAN_NO_SUCH_CABIN] > 1000 && met[PLAN_NOBODY_WAITS] > 100, "which has all of this");
}

/* Any bytes in a table's memory: each value in every byte. */
static void wild(void) {
    static const uint16_t a[4] = {0, 0, 1, 0};
    lent m;
    int all = 1;
    memset(&m, UNTOUCHED, sizeof m);
    for (int value = 0; value < 256; value++) {
        memset(&m.table, value, sizeof m.table);
        all = all && plan_is_sound(&m.table) == 0 && gave(plan_add(&m.table, 0, 0, 1, 0, 0), 1, 0, 0) && gave(plan_clear(&m.table, 0, 0), 1, 0, 0);
        all = all && leaves_every_byte(&m, a, (const uint8_t *)"H*4A");
    }
    expect(all, "bytes that are no sound table");
}

int main(void) {
    names();
    edits();
    fields();
    images();
    editions();
    one_image();
    image_fields();
    conversions();
    other_lists();
    damaged_images();
    refusals();
    lists();
    cabins();
    guarantees();
    keyed_cabins();
    unsound_cabins();
    squeezes();
    squeezed_lists();
    trials();
    lengths();
    converted_lengths();
    slips();
    slips_refused();
    regrets();
    damaged_slips();
    slip_lengths();
    contacts();
    previews();
    every_exit();
    previews_refused();
    either_order();
    rungs();
    caretaker();
    rungs_refused();
    keys();
    lines();
    alarms();
    line_refusals();
    turns();
    within_sixteen();
    line_history();
    wild();
    printf("%d passed, %d failed\n", passed, failed);
    return failed != 0;
}
