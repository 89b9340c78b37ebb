/* Refused calls of tour_save and tour_take_up: each is told the first check that fails, while those behind it fail too, and leaves every byte as it was of all
 * that it is lent. scripts/hosts.sh runs it. */
#include <stdio.h>
#include <stdlib.h>
#include <string.h>
#include "tour.h"

#define LEN(a) (sizeof(a) / sizeof *(a))
enum { N = 4, PAIRS = N * (N - 1), TREE = 4 * (2 * N - 1), MORE = 3, POINTS = 257, RECORDS = 3, FIRST_SLOT = 5, NONE = 99 };

/* What a call is lent, with some elements more than it needs. */
static struct {
    int32_t x[N + MORE], y[N + MORE], tree[TREE + MORE];
    uint64_t ends[PAIRS + MORE], links[PAIRS + MORE];
    uint32_t ages[PAIRS + MORE];
    uint16_t ring[N + MORE], index[N + MORE], heads[PAIRS + MORE], dense[PAIRS + MORE], reverse[PAIRS + MORE], release[PAIRS + MORE];
    uint16_t tangles[PAIRS + MORE];
    uint8_t image[TOUR_IMAGE_LENGTH(POINTS, RECORDS)];
} lent, before;

/* The run that is to be saved, or whose image is to be taken up. */
static struct {
    size_t n, picks, records;
    int32_t x[POINTS], y[POINTS];
    uint16_t ring[POINTS], record[RECORDS][4];
    uint32_t age[RECORDS];
} run;

static const uint32_t many_picks[1000001];
static unsigned saves, take_ups;

/* The call was told that number alone, and all is as it was. */
static void expect(const char *call, uint32_t wanted, uint32_t code, size_t told) {
    int is_same = memcmp(&lent, &before, sizeof lent) == 0;
    if (code == wanted && told == 0 && is_same) return;
    printf("%s: code %u in place of %u, told %zu, %s\n", call, (unsigned)code, (unsigned)wanted, told, is_same ? "untouched" : "not as it was");
    exit(1);
}

/* The state of the run in the buffers, record i at the slot FIRST_SLOT + i. */
static void lay_out_state(void) {
    memset(&lent, 0xa5, sizeof lent);
    for (size_t i = 0; i < N; i++) lent.x[i] = run.x[i], lent.y[i] = run.y[i], lent.ring[i] = run.ring[i];
    for (size_t i = 0; i < run.records; i++) {
        size_t slot = FIRST_SLOT + i;
        lent.dense[i] = (uint16_t)slot;
        lent.ages[slot] = run.age[i];
        lent.ends[slot] = 0;
        for (size_t k = 0; k < 4; k++) lent.ends[slot] |= (uint64_t)run.record[i][k] << 16 * k;
    }
}

static void put(size_t at, size_t value, size_t bytes) {
    for (size_t k = 0; k < bytes; k++) lent.image[at + k] = (uint8_t)(value >> 8 * k);
}

/* The image of the run, so many bytes to a record, beside buffers of no use; its length. */
static size_t lay_out_image(size_t width) {
    memset(&lent, 0xa5, sizeof lent);
    size_t n = run.n, ring = 28 + 8 * n, records = ring + 2 * n, length = records + width * run.records;
    const size_t header[7] = {n, 28, ring, run.records, records, width, length};
    for (size_t k = 0; k < 7; k++) put(4 * k, header[k], 4);
    for (size_t i = 0; i < n; i++) {
        put(28 + 8 * i, (uint32_t)run.x[i], 4);
        put(32 + 8 * i, (uint32_t)run.y[i], 4);
        put(ring + 2 * i, run.ring[i], 2);
    }
    for (size_t i = 0; i < run.records; i++) {
        for (size_t k = 0; k < 4; k++) put(records + width * i + 2 * k, run.record[i][k], 2);
        if (width == 12) put(records + width * i + 8, run.age[i], 4);
    }
    return length;
}

/* How many elements are lent of buffer k: one less than are needed where it is the short one. */
static size_t room(size_t k, size_t the_short, size_t needed, size_t there) {
    return k == the_short ? needed - 1 : there;
}

static size_t of_points(size_t k, size_t the_short) {
    return room(k, the_short, run.n, N + MORE);
}

static size_t of_records(size_t k, size_t the_short) {
    return room(k, the_short, run.n * (run.n - 1), PAIRS + MORE);
}

static tour_saved save(size_t left, size_t the_short) {
    return tour_save(run.n, lent.x, of_points(0, the_short), lent.y, of_points(1, the_short), lent.ring, of_points(2, the_short), left,
        lent.dense, of_records(3, the_short), lent.ends, of_records(4, the_short), lent.ages, of_records(5, the_short),
        lent.image, room(6, the_short, TOUR_IMAGE_LENGTH(run.n, left), sizeof lent.image));
}

static tour_answer take_up(size_t length, size_t the_short) {
    return tour_take_up(lent.image, length, many_picks, run.picks, lent.x, of_points(0, the_short), lent.y, of_points(1, the_short),
        lent.ring, of_points(2, the_short), lent.index, of_points(3, the_short), lent.heads, of_records(4, the_short), lent.ends, of_records(5, the_short),
        lent.links, of_records(6, the_short), lent.ages, of_records(7, the_short), lent.dense, of_records(8, the_short),
        lent.reverse, of_records(9, the_short), lent.release, of_records(10, the_short), lent.tangles, of_records(11, the_short),
        lent.tree, room(12, the_short, 4 * (2 * run.n - 1), LEN(lent.tree)));
}

static void refuse_save(uint32_t wanted, size_t left, size_t the_short) {
    memcpy(&before, &lent, sizeof lent);
    tour_saved a = save(left, the_short);
    expect("tour_save", wanted, a.code, a.length);
    saves++;
}

static void refuse_take_up(uint32_t wanted, size_t length, size_t the_short) {
    memcpy(&before, &lent, sizeof lent);
    tour_answer a = take_up(length, the_short);
    expect("tour_take_up", wanted, a.code, a.moves + a.cross + a.left);
    take_ups++;
}

/* Both refuse the run by that number. */
static void refuse(uint32_t wanted) {
    lay_out_state();
    refuse_save(wanted, run.records, NONE);
    refuse_take_up(wanted, lay_out_image(12), NONE);
}

/* Check 20: the image of the run is refused with another word in its header. */
static void refuse_word(size_t word, size_t value) {
    size_t length = lay_out_image(12);
    put(4 * word, value, 4);
    refuse_take_up(20, length, NONE);
}

static void refuse_images(void) {
    size_t total = lay_out_image(12), areas[3][2] = {{1, 8 * run.n}, {2, 2 * run.n}, {4, 12 * run.records}};
    refuse_take_up(20, 0, NONE);
    refuse_take_up(20, 27, NONE);
    refuse_take_up(20, total - 1, NONE);
    refuse_word(6, total + 1);
    refuse_word(5, 0);
    refuse_word(5, 10);
    refuse_word(0, UINT32_MAX);
    refuse_word(3, UINT32_MAX);
    for (size_t i = 0; i < LEN(areas); i++) {
        refuse_word(areas[i][0], 27);
        refuse_word(areas[i][0], total - areas[i][1] + 1);
        refuse_word(areas[i][0], UINT32_MAX);
    }
}

/* Check 2: each buffer in turn is short by one, or more records are live than there can be. */
static void refuse_short(void) {
    lay_out_state();
    for (size_t k = 0; k < 7; k++) refuse_save(2, run.records, k);
    refuse_save(2, PAIRS + 1, NONE);
    refuse_save(2, SIZE_MAX, NONE);
    size_t length = lay_out_image(12);
    for (size_t k = 0; k < 13; k++) refuse_take_up(2, length, k);
}

static void set_records(size_t count, const uint16_t *record) {
    run.records = count;
    for (size_t i = 0; i < count; i++) memcpy(run.record[i], record, sizeof run.record[i]), run.age[i] = (uint32_t)(count - i - 1);
}

/* Check 21, of a square whose first edge meets its third, and no other two. */
static void refuse_records(void) {
    static const uint16_t wrong[][4] = {{0, 3, 1, 2}, {2, 3, 0, 1}, {1, 0, 2, 3}, {0, 1, 3, 2}, {0, 2, 1, 3}, {0, 1, 0, 1}, {0, 1, 2, 4},
        {65535, 65535, 65535, 65535}};
    for (size_t i = 0; i < LEN(wrong); i++) set_records(1, wrong[i]), refuse(21);
    static const uint16_t right[4] = {0, 1, 2, 3};
    set_records(3, right), refuse(21);
    set_records(0, right), refuse(21);
    set_records(2, right), run.age[0] = 0, refuse(21);
    set_records(1, right), run.age[0] = 1;
    refuse_take_up(21, lay_out_image(12), NONE);
    lay_out_state(), lent.dense[0] = PAIRS;
    refuse_save(21, 1, NONE);
    set_records(2, right);
}

/* What is not refused. */
static void accept(void) {
    lay_out_state();
    tour_saved saved = save(run.records, NONE);
    tour_answer with_ages = take_up(lay_out_image(12), NONE), without = take_up(lay_out_image(8), NONE);
    if (saved.code != 0 || saved.length != TOUR_IMAGE_LENGTH(N, 2) || with_ages.code != 8 || with_ages.left != 2 || without.code != 8 || without.left != 2) {
        printf("a good run is refused: %u %u %u\n", (unsigned)saved.code, (unsigned)with_ages.code, (unsigned)without.code);
        exit(1);
    }
}

int main(void) {
    static const uint16_t one_pair[4] = {0, 1, 2, 3};
    run.n = POINTS, run.picks = LEN(many_picks);
    for (size_t i = 0; i < POINTS; i++) run.x[i] = run.y[i] = 1000000001, run.ring[i] = 7;
    set_records(RECORDS, one_pair);
    refuse_images();
    refuse(1);
    run.n = N;
    refuse_short();
    refuse_take_up(19, lay_out_image(12), NONE);
    run.picks = 0;
    refuse(3);
    for (size_t i = 0; i < N; i++) run.x[i] = run.y[i] = 0;
    refuse(4);
    for (size_t i = 0; i < N; i++) run.ring[i] = (uint16_t)i;
    refuse(5);
    run.n = run.records = 2;
    refuse(5);
    for (size_t i = 0; i < N; i++) run.x[i] = run.y[i] = 10 * (int32_t)i;
    refuse(6);
    run.n = N, run.records = RECORDS;
    refuse(7);
    for (size_t i = 0; i < N; i++) run.x[i] = i == 1 || i == 2, run.y[i] = i % 2;
    refuse_records();
    accept();
    printf("untouched by refusals: %u of tour_save, %u of tour_take_up\n", saves, take_ups);
    return 0;
}
