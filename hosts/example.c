/* A C host: reads a job, delivers its loop, stops a run and takes it up again, asks for less, and breaks each rule once. scripts/hosts.sh runs it. */
#include <stdio.h>
#include <string.h>
#include "tour.h"

enum { N = 8, PAIRS = N * (N - 1), TREE = 4 * (2 * N - 1) };

static uint16_t ring[N + 1], index_of[N], work[5][PAIRS];
static uint64_t words[2][PAIRS];
static uint32_t ages[PAIRS], many_picks[1000001];
static int32_t tree[TREE + 1];
static uint8_t image[TOUR_IMAGE_LENGTH(N, PAIRS)];

/* One call with all buffers; `room` is the length that the eight work buffers are lent with. */
static tour_answer call(int from_ring, size_t n, const int32_t *x, const int32_t *y, const uint32_t *picks, size_t picks_len, size_t room) {
    return (from_ring ? tour_resolve_self_intersections : tour_two_opt_moves)(n, x, N, y, N, picks, picks_len, ring, N, index_of, N,
        work[0], room, words[0], room, words[1], room, ages, room, work[1], room, work[2], room, work[3], room, work[4], room,
        tree, TREE);
}

/* A run from an image, in buffers that hold nothing of use. */
static tour_answer take_up(size_t image_len, const uint32_t *picks, size_t picks_len, int32_t *x, int32_t *y) {
    memset(ring, 0xa5, N * sizeof *ring);
    memset(work, 0xa5, sizeof work);
    memset(words, 0xa5, sizeof words);
    memset(ages, 0xa5, sizeof ages);
    memset(tree, 0xa5, TREE * sizeof *tree);
    return tour_take_up(image, image_len, picks, picks_len, x, N, y, N, ring, N, index_of, N, work[0], PAIRS, words[0], PAIRS,
        words[1], PAIRS, ages, PAIRS, work[1], PAIRS, work[2], PAIRS, work[3], PAIRS, work[4], PAIRS, tree, TREE);
}

/* The edge that starts at a position of a ring, its smaller point first. */
static void show_edge(size_t n, const uint16_t *of, size_t i) {
    unsigned p = of[i], q = of[(i + 1) % n];
    printf(" %u-%u", p < q ? p : q, p < q ? q : p);
}

/* How many records name the edge of the ring that starts at a position. */
static unsigned named(size_t n, size_t i) {
    unsigned p = ring[i], q = ring[(i + 1) % n];
    return work[4][p < q ? q + n * p : p + n * q];
}

/* The position of the edge that most records name; of several, the first. */
static size_t worst(size_t n) {
    size_t at = 0;
    for (size_t i = 1; i < n; i++)
        if (named(n, i) > named(n, at)) at = i;
    return at;
}

/* The answer, and for a loop or a state the ring, the records left, and the worst edge. */
static void show(const char *title, size_t n, tour_answer a) {
    printf("%s: code %u moves %zu cross %zu left %zu\n", title, (unsigned)a.code, a.moves, a.cross, a.left);
    if (a.code != 0 && a.code != 8) return;
    printf("  ring");
    for (size_t i = 0; i < n; i++) printf(" %u", ring[i]);
    printf("\n");
    for (size_t i = 0; i < a.left; i++) {
        uint64_t w = words[0][work[1][i]];
        printf("  record %u-%u %u-%u\n", TOUR_MIN0(w), TOUR_MAX0(w), TOUR_MIN1(w), TOUR_MAX1(w));
    }
    if (a.code != 8) return;
    printf("  worst edge");
    show_edge(n, ring, worst(n));
    printf(", named %u times\n", named(n, worst(n)));
}

/* The records left, the one made first at the front. */
static void show_by_age(size_t left) {
    uint16_t slots[PAIRS];
    for (size_t i = 0; i < left; i++) {
        size_t at = i;
        for (; at > 0 && ages[slots[at - 1]] > ages[work[1][i]]; at--) slots[at] = slots[at - 1];
        slots[at] = work[1][i];
    }
    for (size_t i = 0; i < left; i++) {
        uint64_t w = words[0][slots[i]];
        printf("  age %u %u-%u %u-%u\n", (unsigned)ages[slots[i]], TOUR_MIN0(w), TOUR_MAX0(w), TOUR_MIN1(w), TOUR_MAX1(w));
    }
}

/* A refusal with its words. */
static void show_refused(const char *title, tour_answer a) {
    printf("%s: code %u, %s\n", title, (unsigned)a.code, tour_words(a.code));
}

/* The edges that meet the edge of a and b by the records left, newest first. */
static void show_list(size_t n, unsigned a, unsigned b) {
    printf("  %u-%u meets", a, b);
    for (unsigned s = work[0][b + n * a]; s != TOUR_NONE;) {
        uint64_t w = words[0][s], l = words[1][s];
        int first = TOUR_MIN0(w) == a && TOUR_MAX0(w) == b;
        printf(" %u-%u", first ? TOUR_MIN1(w) : TOUR_MIN0(w), first ? TOUR_MAX1(w) : TOUR_MAX0(w));
        s = first ? TOUR_NEXT0(l) : TOUR_NEXT1(l);
    }
    printf("\n");
}

/* The box of the k positions from i on, and behind it those of its halves. */
static void show_tree(size_t i, size_t k, const int32_t *box) {
    printf("  box of %zu to %zu: %d %d, %d %d\n", i, i + k - 1, (int)box[0], (int)box[1], (int)box[2], (int)box[3]);
    if (k == 1) return;
    show_tree(i, k / 2, box + 4);
    show_tree(i + k / 2, k - k / 2, box + 8 * (k / 2));
}

/* How many edges of a ring were compared with the one that starts at a position, and which of them meet it. */
static void show_query(const char *title, size_t n, const int32_t *x, const int32_t *y, const uint16_t *of, size_t tree_len, size_t position) {
    uint16_t found[N];
    tour_queried q = tour_query(n, x, N, y, N, of, N, tree, tree_len, position, found, N);
    printf("%s: ", title);
    if (q.code != 0) printf("code %u", (unsigned)q.code);
    else printf("%zu compared, meets", q.tested);
    for (size_t i = 0; i < q.count; i++) show_edge(n, of, found[i]);
    printf("\n");
}

/* Where the first n entries of a ring of four are wrong. */
static void show_fault(const char *title, size_t n, const uint16_t *of) {
    tour_fault f = tour_ring_fault(n, of, 4);
    printf("%s: code %u position %zu\n", title, (unsigned)f.code, f.position);
}

/* The feed of the first n entries of a ring of four over a board of 3 by 4 steps. */
static void show_feed(const char *title, size_t n, const int32_t *x, size_t x_len, const uint16_t *of) {
    tour_fed f = tour_feed(n, x, x_len, (int32_t[]){0, 0, 4, 4}, 4, of, 4);
    printf("%s: code %u feed %llu\n", title, (unsigned)f.code, (unsigned long long)f.feed);
}

/* How the segments from p[0], p[1] to p[2], p[3] and from p[4], p[5] to p[6], p[7] meet. */
static void show_contact(const char *title, const int32_t *p) {
    tour_kind k = tour_contact(p[0], p[1], p[2], p[3], p[4], p[5], p[6], p[7]);
    printf("%s: ", title);
    if (k.code != 0) printf("code %u\n", (unsigned)k.code);
    else if (k.kind == TOUR_OVERLAP)
        printf("overlap from %d %d%s to %d %d%s\n", (int)k.start.x, (int)k.start.y, k.start.is_open ? " open" : "", (int)k.stop.x, (int)k.stop.y,
            k.stop.is_open ? " open" : "");
    else printf("%s\n", k.kind == TOUR_CROSSING ? "crossing" : "none");
}

/* Whether a ring passes, and of two edges that meet how they do. */
static void show_check(const char *title, size_t n, const int32_t *x, const int32_t *y, size_t y_len, const uint16_t *of) {
    tour_checked c = tour_validate(n, x, N, y, y_len, of, N);
    printf("%s: code %u first %zu second %zu\n", title, (unsigned)c.code, c.first, c.second);
    if (c.code != 15) return;
    int32_t ends[8];
    for (size_t k = 0; k < 4; k++) {
        size_t p = of[((k < 2 ? c.first : c.second) + k % 2) % n];
        ends[2 * k] = x[p], ends[2 * k + 1] = y[p];
    }
    show_contact("  how they meet", ends);
}

/* The image goes to a file, and comes back from it; its length, or 0 where that fails. */
static size_t through_a_file(size_t length) {
    FILE *file = tmpfile();
    if (!file) return 0;
    int is_written = fwrite(image, 1, length, file) == length;
    memset(image, 0, sizeof image);
    rewind(file);
    size_t read = is_written ? fread(image, 1, sizeof image, file) : 0;
    fclose(file);
    return read;
}

/* A run that is not stopped; one that is stopped before the pick `stop`, saved and taken up in other buffers, where it goes on with the other picks; and images
 * that are refused. */
static void stop_and_go_on(size_t n, const int32_t *x, const int32_t *y, const uint32_t *picks, size_t picks_len, size_t stop) {
    int32_t other_x[N] = {0}, other_y[N] = {0};
    uint16_t loop[N];
    tour_answer whole = call(0, n, x, y, picks, picks_len, PAIRS);
    show("not stopped", n, whole);
    memcpy(loop, ring, sizeof loop);
    tour_answer first = call(0, n, x, y, picks, stop, PAIRS);
    show("stopped", n, first);
    tour_saved saved = tour_save(n, x, N, y, N, ring, N, first.left, work[1], PAIRS, words[0], PAIRS, ages, PAIRS, image, sizeof image);
    printf("saved: code %u length %zu\n", (unsigned)saved.code, saved.length);
    size_t length = through_a_file(saved.length);
    tour_answer rest = take_up(length, picks + stop, picks_len - stop, other_x, other_y);
    show("taken up", n, rest);
    printf("  %s loop, %zu moves and %zu, not stopped %zu\n", memcmp(loop, ring, sizeof loop) == 0 ? "the same" : "another", first.moves, rest.moves,
        whole.moves);
    show("taken up, no picks", n, take_up(length, NULL, 0, other_x, other_y));
    printf("  %s points\n", memcmp(x, other_x, sizeof other_x) == 0 && memcmp(y, other_y, sizeof other_y) == 0 ? "the same" : "other");
    show_by_age(first.left);
    show_refused("image cut off", take_up(length - 1, NULL, 0, other_x, other_y));
    image[length - 4] ^= 1; /* in the last record's age */
    show_refused("image, a byte changed", take_up(length, NULL, 0, other_x, other_y));
}

static void put_word(uint8_t *job, size_t *at, uint32_t w) {
    for (int k = 0; k < 4; k++) job[(*at)++] = (uint8_t)(w >> 8 * k);
}

int main(void) {
    /* the job of four points in micrometres and one pick */
    static const uint32_t job_words[] = {4, 20, 1, 52, 56, 0, 0, 100, 100, 100, 0, 0, 100, 7};
    uint8_t job[56];
    size_t at = 0;
    for (size_t i = 0; i < sizeof job_words / sizeof *job_words; i++) put_word(job, &at, job_words[i]);
    int32_t x[N] = {0}, y[N] = {0};
    uint32_t picks[4091];
    tour_job read = tour_read_job(job, at, x, N, y, N, picks, 4091);
    printf("job: code %u points %zu picks %zu\n", (unsigned)read.code, read.points, read.picks);
    printf("job cut off: code %u\n", (unsigned)tour_read_job(job, at - 1, x, N, y, N, picks, 4091).code);
    printf("job, short buffer: code %u\n", (unsigned)tour_read_job(job, at, x, 3, y, N, picks, 4091).code);
    job[12] = 48; /* the pick area starts at byte 48, in the last point */
    printf("job, pick over the last point: code %u\n", (unsigned)tour_read_job(job, at, x, 3, y, N, picks, 4091).code);

    memset(work, 0xa5, sizeof work);
    memset(words, 0xa5, sizeof words);
    memset(ages, 0xa5, sizeof ages);
    ring[N] = 4711;
    tree[TREE] = 4711;
    show("loop", read.points, call(0, read.points, x, y, picks, read.picks, PAIRS));
    show("no picks", read.points, call(0, read.points, x, y, NULL, 0, PAIRS));
    memcpy(ring, (uint16_t[]){0, 2, 1, 3}, 8);
    show("lent ring", read.points, call(1, read.points, x, y, picks, read.picks, PAIRS));
    memcpy(ring, (uint16_t[]){0, 2, 2, 3}, 8);
    show("no ring", read.points, call(1, read.points, x, y, picks, read.picks, PAIRS));
    show("short buffers", read.points, call(0, read.points, x, y, picks, read.picks, 11));
    show("too many points", 257, call(0, 257, x, y, picks, read.picks, PAIRS));
    x[1] = 1000000001;
    show("too far", read.points, call(0, read.points, x, y, picks, read.picks, PAIRS));
    x[1] = x[0], y[1] = y[0];
    show("equal points", read.points, call(0, read.points, x, y, picks, read.picks, PAIRS));
    show("two points", 2, call(0, 2, (int32_t[N]){0, 1}, (int32_t[N]){0}, picks, read.picks, PAIRS));
    show("one line", 3, call(0, 3, (int32_t[N]){0, 1, 2}, (int32_t[N]){0, 1, 2}, picks, read.picks, PAIRS));
    static const int32_t row_x[N] = {12, 1, 3, 0, 10, 2, 6}, row_y[N] = {0, 0, -5, 0, 0, 0, 5};
    show("a row, one pick", 7, call(0, 7, row_x, row_y, (uint32_t[]){0}, 1, PAIRS));
    show_list(7, 1, 4);
    show_query("  worst edge", 7, row_x, row_y, ring, TREE, worst(7));
    show_query("  first edge", 7, row_x, row_y, ring, TREE, 0);
    static const int32_t five_x[N] = {2, 0, 2, 0, 2}, five_y[N] = {3, 2, 2, 4, 0};
    tour_answer five = call(0, 5, five_x, five_y, (uint32_t[]){0}, 1, PAIRS);
    show("five points, one pick", 5, five);
    show_by_age(five.left);
    show_tree(0, 5, tree);
    show_query("  worst edge", 5, five_x, five_y, ring, TREE, worst(5));
    static const int32_t eight_x[N] = {0, 4, 2, 5, 1, 3, 2, 5}, eight_y[N] = {3, 1, 3, 1, 1, 3, 0, 3};
    stop_and_go_on(8, eight_x, eight_y, (uint32_t[]){0, 1, 2, 3, 4, 5, 6, 7, 8, 9}, 10, 6);
    show("1000000 picks", 7, call(0, 7, row_x, row_y, many_picks, 1000000, PAIRS));
    show("1000001 picks", 7, call(0, 7, row_x, row_y, many_picks, 1000001, PAIRS));
    show("1000001 picks, too far", 7, call(0, 7, (int32_t[N]){1000000001}, row_y, many_picks, 1000001, PAIRS));
    show("1000001 picks, short buffers", 7, call(0, 7, row_x, row_y, many_picks, 1000001, 41));
    printf("past the ring: %u, past the tree: %d\n", ring[N], (int)tree[TREE]);

    show_fault("ring", 4, (uint16_t[]){0, 2, 1, 3});
    show_fault("ring, a point named again", 4, (uint16_t[]){0, 2, 2, 3});
    show_fault("ring, no point's number", 4, (uint16_t[]){0, 4, 1, 3});
    show_fault("ring, too many points", 257, (uint16_t[]){0, 2, 1, 3});
    show_fault("ring, short buffer", 5, (uint16_t[]){0, 2, 1, 3});

    static const int32_t wide[N] = {0, 3, 3, 0}, too_wide[N] = {0, 3, 3, 1000000001}, tall[N] = {0, 0, 4, 4};
    show_feed("feed around", 4, wide, 4, (uint16_t[]){0, 1, 2, 3});
    show_feed("feed across", 4, wide, 4, (uint16_t[]){0, 2, 1, 3});
    show_feed("feed, too many points", 257, wide, 4, (uint16_t[]){0, 1, 2, 3});
    show_feed("feed, short buffer", 4, wide, 3, (uint16_t[]){0, 1, 2, 3});
    show_feed("feed, too far", 4, too_wide, 4, (uint16_t[]){0, 1, 2, 3});
    show_feed("feed, no ring", 4, wide, 4, (uint16_t[]){0, 2, 2, 3});

    static const uint16_t around[N] = {0, 1, 2, 3}, across[N] = {0, 2, 1, 3}, twice[N] = {0, 2, 2, 3};
    show_query("query around", 4, wide, tall, around, TREE, 0);
    show_query("query across", 4, wide, tall, across, TREE, 0);
    show_query("query, too many points", 257, wide, tall, across, TREE, 0);
    show_query("query, short tree", 4, wide, tall, across, 27, 0);
    show_query("query, no such position", 4, wide, tall, across, TREE, 4);
    show_query("query, too far", 4, too_wide, tall, across, TREE, 0);
    show_query("query, no ring", 4, wide, tall, twice, TREE, 0);
    show_query("query, equal points", 4, tall, tall, across, TREE, 0);
    show_query("query, two points", 2, wide, tall, around, TREE, 0);
    show_query("query, one line", 4, row_x, row_x, across, TREE, 0);

    static const uint16_t back[N] = {3, 2, 1, 0};
    show_check("drawn around", 4, wide, tall, N, around);
    show_check("drawn clockwise", 4, wide, tall, N, back);
    show_check("drawn across", 4, wide, tall, N, across);
    show_check("drawn with a fold", 4, (int32_t[N]){0, 4, 2, 2}, (int32_t[N]){0, 0, 0, 3}, N, around);
    show_check("drawn, too many points", 257, wide, tall, N, around);
    show_check("drawn, short buffer", 4, wide, tall, 3, around);
    show_check("drawn, too far", 4, too_wide, tall, N, around);
    show_check("drawn, no ring", 4, wide, tall, N, twice);
    show_check("drawn, equal points", 4, tall, tall, N, around);
    show_check("drawn, two points", 2, wide, tall, N, around);
    show_check("drawn, one line", 4, row_x, row_x, N, around);

    show_contact("a touch", (const int32_t[]){0, 0, 4, 0, 2, 0, 2, 3});
    show_contact("a fold", (const int32_t[]){0, 0, 4, 0, 4, 0, 2, 0});
    show_contact("one after the other", (const int32_t[]){0, 0, 2, 0, 2, 0, 4, 0});
    show_contact("no segment", (const int32_t[]){0, 0, 0, 0, 1, 0, 2, 0});
    printf("meets: %u %u %u %u\n", (unsigned)tour_meets(0, 0, 4, 0, 2, 0, 2, 3), (unsigned)tour_meets(0, 0, 4, 0, 4, 0, 2, 0),
        (unsigned)tour_meets(0, 0, 2, 0, 2, 0, 4, 0), (unsigned)tour_meets(0, 0, 0, 0, 1, 0, 2, 0));
    for (uint32_t code = 0; code < 256; code++)
        if (*tour_words(code)) printf("refusal %u: %s\n", (unsigned)code, tour_words(code));
    return 0;
}
