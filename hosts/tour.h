/* The proved two-opt polygonization for C hosts: link libhost.a (scripts/hosts.sh builds it).
 *
 * A slice is a pointer and a length in elements; where the length is 0 the pointer may be NULL. What the functions cannot
 * see, and the host answers for: a pointer is good for its length and aligned, and no buffer that a call writes shares memory with another
 * buffer of the same call. Everything else is checked before anything is written, in the order 1, 2, 19, 3 to 7 (a job: 9 to 13, then 2; a drawn
 * ring: 1 to 6, 14, 15; a run that is saved: 1 to 7, 21; an image: 20, 1, 2, 19, 3 to 7, 21). tour_words says them in short:
 *
 *    1  more than 256 points
 *    2  a buffer shorter than the call needs, an edge's position that is n or more, or more than n * (n - 1) records to be saved
 *    3  a coordinate outside -1000000000 .. 1000000000, or a bare segment with equal ends
 *    4  a lent ring that does not name each point once (tour_ring_fault tells which entry is wrong)
 *    5  two equal points          6  fewer than three points          7  every vertex on one line with its neighbours
 *    8  the picks are used up and records are left: ring and work buffers hold the state
 *    9  a job shorter than 20 or longer than 16384 bytes              10  a total word that is not that length
 *   11  a job of more than 48 points                                  12  an area outside the job
 *   13  a byte that belongs to both areas of a job                       19  more than 1000000 picks
 *   14  the least point of a drawn ring, in the order of x, then y, does not turn counter-clockwise
 *   15  two edges of a drawn ring meet
 *   20  an image shorter than 28 bytes, a total word that is not its length, a record width that is neither 8 nor 12, or an area that starts before
 *       byte 28 or ends past the total
 *   21  records that do not name exactly the pairs of edges of the ring that meet, each once or twice, the smaller edge first; ages of an image that are
 *       not 0 up to their count less one; to be saved, two equal ages or a slot that is n * (n - 1) or more
 *
 * Every refusal but 8 leaves all buffers of the call as they were. No function keeps a pointer, allocates or fails otherwise;
 * calls in different threads do not touch each other. tour_save and tour_take_up have a table of 261120 bytes on the stack and so take about 270000 of it,
 * any other call less than 5000.
 */
#ifndef TOUR_H
#define TOUR_H
#include <stddef.h>
#include <stdint.h>

/* code 0: a loop is delivered; moves made and cross, the pairs of edges that met at the start.
 * code 8: moves made and left, the records left. Any other code: a refusal. What a code does not name is 0. */
typedef struct {
    uint32_t code;
    size_t moves, cross, left;
} tour_answer;

/* A refusal in words, for people; "" for a number that is none. */
static inline const char *tour_words(uint32_t code) {
    switch (code) {
    case 1: return "more than 256 points";
    case 2: return "a lent buffer has too few entries";
    case 3: return "a coordinate is beyond the limits, or a segment has no length";
    case 4: return "the ring does not name each point once";
    case 5: return "two points are equal";
    case 6: return "fewer than three points";
    case 7: return "all points lie on one line";
    case 8: return "the picks are used up, and edges still meet";
    case 9: return "the job has fewer than 20 bytes or more than 16384";
    case 10: return "the total in the job's header is not its length";
    case 11: return "the job has more than 48 points";
    case 12: return "an area of the job is not within it";
    case 13: return "the areas of the job share bytes";
    case 14: return "the least point does not turn counter-clockwise";
    case 15: return "two edges meet";
    case 19: return "more than 1000000 picks";
    case 20: return "the image has a wrong length, record width or area";
    case 21: return "the records or their ages are not those of the ring";
    default: return "";
    }
}

/* The entries of n points. They need
 *    x, y, ring, index           n elements each
 *    heads .. tangles (eight)    n * (n - 1) elements each, none for n = 0
 *    tree                        4 * (2 * n - 1) elements, none for n = 0
 * and never touch an element past those. picks has at most 1000000 elements. Work buffers may hold anything at first; ring too, but in
 * tour_resolve_self_intersections, which starts from it. x, y and picks are only read.
 * Code 0: ring[0 .. n-1] is the loop, counter-clockwise, and index is its inverse. tangles is 0 at each of its n * (n - 1) places.
 * Code 8: ring and index are those after the last move, and the records left are these. The slots dense[0 .. left-1] are live. A record is two
 * words at its slot, each of four 16-bit parts, the lowest first:
 *    ends[s]     min0, max0, min1, max1    the points of its two edges, the smaller edge first, of an edge the smaller point
 *    links[s]    next0, prev0, next1, prev1    along the list of its first edge, and of its second: the slot of the next older record and of the next newer
 *                one that names that edge, TOUR_NONE for none
 * ages[s] is the record's age: the count of records made before it in the run, those since removed too. No two records left share one, and
 * along each edge's list ages fall.
 * heads[b + n * a] is the slot of the newest record that names the edge of a and b, a < b; TOUR_NONE for none. tangles[b + n * a] is how many records left
 * name it, and 0 at the places of no edge; over the edges of the ring these come to 2 * left.
 * reverse[s] is where a live slot stands in dense. Entries of other slots mean nothing.
 * Code 0 and 8: tree holds 2 * n - 1 boxes over the positions of the ring that is left, each of four numbers: least x, least y, greatest x,
 * greatest y. The box of position i is that of the edge from ring[i] to the next point of the ring. The first box covers all positions. A box of
 * more than one position is the union of its two halves, the first half having the rounded-down share. A box stands before its whole first half, and
 * that before the second: the halves of a box of k positions stand 4 and 8 * (k / 2) elements behind it. */
#define TOUR_NONE 65535
#define TOUR_PART(word, k) ((uint16_t)((word) >> 16 * (k)))
#define TOUR_MIN0(ends) TOUR_PART(ends, 0)
#define TOUR_MAX0(ends) TOUR_PART(ends, 1)
#define TOUR_MIN1(ends) TOUR_PART(ends, 2)
#define TOUR_MAX1(ends) TOUR_PART(ends, 3)
#define TOUR_NEXT0(links) TOUR_PART(links, 0)
#define TOUR_PREV0(links) TOUR_PART(links, 1)
#define TOUR_NEXT1(links) TOUR_PART(links, 2)
#define TOUR_PREV1(links) TOUR_PART(links, 3)

#define TOUR_LENT \
    uint16_t *ring, size_t ring_len, uint16_t *index, size_t index_len, uint16_t *heads, size_t heads_len, \
    uint64_t *ends, size_t ends_len, uint64_t *links, size_t links_len, uint32_t *ages, size_t ages_len, \
    uint16_t *dense, size_t dense_len, uint16_t *reverse, size_t reverse_len, uint16_t *release, size_t release_len, \
    uint16_t *tangles, size_t tangles_len, int32_t *tree, size_t tree_len
#define TOUR_WORK \
    size_t n, const int32_t *x, size_t x_len, const int32_t *y, size_t y_len, const uint32_t *picks, size_t picks_len, TOUR_LENT

/* A loop through the points, starting in their own order 0, 1, 2, .. */
tour_answer tour_two_opt_moves(TOUR_WORK);

/* A loop through the points, starting from the lent ring. */
tour_answer tour_resolve_self_intersections(TOUR_WORK);

/* A stopped run as a file, its image, little-endian throughout. First come seven 32-bit words: how many points it has and the byte where their area
 * starts, the byte where the ring's starts, how many records it has and the byte where theirs starts, the bytes that a record takes, 8 or 12, and the
 * bytes of the whole. A point is two signed 32-bit words, x and y; a ring entry, for each position, a 16-bit point number. A record is min0, max0, min1,
 * max1, of 16 bits each, and where it takes 12 bytes a 32-bit age; records stand in dense order. So long is one that tour_save writes, 785948 bytes at most: */
#define TOUR_IMAGE_LENGTH(n, records) (28 + 10 * (size_t)(n) + 12 * (size_t)(records))

/* code 0: the length of the image. Any other code: a refusal (1 to 7, or 21), and length is 0. */
typedef struct {
    uint32_t code;
    size_t length;
} tour_saved;

/* The image of a stopped run, to out[0 .. length-1]: of the n points, and of ring, dense, ends and ages as the run left them, left being the number of
 * records that it told. The ages need only differ: in the image they are numbered from 0, in the same order. x, y and ring need n elements each, dense, ends
 * and ages n * (n - 1), out TOUR_IMAGE_LENGTH(n, left); all but out are only read. */
tour_saved tour_save(size_t n, const int32_t *x, size_t x_len, const int32_t *y, size_t y_len, const uint16_t *ring, size_t ring_len,
    size_t left, const uint16_t *dense, size_t dense_len, const uint64_t *ends, size_t ends_len, const uint32_t *ages, size_t ages_len,
    uint8_t *out, size_t out_len);

/* Goes on with the picks from an image. It needs what the entries need for n points, n being the image's first word; x and y are written too, and all may
 * hold anything at first. Code 0 and 8: x[0 .. n-1] and y[0 .. n-1] are the image's points, and all else is as an entry leaves it; moves are counted from 0,
 * and cross is how many records the image has. A record of the image has its dense place as its slot, and without an age of its own as its age too; the next
 * one's age is how many they are. From an image that tour_save wrote, with at most 1000000 picks in all, a run picks, moves and ends as the one that was not
 * stopped, ages and slots aside. */
tour_answer tour_take_up(const uint8_t *image, size_t image_len, const uint32_t *picks, size_t picks_len,
    int32_t *x, size_t x_len, int32_t *y, size_t y_len, TOUR_LENT);

/* code 0: the ring names each point once. code 4: position is that of its first entry that is n or more or repeats an earlier one.
 * Any other code: a refusal (1 or 2). What a code does not name is 0. */
typedef struct {
    uint32_t code;
    size_t position;
} tour_fault;

/* Where ring[0 .. n-1] is wrong, as check 4 reads it. ring needs n elements and is only read. */
tour_fault tour_ring_fault(size_t n, const uint16_t *ring, size_t ring_len);

/* code 0: the feed, in steps. Any other code: a refusal (1 to 4), and feed is 0. */
typedef struct {
    uint32_t code;
    uint64_t feed;
} tour_fed;

/* The feed of the loop that ring[0 .. n-1] names, delivered or not: the sum over its edges of the greatest whole f with f * f at most
 * dx * dx + dy * dy. x, y and ring need n elements each and are only read. No loop has a feed of 2^40 or more. */
tour_fed tour_feed(size_t n, const int32_t *x, size_t x_len, const int32_t *y, size_t y_len, const uint16_t *ring, size_t ring_len);

/* code 0: count edges meet the one asked for, and tested edges were compared with it. Any other code: a refusal (1 to 7). What a code does not
 * name is 0. */
typedef struct {
    uint32_t code;
    size_t count, tested;
} tour_queried;

/* Which edges of the ring meet the edge that starts at a position, elsewhere than in an end of both: found[0 .. count-1] are the positions where
 * they start, in ascending order, the edge itself left out. Compared with it are exactly the other edges whose box shares a place with its box.
 * x, y, ring and found need n elements each, tree 4 * (2 * n - 1); x, y and ring are only read. The tree is built anew in the call: it may hold
 * anything at first, and is that of the ring afterwards. Of found only the first count elements are written. */
tour_queried tour_query(size_t n, const int32_t *x, size_t x_len, const int32_t *y, size_t y_len, const uint16_t *ring, size_t ring_len,
    int32_t *tree, size_t tree_len, size_t position, uint16_t *found, size_t found_len);

/* code 0: the ring passes. code 15: the edges that start at the positions first and second meet, first < second. Any other code: a refusal (1 to 6, or
 * 14). What a code does not name is 0. */
typedef struct {
    uint32_t code;
    size_t first, second;
} tour_checked;

/* Whether the loop that ring[0 .. n-1] names may go to ink: whether a run from it with no picks would deliver it as it is. Its least point has to turn
 * counter-clockwise, and no two edges may meet elsewhere than in an end of both. Told are the first two that do: of all edges that meet one behind them the
 * first in ring order, and of those behind it that meet it the first. x, y and ring need n elements each and are only read. */
tour_checked tour_validate(size_t n, const int32_t *x, size_t x_len, const int32_t *y, size_t y_len, const uint16_t *ring, size_t ring_len);

/* How two segments meet elsewhere than in an end of both. */
enum { TOUR_APART, TOUR_CROSSING, TOUR_OVERLAP };

/* An end of an overlap; is_open is 1 where it is an end of both segments, else 0. */
typedef struct {
    int32_t x, y;
    uint32_t is_open;
} tour_end;

/* code 0: kind is TOUR_APART where they do not, TOUR_CROSSING where they meet in one place, or TOUR_OVERLAP where they meet along a part,
 * which goes from start to stop, in the order of x, then y. code 3: refused. What a code or a kind does not name is 0. */
typedef struct {
    uint32_t code, kind;
    tour_end start, stop;
} tour_kind;

/* How the segments a1 a2 and b1 b2 meet. */
tour_kind tour_contact(int32_t a1x, int32_t a1y, int32_t a2x, int32_t a2y, int32_t b1x, int32_t b1y, int32_t b2x, int32_t b2y);

/* 1: the segments a1 a2 and b1 b2 meet, their kind is not TOUR_APART; 0: they do not; 3: refused. */
uint32_t tour_meets(int32_t a1x, int32_t a1y, int32_t a2x, int32_t a2y, int32_t b1x, int32_t b1y, int32_t b2x, int32_t b2y);

/* code 0: points and picks that were read. Any other code: a refusal (9 to 13, then 2). */
typedef struct {
    uint32_t code;
    size_t points, picks;
} tour_job;

/* Reads a job file: the points, in steps, to the start of x and y, the picks to the start of picks. A step is ten micrometres; an exact
 * half goes away from zero: 5 gives 1, -5 gives -1. x and y need as many elements as the job has points (48 are always enough), picks as
 * many as it has picks (4091 are always enough). */
tour_job tour_read_job(const uint8_t *job, size_t job_len, int32_t *x, size_t x_len, int32_t *y, size_t y_len,
    uint32_t *picks, size_t picks_len);

#endif
