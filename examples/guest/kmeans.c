/* Four clusters of points, by k-means in fixed point. A point is two bytes of the input, x and y; the first 16,384 points count, and points after
   the input's end are (0, 0). Centres are in quarters. They start at (64, 64), (192, 64), (64, 192), (192, 192), and move four times: each point
   goes to the nearest centre, the first of equally near ones; then each centre that has points moves to their mean, rounded down to quarters. A
   line for each centre, `X Y POINTS`, has its final position, with two decimals, and how many points it had in the last move.

   A block is one page of the input, 2,048 points. Each of four workers adds up the points of two blocks for each centre, and meets the main thread
   at a barrier; the main thread moves the centres, and all meet again.

   Each block of a move depends, by the centres, on every point of the move before: once a centre moves to another quarter, all blocks of the later
   moves are executed again. An edit of a page does that, and saves little more than the first move's other blocks. What keeps a smaller edit small:
   - centres are rounded to quarters. One point seldom moves the mean of some thousand points to another quarter; if it doesn't, the page of the
     centres has the same bytes as before, and only the edited block of each move is executed again. So the coarser the numbers that are passed on,
     the more is reused.
   - each block's sums, for each move, have a page of their own, zero at first, and aren't on the stack. They would stay there, and the worker's
     next step, which loads its saved registers from the same page, would see the difference: the edited block and the worker's next one would be
     executed again in each move.
   - squares are looked up in a table, since the machine has no multiplication; no thread stores to it after the main thread's first step. */
#include "ithreads.h"

enum { WORKERS = 4, CENTRES = 4, MOVES = 4, POINTS = 16384, BLOCK = IT_PAGE / 2, BLOCKS = POINTS / BLOCK, ONE = 4, FAR = 256 * ONE, MEETING = 0 };

struct IT_PAGE_ALIGNED centres {
    unsigned x[CENTRES], y[CENTRES];
};

struct IT_PAGE_ALIGNED sums {
    struct sum {
        unsigned x, y, points;
    } of[CENTRES];
};

static unsigned squares[2 * FAR] IT_PAGE_ALIGNED; /* the square of d at FAR + d */
static struct centres centres[MOVES + 1];
static struct sums sums[MOVES][BLOCKS];
static char lines[CENTRES * 32] IT_PAGE_ALIGNED;

static IT_NOINLINE void begin(void)
{
    for (unsigned d = 0, square = 0; d < FAR; square += 2 * d + 1, d++)
        squares[FAR + d] = squares[FAR - d] = square;
    for (unsigned c = 0; c < CENTRES; c++) {
        centres[0].x[c] = (c & 1 ? 192 : 64) * ONE;
        centres[0].y[c] = (c & 2 ? 192 : 64) * ONE;
    }
}

static IT_NOINLINE void add_points(unsigned move, unsigned b)
{
    const unsigned char *point = it_input() + b * IT_PAGE, *end = point + IT_PAGE;
    const unsigned *from_x[CENTRES], *from_y[CENTRES];
    for (unsigned c = 0; c < CENTRES; c++) {
        from_x[c] = &squares[FAR - centres[move].x[c]];
        from_y[c] = &squares[FAR - centres[move].y[c]];
    }
    for (; point < end; point += 2) {
        unsigned x = point[0], y = point[1], nearest = 0, least = ~0u;
#pragma clang loop unroll(full)
        for (unsigned c = 0; c < CENTRES; c++) {
            unsigned distance = from_x[c][x * ONE] + from_y[c][y * ONE];
            nearest = distance < least ? c : nearest;
            least = distance < least ? distance : least;
        }
        struct sum *sum = &sums[move][b].of[nearest];
        sum->x += x;
        sum->y += y;
        sum->points++;
    }
}

static unsigned work(unsigned worker)
{
    for (unsigned move = 0; move < MOVES; move++) {
        for (unsigned b = worker; b < BLOCKS; b += WORKERS) {
            add_points(move, b);
            it_yield();
        }
        it_barrier_wait(MEETING);
        it_barrier_wait(MEETING);
    }
    return 0;
}

/* moves the centre, and returns how many points it has */
static IT_NOINLINE unsigned move_centre(unsigned move, unsigned c)
{
    unsigned x = 0, y = 0, points = 0;
    for (unsigned b = 0; b < BLOCKS; b++) {
        x += sums[move][b].of[c].x;
        y += sums[move][b].of[c].y;
        points += sums[move][b].of[c].points;
    }
    centres[move + 1].x[c] = points ? x * ONE / points : centres[move].x[c];
    centres[move + 1].y[c] = points ? y * ONE / points : centres[move].y[c];
    return points;
}

static IT_NOINLINE void move_centres(unsigned move)
{
    for (unsigned c = 0; c < CENTRES; c++)
        move_centre(move, c);
}

static char *write_quarters(char *to, unsigned quarters)
{
    static const char parts[4][4] = { ".00", ".25", ".50", ".75" };
    return it_text(it_decimal(to, quarters / ONE), parts[quarters % ONE]);
}

static IT_NOINLINE unsigned write_lines(void)
{
    char *end = lines;
    for (unsigned c = 0; c < CENTRES; c++) {
        end = write_quarters(end, centres[MOVES].x[c]);
        *end++ = ' ';
        end = write_quarters(end, centres[MOVES].y[c]);
        *end++ = ' ';
        end = it_decimal(end, move_centre(MOVES - 1, c));
        *end++ = '\n';
    }
    return (unsigned)(end - lines);
}

int main(void)
{
    begin();
    it_barrier_init(MEETING, WORKERS + 1);
    for (unsigned w = 0; w < WORKERS; w++)
        it_thread_create(work, w);
    for (unsigned move = 0; move < MOVES; move++) {
        it_barrier_wait(MEETING);
        move_centres(move);
        it_barrier_wait(MEETING);
    }
    for (unsigned w = 0; w < WORKERS; w++)
        it_thread_join(w + 1, 0);
    it_put(lines, write_lines());
    return 0;
}
