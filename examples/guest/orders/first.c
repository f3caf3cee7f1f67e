/* Adds up orders by region: a line `REGION ORDERS TOTAL LARGEST` for each of the four, and one with how many orders
   were taken and how many lines were refused. docs/GUESTS.md shows how `ithreads why` finds what is wrong with this
   version, which executes too much after an edit; mended.c is the result.

   The input is lines of 16 bytes. The first 256 are the price list, `NNN PPPPP` and spaces: an item and its price. All
   others are orders, `NNN xQQ REGION`: an item, a quantity, and north, south, east or west. For large quantities each
   one costs less.

   A block is one page of orders, or 256. Worker w takes the blocks w, w + 4, .., adds up in an array of its own, and
   adds after each block how many orders it took and how many lines it refused to common counters. At its end it adds
   its sums to the totals.

   reuse: fewer, since each step asks for the input's length. */
#include "ithreads.h"

enum { WORKERS = 4, REGIONS = 4, LINE = 16, LINES = IT_PAGE / LINE, ITEMS = LINES, MOST = 100 };
enum { NONE = 1000000 };     /* more than five digits can make */
enum { STATISTICS, TOTALS }; /* mutexes */

struct order {
    unsigned item, quantity, region;
};

struct region {
    unsigned orders, total, largest;
};

static const char names[REGIONS][8] = {"north", "south", "east", "west"};

static unsigned prices[ITEMS];  /* 0 if there is no such item */
static unsigned rates[MOST];    /* how many 64ths of the price are paid, by quantity */
static unsigned taken, refused; /* orders and other lines, of all blocks */
static struct region totals[REGIONS];
static char text[REGIONS * 48];

/* ---- lines of the input ---- */

/* the number that `count` digits make; NONE if one isn't a digit */
static unsigned number(const unsigned char *digits, unsigned count)
{
    unsigned value = 0;
    for (unsigned k = 0; k < count; k++) {
        unsigned digit = digits[k] - '0';
        if (digit > 9)
            return NONE;
        value = value * 10 + digit;
    }
    return value;
}

/* the region of this name, which must be followed by a space; REGIONS if there is none */
static unsigned region_of(const unsigned char *name)
{
    for (unsigned region = 0; region < REGIONS; region++) {
        unsigned k = 0;
        while (names[region][k] && name[k] == (unsigned char)names[region][k])
            k++;
        if (!names[region][k] && name[k] == ' ')
            return region;
    }
    return REGIONS;
}

/* whether a line is an order of an item that is sold; stores the order in *order */
static int is_order(const unsigned char *line, struct order *order)
{
    order->item = number(line, 3);
    order->quantity = number(line + 5, 2);
    order->region = region_of(line + 8);
    return line[3] == ' ' && line[4] == 'x' && line[7] == ' ' && order->item < ITEMS && prices[order->item] != 0 &&
           order->quantity > 0 && order->quantity < MOST && order->region < REGIONS;
}

/* ---- tables ---- */

static void read_prices(void)
{
    for (unsigned k = 0; k < ITEMS; k++) {
        const unsigned char *line = it_input() + k * LINE;
        unsigned item = number(line, 3), price = number(line + 4, 5);
        if (item < ITEMS && price < NONE)
            prices[item] = price;
    }
}

static void make_rates(void)
{
    for (unsigned quantity = 0; quantity < MOST; quantity++)
        rates[quantity] = quantity < 10 ? 64 : quantity < 50 ? 61 : 58;
}

static unsigned cost(const struct order *order)
{
    return order->quantity * prices[order->item] * rates[order->quantity] / 64;
}

/* ---- counting ---- */

static void add(struct region *region, unsigned money)
{
    region->orders++;
    region->total += money;
    if (money > region->largest)
        region->largest = money;
}

static void add_up(const struct region *sums)
{
    for (unsigned region = 0; region < REGIONS; region++) {
        totals[region].orders += sums[region].orders;
        totals[region].total += sums[region].total;
        if (sums[region].largest > totals[region].largest)
            totals[region].largest = sums[region].largest;
    }
}

/* whether there was something to count */
static int count(unsigned block, struct region *sums)
{
    unsigned first = (block + 1) * IT_PAGE, length = it_input_length(), good = 0, bad = 0;
    for (unsigned at = first; at < first + IT_PAGE && at < length; at += LINE) {
        struct order order;
        if (is_order(it_input() + at, &order)) {
            add(&sums[order.region], cost(&order));
            good++;
        } else {
            bad++;
        }
    }
    it_mutex_lock(STATISTICS);
    taken += good;
    refused += bad;
    it_mutex_unlock(STATISTICS);
    return good + bad != 0;
}

static unsigned work(unsigned worker)
{
    struct region sums[REGIONS] = {{0}};
    for (unsigned block = worker; count(block, sums); block += WORKERS)
        ;
    it_mutex_lock(TOTALS);
    add_up(sums);
    it_mutex_unlock(TOTALS);
    return 0;
}

/* ---- output ---- */

static char *put_number(char *end, char before, unsigned value)
{
    *end++ = before;
    return it_decimal(end, value);
}

static IT_NOINLINE unsigned write_text(void)
{
    char *end = text;
    for (unsigned region = 0; region < REGIONS; region++) {
        end = it_text(end, names[region]);
        end = put_number(end, ' ', totals[region].orders);
        end = put_number(end, ' ', totals[region].total);
        end = put_number(end, ' ', totals[region].largest);
        *end++ = '\n';
    }
    end = put_number(it_text(end, "taken"), ' ', taken);
    end = put_number(it_text(end, " refused"), ' ', refused);
    *end++ = '\n';
    return (unsigned)(end - text);
}

int main(void)
{
    read_prices();
    make_rates();
    for (unsigned worker = 0; worker < WORKERS; worker++)
        it_thread_create(work, worker);
    for (unsigned worker = 0; worker < WORKERS; worker++)
        it_thread_join(worker + 1, 0);
    it_put(text, write_text());
    return 0;
}
