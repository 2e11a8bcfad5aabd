/* Tests bench/embedding/pauses.h on random pauses: the least share of a window that is left to the program, and how the measurements of two runs are
 * merged, both compared with a direct computation. Times are whole microseconds. */
#define PAUSES
#include "../../bench/embedding/pauses.h"
#include "expect.h"
#include <string.h>

enum { MOST = 12, UNIT = 1000, LONGEST = 40, LINE = 4 * MOST * LONGEST };

static struct pause others[MOST], first[MOST];
/* Each microsecond of a run, with a part before it: 1 if it belongs to a pause. */
static unsigned char line[LINE];
static unsigned state = 1;

static unsigned below(unsigned end)
{
    state = state * 1103515245u + 12345u;
    return (state >> 8) % end;
}

/* Makes pauses of some of the calls 0 to 11. Returns how many. */
static size_t make_pauses(struct pause *row)
{
    size_t count = 0;
    for (unsigned number = 0; number < MOST; number++)
        if (below(3) > 0)
            row[count++] = (struct pause){number, UNIT * (uint64_t)below(LONGEST), UNIT * (uint64_t)(1 + below(LONGEST))};
    return count;
}

static void use(const struct pause *row, size_t count)
{
    pause_count = 0;
    for (size_t k = 0; k < count; k++) {
        add_pause(0, 0); /* makes room */
        pauses[k] = row[k];
    }
}

static void utilisations(void)
{
    size_t at = LINE / 4, count = make_pauses(first);
    use(first, count);
    memset(line, 0, sizeof line);
    for (size_t k = 0; k < count; k++) {
        at += first[k].own / UNIT;
        memset(line + at, 1, first[k].took / UNIT);
        at += first[k].took / UNIT;
    }
    for (unsigned window = 1; window < LINE / 4; window += 1 + below(LONGEST)) {
        unsigned most = 0;
        for (size_t start = 0; start + window <= LINE; start++) {
            unsigned sum = 0;
            for (size_t k = start; k < start + window; k++)
                sum += line[k];
            most = sum > most ? sum : most;
        }
        double wanted = 1 - (double)most / window, found = utilisation(UNIT * (uint64_t)window);
        EXPECT(found - wanted < 1e-9 && wanted - found < 1e-9);
    }
}

/* Returns the program's own time before pause k, since the pause before it that both runs have. */
static uint64_t own_before(const struct pause *row, size_t k, const struct pause *other, size_t count)
{
    uint64_t own = row[k].own;
    for (; k > 0; k--) {
        for (size_t j = 0; j < count; j++)
            if (other[j].number == row[k - 1].number)
                return own;
        own += row[k - 1].own;
    }
    return own;
}

static void merges(void)
{
    size_t count = make_pauses(first), other_count = make_pauses(others), kept = 0;
    use(first, count);
    merge(others, other_count);
    for (size_t k = 0; k < count; k++) {
        for (size_t j = 0; j < other_count; j++) {
            if (first[k].number != others[j].number)
                continue;
            uint64_t own = own_before(first, k, others, other_count), other = own_before(others, j, first, count);
            EXPECT(kept < pause_count && pauses[kept].number == first[k].number);
            EXPECT(pauses[kept].own == (own < other ? own : other));
            EXPECT(pauses[kept].took == (first[k].took < others[j].took ? first[k].took : others[j].took));
            kept++;
        }
    }
    EXPECT(kept == pause_count);
}

int main(void)
{
    for (int turn = 0; turn < 300; turn++)
        utilisations();
    for (int turn = 0; turn < 10000; turn++)
        merges();
    free(pauses);
    return 0;
}
