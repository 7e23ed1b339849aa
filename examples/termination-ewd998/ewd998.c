/* ewd998 [SEED]: the same ranks, which find out that all is done by EWD 998, Safra's version for messages that take
 * time.
 *
 * The token carries a sum: each rank adds how many units it has handed on, less those that have come to it. A rank to
 * which a unit has come is black, and makes the token black that it passes. If a white token comes back to rank 0, that
 * is white and passive, and the sum is 0, all is done: no unit is on its way. */
#include "../termination-ewd840/work.h"

static int black;

static void note_handed_on(int to)
{
    (void)to;
}

static void note_come(void)
{
    black = 1;
}

static int is_done(void)
{
    return !held.black && !black && held.sum + sent - received == 0;
}

static token next_token(void)
{
    token next = {.black = rank > 0 && (held.black || black), .sum = rank > 0 ? held.sum + sent - received : 0};
    black = 0;
    return next;
}

int main(int count, char **words)
{
    return run(count, words);
}
