/* ewd840 [SEED]: ranks that work (work.h), and find out that all is done by Dijkstra's EWD 840.
 *
 * Rank 0 sends a white token to the last rank, and each passive rank passes it to the rank below. A rank that handed a
 * unit to a rank above itself, where the token was already, is black, and makes the token black that it passes. If a
 * white token comes back to rank 0, and that is white and passive, all is done. That is proved of messages that are
 * received in the moment in which they are sent. */
#include "work.h"

static int black;

static void note_handed_on(int to)
{
    if (to > rank)
        black = 1;
}

static void note_come(void)
{
}

static int is_done(void)
{
    return !held.black && !black;
}

static token next_token(void)
{
    token next = {.black = rank > 0 && (held.black || black)};
    black = 0;
    return next;
}

int main(int count, char **words)
{
    return run(count, words);
}
