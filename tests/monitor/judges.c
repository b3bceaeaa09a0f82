/*
 * The routines of verdicts.c judged twice: by the library, and by the second verdict, bench/peer.c.
 * Prints a line for each difference and last the count; the exit status tells.
 */
#include "jugrond.h"
#include "peer.h"
#include "verdicts.h"

#include <stdio.h>
#include <stdlib.h>

int main(void)
{
    struct tally ours = judge_routines(jugrond_verdict, "the library");
    struct tally peers = judge_routines(peer_verdict, "the peer");

    printf("%d passed, %d failed\n", ours.passed + peers.passed, ours.failed + peers.failed);
    return ours.failed + peers.failed == 0 ? EXIT_SUCCESS : EXIT_FAILURE;
}
