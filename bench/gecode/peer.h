/*
 * The planner's peer in Gecode: the groups of a job posted from linear and arithmetic constraints with bounds
 * propagation, and propagated at the root, without search.
 */
#ifndef PEER_H
#define PEER_H

#include <stddef.h>
#include <stdint.h>

#ifdef __cplusplus
extern "C" {
#endif

/* How a propagation ends. */
enum { PEER_LEFT = 0, PEER_REFUSED = 1, PEER_BEYOND = 2 };

/*
 * The form in which the figures are posted: as they are written; or squares about the mean and pairs from the shares in
 * order, which prunes more; or squares about the mean and pairs as they are written.
 */
enum { PEER_WRITTEN = 0, PEER_CENTRED = 1, PEER_BY_PAIR = 2 };

/* How it ended, how many values are left in all, and the nanoseconds of the propagation alone. */
typedef struct {
    uint64_t outcome;
    uint64_t values;
    double nanoseconds;
} peer_answer;

/*
 * Posts and propagates. The groups are one list of numbers, for each group: total, deviation limit, spread limit,
 * pairs limit (a limit below 0 is none), the count of its members, and the members, units counted from 0.
 * PEER_LEFT writes the ends of what is left to lows and highs; PEER_REFUSED and PEER_BEYOND (a number that is too
 * large for Gecode) leave them.
 */
peer_answer peer_propagate(
    const int64_t *groups, size_t groups_count,
    uint64_t *lows, uint64_t *highs, size_t units,
    int form);

#ifdef __cplusplus
}
#endif

#endif
