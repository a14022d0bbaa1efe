// The planner's peer in Gecode; peer.h says what it does.
#include "peer.h"

#include <gecode/int.hh>

#include <chrono>

using namespace Gecode;

namespace {

// The greatest number that a variable of Gecode has.
const long long GREATEST = Int::Limits::max;

// A job: a variable for each unit.
class Job : public Space {
  public:
    IntVarArray shares;

    Job(const uint64_t *lows, const uint64_t *highs, size_t units) : shares(*this, units) {
        for (size_t unit = 0; unit < units; unit++) {
            shares[unit] = IntVar(*this, static_cast<int>(lows[unit]), static_cast<int>(highs[unit]));
        }
    }
    Job(Job &other) : Space(other) { shares.update(*this, other.shares); }
    Space *copy() override { return new Job(*this); }
};

// factor * x - less, as a variable.
IntVar scaled(Space &home, IntVar x, long long factor, long long less) {
    IntVar y(home, static_cast<int>(factor * x.min() - less), static_cast<int>(factor * x.max() - less));
    const IntArgs factors({static_cast<int>(factor), -1});
    linear(home, factors, IntVarArgs() << x << y, IRT_EQ, static_cast<int>(less), IPL_BND);
    return y;
}

// x - y, as a variable.
IntVar difference(Space &home, IntVar x, IntVar y) {
    IntVar z(home, x.min() - y.max(), x.max() - y.min());
    linear(home, IntArgs({1, -1, -1}), IntVarArgs() << x << y << z, IRT_EQ, 0, IPL_BND);
    return z;
}

// The greatest distance of a variable's values from 0.
int reach(IntVar x) { return std::max(std::abs(x.min()), std::abs(x.max())); }

// |x| as a variable.
IntVar distance(Space &home, IntVar x) {
    IntVar y(home, 0, reach(x));
    abs(home, x, y, IPL_BND);
    return y;
}

// x * x as a variable.
IntVar square(Space &home, IntVar x) {
    long long most = static_cast<long long>(reach(x)) * reach(x);
    Int::Limits::check(most, "square");
    IntVar y(home, 0, static_cast<int>(most));
    sqr(home, x, y, IPL_BND);
    return y;
}

// The sum of the terms, each times its factor, is at most a number, which may be too large for one constant of Gecode.
void at_most(Space &home, IntArgs factors, IntVarArgs terms, long long most) {
    const int part = 1 << 30;
    if (most > GREATEST) {
        factors << -part;
        terms << IntVar(home, static_cast<int>(most / part), static_cast<int>(most / part));
        most %= part;
    }
    linear(home, factors, terms, IRT_LQ, static_cast<int>(std::max(most, -1LL)), IPL_BND);
}

// The same for a plain sum.
void at_most(Space &home, const IntVarArgs &terms, long long most) {
    at_most(home, IntArgs::create(terms.size(), 1, 0), terms, most);
}

// One group of a job.
struct Group {
    long long total, deviation, spread, pairs;
    IntVarArgs shares;

    long long n() const { return shares.size(); }

    // The sum of |n * share - total| is at most the limit.
    void post_deviation(Space &home) const {
        IntVarArgs parts;
        for (int i = 0; i < n(); i++) {
            parts << distance(home, scaled(home, shares[i], n(), total));
        }
        at_most(home, parts, deviation);
    }

    // n * (sum of squares) - total * total is at most the limit.
    void post_spread(Space &home) const {
        IntVarArgs squares;
        for (int i = 0; i < n(); i++) {
            squares << square(home, shares[i]);
        }
        at_most(home, squares, (spread + total * total) / n());
    }

    // Both figures, with squares about the rounded mean. Since the shares add up to the total, the sum of squares about
    // a number c is the sum of squares - 2 * c * total + n * c * c. Where the mean is whole, both figures share terms.
    void post_centred(Space &home) const {
        const long long centre = (total + n() / 2) / n();
        const bool whole = centre * n() == total;
        IntVarArgs parts, squares;
        for (int i = 0; i < n(); i++) {
            IntVar share = scaled(home, shares[i], 1, centre);
            if (deviation >= 0) {
                parts << distance(home, whole ? share : scaled(home, shares[i], n(), total));
            }
            if (spread >= 0) {
                squares << square(home, share);
            }
        }
        if (deviation >= 0) {
            at_most(home, parts, whole ? deviation / n() : deviation);
        }
        if (spread >= 0) {
            at_most(home, squares, (spread + total * total) / n() - 2 * centre * total + n() * centre * centre);
        }
    }

    // The sum of |share - other| over all pairs is at most the limit: a difference for each pair, and its distance from 0.
    void post_pairs(Space &home) const {
        IntVarArgs parts;
        for (int i = 0; i < n(); i++) {
            append_distances(home, i, parts);
        }
        at_most(home, parts, pairs);
    }

    // Appends the distances of a share from those before it.
    void append_distances(Space &home, int i, IntVarArgs &parts) const {
        for (int j = 0; j < i; j++) {
            parts << distance(home, difference(home, shares[i], shares[j]));
        }
    }

    // The same from the shares in order: the k-th of n, from 0, is the larger one in k pairs and the smaller one in the others.
    void post_ordered(Space &home) const {
        int least = shares[0].min(), greatest = shares[0].max();
        for (int i = 1; i < n(); i++) {
            least = std::min(least, shares[i].min());
            greatest = std::max(greatest, shares[i].max());
        }
        const IntVarArgs ordered(home, n(), least, greatest);
        sorted(home, shares, ordered);
        at_most(home, IntArgs::create(n(), 1 - n(), 2), ordered, pairs);
    }

    // The figures of the first two limits as they are written.
    void post_written(Space &home) const {
        if (deviation >= 0) {
            post_deviation(home);
        }
        if (spread >= 0) {
            post_spread(home);
        }
    }

    void post(Space &home, int form) const {
        linear(home, shares, IRT_EQ, static_cast<int>(total), IPL_BND);
        if (form == PEER_WRITTEN) {
            post_written(home);
        } else {
            post_centred(home);
        }
        if (pairs < 0) {
            return;
        }
        if (form == PEER_CENTRED) {
            post_ordered(home);
        } else {
            post_pairs(home);
        }
    }
};

// Posts every group of the list.
void post_groups(Job &job, const int64_t *groups, size_t count, int form) {
    for (const int64_t *at = groups; at < groups + count;) {
        Group group{at[0], at[1], at[2], at[3], IntVarArgs(static_cast<int>(at[4]))};
        for (int i = 0; i < group.n(); i++) {
            group.shares[i] = job.shares[at[5 + i]];
        }
        group.post(job, form);
        at += 5 + group.n();
    }
}

// Propagates, and writes what is left.
peer_answer propagate(Job &job, uint64_t *lows, uint64_t *highs) {
    auto start = std::chrono::steady_clock::now();
    const bool refused = job.status() == SS_FAILED;
    std::chrono::duration<double, std::nano> spent = std::chrono::steady_clock::now() - start;
    peer_answer answer{PEER_REFUSED, 0, spent.count()};
    if (refused) {
        return answer;
    }
    answer.outcome = PEER_LEFT;
    for (int unit = 0; unit < job.shares.size(); unit++) {
        lows[unit] = job.shares[unit].min();
        highs[unit] = job.shares[unit].max();
        answer.values += job.shares[unit].size();
    }
    return answer;
}

} // namespace

peer_answer peer_propagate(
    const int64_t *groups, size_t groups_count,
    uint64_t *lows, uint64_t *highs, size_t units,
    int form) {
    try {
        Job job(lows, highs, units);
        post_groups(job, groups, groups_count, form);
        return propagate(job, lows, highs);
    } catch (const Int::OutOfLimits &) {
        return {PEER_BEYOND, 0, 0.0};
    }
}
