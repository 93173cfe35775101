// One moment of the clock at the servers, as the section of that name in document 01 says it, step by step. It follows that document and uses
// nothing of the Rattle code.
//
// report.c and bench/ticks.c take every step from here. events.c goes through many moments at once: it takes waking and the refill alone, and has
// its own ways to pick and to serve.

#pragma once

#include "plain.h"

#define NOBODY MOST_SERVERS // no server has this number
#define FAR_AWAY (~0ull)    // later than every deadline

// The servers. Products of these numbers are compared and deadlines pass 32 bits, so all are kept in 64.
static u64 server_count;
static u64 budget[MOST_SERVERS], period[MOST_SERVERS];
static u64 remaining[MOST_SERVERS]; // of the budget: c of the document
static u64 deadline[MOST_SERVERS];
static u64 waiting[MOST_SERVERS];

// An idle server gets work. The difference is taken only where the deadline is still ahead.
static inline void wake(u32 s, u64 now)
{
    if (deadline[s] <= now || remaining[s] * period[s] >= (deadline[s] - now) * budget[s]) {
        deadline[s] = now + period[s];
        remaining[s] = budget[s];
    }
}

// Step 1, for one arrival.
static inline void bring_work(u32 s, u64 work, u64 now)
{
    if (waiting[s] == 0)
        wake(s, now);
    waiting[s] += work;
}

// Step 2. Going up through the numbers, only an earlier deadline displaces a server, so equal ones go to the lower number.
// The counter is as wide as its limit: the compiler makes a faster loop of it then.
static inline u32 pick(void)
{
    u32 picked = NOBODY;
    u64 earliest = FAR_AWAY;
    for (u64 s = 0; s < server_count; s++)
        if (waiting[s] > 0 && deadline[s] < earliest) {
            earliest = deadline[s];
            picked = (u32)s;
        }
    return picked;
}

// The budget is spent: it is refilled at once, even where no work is left.
static inline void postpone(u32 s)
{
    remaining[s] = budget[s];
    deadline[s] += period[s];
}

// Step 3. Answers whether the server was postponed.
static inline int serve(u32 s)
{
    waiting[s]--;
    remaining[s]--;
    if (remaining[s] > 0)
        return 0;
    postpone(s);
    return 1;
}
