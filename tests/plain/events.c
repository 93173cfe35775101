// The day report of document 01, with W-201 of document 02, in plain C, from event to event: the second plain program that bench/run
// measures against.
//
// It prints what report.c prints, for every file; tests/differential holds it to that. day_report.h has all that is not the run
// itself. Here the clock goes from one event to the next: the server that has the node gets at once all the ticks up to the
// end of its budget, the end of its work, the next arrival or the horizon, one that is postponed and still comes first goes on budget
// by budget, and time in which nobody has work is one step.

#include "day_report.h"

// ---- Who comes first ----

// A server with waiting work has a key: the earlier deadline makes the smaller one, and so does the lower number where deadlines
// are equal.
#define NO_KEY (~0ull) // above every key: no work is waiting

// A tree of keys. Its leaves, from place `leaves` on, are those of the servers in their order. Every four places that stand
// together have the smallest of their keys above them, at a quarter of their number, and so place 1 has the smallest of all.
// With four the way up is half as long as with two, which was found faster, as were both than a sorted list of the keys where
// periods differ.
static u64 keys[2 * MOST_SERVERS];
static u64 leaves;

static u64 smaller(u64 a, u64 b)
{
    return a < b ? a : b;
}

static u64 key_under(u64 under, u64 s)
{
    return under * MOST_SERVERS + s;
}

static void clear_keys(void)
{
    for (leaves = 1; leaves < server_count;)
        leaves *= 4;
    for (u64 place = 0; place < 2 * leaves; place++)
        keys[place] = NO_KEY;
}

// The smallest of the three keys that stand together with one.
static u64 key_beside(u64 place)
{
    return smaller(smaller(keys[place ^ 1], keys[place ^ 2]), keys[place ^ 3]);
}

static void set_key(u64 s, u64 key)
{
    u64 place = leaves + s;
    keys[place] = key;
    while (place > 1) {
        key = smaller(key, key_beside(place));
        place /= 4;
        keys[place] = key;
    }
}

// The smallest key of the other servers.
static u64 key_of_others(u64 s)
{
    u64 key = NO_KEY;
    for (u64 place = leaves + s; place > 1; place /= 4)
        key = smaller(key, key_beside(place));
    return key;
}

static int someone_waits(void)
{
    return keys[1] != NO_KEY;
}

static u32 first_server(void)
{
    return keys[1] % MOST_SERVERS;
}

// ---- The run ----

static void take_arrivals_and_set_keys(u64 now)
{
    u32 first = taken;
    take_arrivals(now);
    for (u32 k = first; k < taken; k++)
        set_key(server_of[k], key_under(deadline[server_of[k]], server_of[k]));
}

// The server has had every tick from one moment to another: its jobs finish one after the other.
static void serve_jobs(u32 s, u64 from, u64 to)
{
    u32 job = first_job[s];
    waiting[s] -= to - from;
    while (from + left_of_job[job] <= to) {
        from += left_of_job[job];
        finish_job(job, from);
        if (waiting[s] == 0 && from == to)
            return; // the queue is empty: there is no next job
        first_job[s] = job = next_job[job];
    }
    left_of_job[job] -= to - from;
}

static void postpone_and_set_key(u32 s)
{
    postpone(s);
    postponed[s]++;
    set_key(s, key_under(deadline[s], s));
}

// A server that was postponed now comes first all the same. So it goes on, budget by budget, as long as its next deadline still
// comes first and the budget ends before `end`, where it stops in any case. Each budget is a segment, and the last of them is then the
// current one: the others end as the server carries on, which is no interruption.
static u64 spend_whole_budgets(u32 s, u64 now, u64 end)
{
    u64 q = budget[s], t = period[s], under = deadline[s], others = key_of_others(s), spent = 0;
    end_segment(s);
    for (; now + q < end && key_under(under, s) < others; now += q, under += t, spent++)
        if (segment_count + spent < MOST_SHOWN)
            trace[segment_count + spent] = (struct segment){now, q, s, under};
    if (spent > 0)
        current = (struct segment){now - q, q, s, under - t};
    segment_count += spent;
    postponed[s] += spent;
    deadline[s] = under;
    set_key(s, key_under(under, s));
    return now;
}

// The server that comes first has the node, at the longest until something arrives or the run stops. Answers the moment at which
// it has to be asked again who comes first.
static u64 give_node_to(u32 s, u64 now, u64 until)
{
    u64 end = now + smaller(waiting[s], until - now);
    u64 to = smaller(end, now + remaining[s]);
    note_ticks(now, to - now, s, deadline[s]);
    remaining[s] -= to - now;
    if (remaining[s] == 0) {
        postpone_and_set_key(s);
        if (to < end && first_server() == s)
            to = spend_whole_budgets(s, to, end);
    }
    serve_jobs(s, now, to);
    left_behind = waiting[s];
    if (waiting[s] == 0)
        set_key(s, NO_KEY);
    return to;
}

static void event_to_event(void)
{
    start_afresh();
    clear_keys();
    for (u64 now = 0; now < horizon;) {
        take_arrivals_and_set_keys(now);
        u64 until = taken < arrival_count ? moment[taken] : horizon;
        while (now < until && someone_waits())
            now = give_node_to(first_server(), now, until);
        if (now < until)
            end_segment(NOBODY);
        now = until;
    }
    end_segment(NOBODY);
}

#ifndef WITHOUT_MAIN
int main(void)
{
    return report_of_input(event_to_event);
}
#endif
