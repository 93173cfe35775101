// What the plain C day reports share: what a run keeps, what every run does alike, and the text. report.c and events.c bring a
// run each, and print the same text for every file. input.h has the work file and its judgement, moment.h the servers.
//
// All of it follows document 01, as W-201 of document 02 has changed it, and uses nothing of the Rattle code.
//
// Standard input: a work file. Standard output: the report. The status is 0 for every file, a refused one too, and 1 where
// reading or writing fails.

#pragma once

#include "input.h"
#include "text.h"

#define OPEN 0 // as the finish of a job: zero is never a finish

// The jobs of a server that have not finished form a queue in arrival order; the queue is empty when no work is waiting, and its
// ends then mean nothing.
static u64 finish[MOST_ARRIVALS], left_of_job[MOST_ARRIVALS];
static u32 next_job[MOST_ARRIVALS];
static u32 first_job[MOST_SERVERS], last_job[MOST_SERVERS];
static u32 taken; // arrivals so far

// The summary of each server.
static u64 arrived[MOST_SERVERS], finished[MOST_SERVERS], postponed[MOST_SERVERS], interrupted[MOST_SERVERS];
static u64 total_response[MOST_SERVERS], longest_response[MOST_SERVERS];

// The trace: the first segments, and the count of all. The last one counted may still be growing.
struct segment {
    u64 start, length, server, deadline;
};
static struct segment trace[MOST_SHOWN];
static u64 segment_count;
static struct segment current; // of length 0 when the tick before was idle
static u64 left_behind;        // work of its server waiting after its last tick

// ---- What every run does alike ----

static void start_afresh(void)
{
    for (u32 s = 0; s < MOST_SERVERS; s++) {
        remaining[s] = deadline[s] = waiting[s] = 0;
        arrived[s] = finished[s] = postponed[s] = interrupted[s] = 0;
        total_response[s] = longest_response[s] = 0;
    }
    for (u32 k = 0; k < MOST_ARRIVALS; k++)
        finish[k] = OPEN;
    taken = 0;
    segment_count = 0;
    current.length = 0;
}

// Step 1, for one arrival.
static void take_arrival(u32 k, u64 now)
{
    u32 s = server_of[k];
    if (waiting[s] == 0)
        first_job[s] = k;
    else
        next_job[last_job[s]] = k;
    last_job[s] = k;
    left_of_job[k] = cost[k];
    bring_work(s, cost[k], now);
    arrived[s]++;
}

static void take_arrivals(u64 now)
{
    while (taken < arrival_count && moment[taken] == now)
        take_arrival(taken++, now);
}

static void finish_job(u32 k, u64 now)
{
    u32 s = server_of[k];
    u64 response = now - moment[k];
    finish[k] = now;
    finished[s]++;
    total_response[s] += response;
    if (response > longest_response[s])
        longest_response[s] = response;
}

// The current segment, if there is one, ends, and the very next tick goes to this server, or to NOBODY where it is idle or behind the
// horizon. The segment's server was interrupted (W-201) if the next one is another server and work was left; what has arrived at this
// very moment does not count, so the work left was noted after the last tick.
static void end_segment(u64 next)
{
    if (current.length == 0)
        return;
    if (segment_count <= MOST_SHOWN)
        trace[segment_count - 1] = current;
    if (next != NOBODY && next != current.server && left_behind > 0)
        interrupted[current.server]++;
    current.length = 0;
}

// Ticks from this moment on go to a server under a deadline: more of the current segment, or the first of a new one.
static void note_ticks(u64 now, u64 ticks, u64 server, u64 under)
{
    if (current.length == 0 || current.server != server || current.deadline != under) {
        end_segment(server);
        segment_count++;
        current.start = now;
        current.server = server;
        current.deadline = under;
    }
    current.length += ticks;
}

// ---- The text ----

static void say_segments(void)
{
    u64 shown = segment_count < MOST_SHOWN ? segment_count : MOST_SHOWN;
    for (u64 i = 0; i < shown; i++) {
        say_with("segment ", trace[i].start);
        say_with(" ", trace[i].length);
        say_with(" ", trace[i].server);
        say_with(" ", trace[i].deadline);
        say("\n");
    }
    say_with("segments ", segment_count);
    say_with(" shown ", shown);
    say("\n");
}

static void say_job(u64 k)
{
    say_with("job ", k);
    say_with(" ", server_of[k]);
    say_with(" ", moment[k]);
    if (finish[k] == OPEN) {
        say(" open -\n");
    } else {
        say_with(" ", finish[k]);
        say_with(" ", finish[k] - moment[k]);
        say("\n");
    }
}

static void say_server(u64 s)
{
    say_with("server ", s);
    say_with(" arrived ", arrived[s]);
    say_with(" finished ", finished[s]);
    if (finished[s] == 0) {
        say(" total - longest -");
    } else {
        say_with(" total ", total_response[s]);
        say_with(" longest ", longest_response[s]);
    }
    say_with(" postponed ", postponed[s]);
    say_with(" interrupted ", interrupted[s]);
    say("\n");
}

// The report on the file of the given length that stands in `file`; afterwards it stands in `text`.
static void report(void (*run)(void))
{
    text_length = 0;
    struct verdict verdict = judge();
    if (verdict.number) {
        say_with("refused ", verdict.number);
        say_with(" ", verdict.place);
        say("\n");
        return;
    }
    run();
    say_with("admitted ", shares);
    say_with(" of ", frame);
    say("\n");
    say_segments();
    for (u64 k = 0; k < arrival_count; k++)
        say_job(k);
    for (u64 s = 0; s < server_count; s++)
        say_server(s);
}

// The whole program, with the run that it takes; `inline`, since expected.c does without it. Answers its status.
static inline int report_of_input(void (*run)(void))
{
    if (!read_file(0))
        return 1;
    report(run);
    return write_whole(1, text, text_length) ? 0 : 1;
}
