// The day report of document 01, with W-201 of document 02, in plain C, for a reader who knows C and these.
//
// The scheduler goes through the clock tick by tick, as the section "One moment of the clock" says it, and leaves out no tick.
// So it serves two ends: tests/differential compares the proved program with it, and bench/run takes it as the plain
// tick-by-tick program to measure against. moment.h has the steps of a moment, and day_report.h all else that is not the run itself.

#include "day_report.h"

// Step 3. The tick goes to the oldest job of the server.
static void serve_job(u32 s, u64 now)
{
    u32 job = first_job[s];
    if (--left_of_job[job] == 0) {
        finish_job(job, now + 1);
        first_job[s] = next_job[job];
    }
    postponed[s] += (u64)serve(s);
}

static void tick_by_tick(void)
{
    start_afresh();
    for (u64 now = 0; now < horizon; now++) {
        take_arrivals(now);
        u32 s = pick();
        if (s == NOBODY) {
            end_segment(NOBODY);
            continue;
        }
        note_ticks(now, 1, s, deadline[s]);
        serve_job(s, now);
        left_behind = waiting[s];
    }
    end_segment(NOBODY);
}

#ifndef WITHOUT_MAIN
int main(void)
{
    return report_of_input(tick_by_tick);
}
#endif
