// The live ticks of document 01 in plain C, for a reader who knows C and that document: one dispatcher in static memory, which every
// move alters in place. It uses nothing of the Rattle code. bench/ticks takes it as what the proved program bench_live_ticks is measured
// against, and holds the two to the same output. The steps of a moment are those of tests/plain/moment.h.
//
// Standard input: a work file. Its table becomes the dispatcher, its arrivals of moment 0 are taken, and the clock ticks as often as its
// horizon says. Standard output, a number to a line: how many ticks ran, postponed and idled, and then c, d and w of each server. It judges
// no file: those of bench/ticks are sound, but for a horizon of 0 with arrivals.

#include "../tests/plain/input.h"
#include "../tests/plain/text.h"

// ---- A tick ----

static u64 now; // the clock

enum kind { IDLE, RAN, REFUSED };

struct answer {
    enum kind kind;
    u32 server;
    u64 deadline;
    int postponed;
};

// Steps 2 to 4, or refusal 10.
static struct answer tick(void)
{
    struct answer answer = {REFUSED, NOBODY, 0, 0};
    if (now == LONGEST_HORIZON)
        return answer;
    answer.kind = IDLE;
    answer.server = pick();
    if (answer.server != NOBODY) {
        answer.kind = RAN;
        answer.deadline = deadline[answer.server];
        answer.postponed = serve(answer.server);
    }
    now++;
    return answer;
}

// ---- The ticks ----

static u64 ran, postponed, idle;

static void count(struct answer answer)
{
    if (answer.kind == IDLE)
        idle++;
    if (answer.kind == RAN) {
        ran++;
        postponed += (u64)answer.postponed;
    }
}

static void read_work(void)
{
    read_header();
    for (u64 s = 0; s < server_count; s++)
        read_server(s);
    for (u64 k = 0; k < arrival_count; k++)
        read_arrival(k);
}

static void take_arrivals(void)
{
    for (u64 k = 0; k < arrival_count && moment[k] == now; k++)
        bring_work(server_of[k], cost[k], now);
}

static void ticks(void)
{
    for (u64 k = 0; k < horizon; k++)
        count(tick());
}

// ---- The text ----

static void say_line(u64 number)
{
    say_number(number);
    say("\n");
}

static void say_all(void)
{
    say_line(ran);
    say_line(postponed);
    say_line(idle);
    for (u64 s = 0; s < server_count; s++) {
        say_line(remaining[s]);
        say_line(deadline[s]);
        say_line(waiting[s]);
    }
}

int main(void)
{
    if (!read_file(0))
        return 1;
    read_work();
    take_arrivals();
    ticks();
    say_all();
    return write_whole(1, text, text_length) ? 0 : 1;
}
