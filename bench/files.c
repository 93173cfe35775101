// Writes the work files that are measured.
//
//     files FOLDER run      those of bench/run and bench/stack, under the names in the list at the end
//     files FOLDER growth   those of bench/growth: FOLDER/nothing, FOLDER/segments-0, FOLDER/segments-1 .. and the same
//                           of arrivals and servers
//     files FOLDER ticks    those of bench/ticks: for 1, 8 and 64 servers FOLDER/ticks-N, over the longest horizon, and
//                           FOLDER/start-N, the same with the horizon 0

#include "../tests/plain/work_file.h"

enum { SERVERS_IN_USE = MOST_SERVERS, LONGEST = LONGEST_HORIZON, WEEK = LARGEST_FRAME };

// ---- Those of bench/run ----

// 64 servers, each with the same small share of a long frame and one of several periods.
static void many_servers(void)
{
    static const u32 periods[] = {600, 1200, 3600, 7200, 14400, 43200};
    begin(WEEK, LONGEST);
    for (u32 s = 0; s < SERVERS_IN_USE; s++) {
        u32 t = periods[s % 6];
        add_server(t / 75, t);
    }
}

// Servers that share out the whole node among them, each with the same budget.
static void equal_servers(u32 servers, u32 each, u32 ticks)
{
    begin(servers * each, ticks);
    for (u32 s = 0; s < servers; s++)
        add_server(each, frame);
}

// So many jobs from the beginning, as long as a job can be, the servers taking turns.
static void jobs_from_the_beginning(u32 jobs)
{
    for (u32 k = 0; k < jobs; k++)
        add_arrival(0, k % server_count, WEEK);
}

// Nothing to do: what is measured is the start of the process.
static void nothing(void)
{
    begin(1, 0);
}

// The node is idle nearly all the time.
static void short_jobs(void)
{
    many_servers();
    for (u32 k = 0; k < 200; k++) {
        u32 at = LONGEST / 200 * k + below(1000), server = below(SERVERS_IN_USE);
        add_arrival(at, server, between(1, 50));
    }
}

// Every server always has work, and every tick postpones: as many segments as ticks.
static void always_busy(u32 servers)
{
    equal_servers(servers, 1, LONGEST);
    jobs_from_the_beginning(SERVERS_IN_USE);
}

static void two_busy(void)
{
    always_busy(2);
}

static void nine_busy(void)
{
    always_busy(9);
}

static void all_busy(void)
{
    always_busy(SERVERS_IN_USE);
}

// As many segments as ticks here too, and nobody to choose from. One job is too short to fill the horizon.
static void one_alone(void)
{
    equal_servers(1, 1, LONGEST);
    jobs_from_the_beginning(LONGEST / WEEK);
}

// As many arrivals as a file takes, with about 1.2 times the work that the node can do.
static void overload(void)
{
    enum { ARRIVING = MOST_ARRIVALS, MEAN = LONGEST / ARRIVING * 12 / 10 };
    many_servers();
    for (u32 k = 0; k < ARRIVING; k++) {
        u32 server = below(SERVERS_IN_USE);
        add_arrival(LONGEST / ARRIVING * k, server, between(1, 2 * MEAN));
    }
}

// ---- Those of bench/growth. Every server always has work, so that a step changes one thing and leaves the others. ----

enum { STEPS = 7 }; // each with twice as much as the one before it

// With a budget of 1 there is a segment for every tick.
static void growing_segments(u32 step)
{
    equal_servers(SERVERS_IN_USE, 1, LONGEST >> (STEPS - 1 - step));
    jobs_from_the_beginning(SERVERS_IN_USE);
}

// The same work in more and shorter jobs. Each comes when three quarters of what its server had before are served, so that the
// segments stay the same: as many as there are budgets in the horizon.
static void growing_arrivals(u32 step)
{
    enum { BUDGET = 64, WORK = LONGEST / SERVERS_IN_USE + BUDGET }; // of a server: more than it can be served
    u32 jobs = 1u << step, apart = LONGEST / jobs / 4 * 3;
    equal_servers(SERVERS_IN_USE, BUDGET, LONGEST);
    for (u32 k = 0; k < jobs; k++)
        for (u32 s = 0; s < SERVERS_IN_USE; s++)
            add_arrival(k * apart + (k > 0 ? s : 0), s, (WORK + jobs - 1) / jobs);
}

// Fewer servers have more jobs each, so that the arrivals stay the same.
static void growing_servers(u32 step)
{
    equal_servers(1u << step, 1, LONGEST);
    jobs_from_the_beginning(SERVERS_IN_USE);
}

// ---- Those of bench/ticks ----

// The servers share the whole frame evenly, under several periods. Work for longer than the horizon is there from the start, so every
// server stays busy.
static void busy_servers(u32 servers, u32 ticks)
{
    static const u32 periods[] = {64, 128, 192, 320, 448, 576};
    begin(WEEK, ticks);
    for (u32 s = 0; s < servers; s++) {
        u32 t = periods[s % 6];
        add_server(t / servers, t);
        for (u32 work = 0; work <= LONGEST / servers; work += WEEK)
            add_arrival(0, s, WEEK);
    }
}

// ---- The lists ----

static const struct {
    const char *name;
    void (*make)(void);
} files[] = {{"start", nothing},
             {"short-jobs", short_jobs},
             {"two", two_busy},
             {"nine", nine_busy},
             {"segments", all_busy},
             {"arrivals", overload},
             {"lone", one_alone}};

// The names have a place for the step.
static struct {
    char name[16];
    void (*make)(u32 step);
} growing[] = {{"segments-?", growing_segments}, {"arrivals-?", growing_arrivals}, {"servers-?", growing_servers}};

static const struct {
    u32 servers;
    const char *ticks, *start;
} busy[] = {{1, "ticks-1", "start-1"}, {8, "ticks-8", "start-8"}, {64, "ticks-64", "start-64"}};

static int save_run(const char *folder)
{
    for (u32 i = 0; i < sizeof files / sizeof *files; i++) {
        seed = i;
        files[i].make();
        if (!save_table(folder, files[i].name))
            return 0;
    }
    return 1;
}

static int save_growing(const char *folder)
{
    nothing();
    if (!save_table(folder, "nothing"))
        return 0;
    for (u32 i = 0; i < sizeof growing / sizeof *growing; i++)
        for (u32 step = 0; step < STEPS; step++) {
            char *place = growing[i].name;
            while (place[1])
                place++;
            *place = (char)('0' + step);
            growing[i].make(step);
            if (!save_table(folder, growing[i].name))
                return 0;
        }
    return 1;
}

static int save_ticks(const char *folder)
{
    for (u32 i = 0; i < sizeof busy / sizeof *busy; i++) {
        busy_servers(busy[i].servers, LONGEST);
        if (!save_table(folder, busy[i].ticks))
            return 0;
        busy_servers(busy[i].servers, 0);
        if (!save_table(folder, busy[i].start))
            return 0;
    }
    return 1;
}

// Whether two words are the same.
static int same(const char *a, const char *b)
{
    while (*a && *a == *b)
        a++, b++;
    return *a == *b;
}

int main(int count, char **arguments)
{
    static const struct {
        const char *word;
        int (*save)(const char *folder);
    } parts[] = {{"run", save_run}, {"growth", save_growing}, {"ticks", save_ticks}};

    for (u32 i = 0; count == 3 && i < sizeof parts / sizeof *parts; i++)
        if (same(arguments[2], parts[i].word))
            return parts[i].save(arguments[1]) ? 0 : 1;
    return 2;
}
