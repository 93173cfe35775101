// Writes the generated work files of tests/differential: FOLDER/0000, FOLDER/0001 ..
//
//     files FOLDER
//
// Each family below is one function that makes its k-th file, and the table at the end says how many files it makes. A file
// depends on its family's name and k alone. On standard output: one line per family, its name and its count, in file order.

#include "work_file.h"

static const u32 frames[] = {1,    2,    3,    4,    5,     6,    7,     8,     10,     12,     13,     20,     24,
                             30,   36,   60,   97,   100,   120,  128,   210,   256,    360,    720,    840,    1000,
                             1024, 2520, 5040, 10080, 9973, 65536, 86400, 100000, 302400, 524288, 604799, 604800};
static const u32 small_frames[] = {1, 2, 3, 4, 5, 6, 7, 8, 9, 10, 12, 13, 15, 16, 18, 20, 24, 30, 36, 60};

// A few bytes between the parts of a file, most often none.
static u32 some_gap(void)
{
    return once_in(4) ? below(20) : 0;
}

static void encode_somehow(void)
{
    u32 gap = some_gap(), second_gap = some_gap();
    encode(gap, second_gap, some_gap());
}

static void encode_with_small_gaps(void)
{
    u32 gap = below(4), second_gap = below(4);
    encode(gap, second_gap, below(4));
}

// Begins a file with a frame, and with a horizon from least to most, which is drawn after the frame was.
static void begin_with(u32 some_frame, u32 least, u32 most)
{
    begin(some_frame, between(least, most));
}

// ---- A sound file to begin with, small enough that equal deadlines, last ticks and wakings at the limit are common ----

static void small_table(u32 most_servers, u32 most_arrivals)
{
    begin_with(ONE_OF(small_frames), 1, 80);
    u32 servers = between(1, most_servers);
    some_servers(servers, once_in(3) ? frame : between(1, frame));
    u32 arrivals = below(most_arrivals + 1);
    some_arrivals(arrivals, once_in(4) ? 20 : 5);
}

// A sound file with at least one server and one arrival.
static void sound_file(void)
{
    do
        small_table(6, 12);
    while (arrival_count == 0);
    encode_somehow();
}

// ---- From the rules ----

static void file_p(void)
{
    begin(10, 12);
    add_server(2, 5);
    add_server(3, 5);
    add_arrival(0, 0, 5);
    add_arrival(0, 1, 3);
    add_arrival(6, 1, 2);
}

static void file_q(void)
{
    begin(5, 4);
    add_server(1, 5);
    add_arrival(1, 0, 5);
}

static void admission(u32 last_budget)
{
    begin(20, 0);
    add_server(1, 4);
    add_server(3, 10);
    add_server(last_budget, 20);
}

static void from_the_rules(u32 k)
{
    begin(1, 0);
    switch (k) {
    case 0: file_p(); break;
    case 1: file_q(); break;
    case 2: admission(9); break;
    case 3: admission(10); break;
    case 4: begin(20, 0), add_server(1, 3); break;
    case 5: file_p(), moment[1] = 5, moment[2] = 3, server_of[2] = 2; break; // 6 before 7
    default: break;                                                          // the file of 24 bytes
    }
    encode(0, 0, 0);
    if (k == 7) { // 2 before 3
        set_word(SERVERS, 65);
        set_word(ARRIVAL_OFFSET, 3);
    }
}

// ---- Refusal 1: the file's length ----

static void lengths(u32 k)
{
    static const u32 edges[] = {0, 1, 2, 8, 22, 23, 24, 25, 26, 65535, 65536, 65537, 65538, 70000, 131072};
    enum { EDGES = sizeof edges / sizeof *edges };
    u32 wanted = edges[k % EDGES];
    switch (k / EDGES) {
    case 0: begin(1, 0), encode(0, 0, 131072); break;                       // sound but for its length
    case 1: begin(1, 0), encode(0, 0, 131072), set_word(FRAME, 0); break;   // 1 before 2
    case 2: begin(1, 0), encode(0, 0, 131072), set_word(SERVER_OFFSET, 23); // 1 before 3
        break;
    default: // the arrivals end with the file, at the full length too
        file_p();
        u32 behind = HEADER + 8 * server_count + 12 * arrival_count;
        encode(0, wanted > behind ? wanted - behind : 0, 0);
        break;
    }
    length = wanted;
}

// ---- Refusal 2: H, N, n and m ----

// A file with so many servers and arrivals, which may be one more than the rules allow; both fit into it.
static void counted(u32 servers, u32 arrivals)
{
    begin(128, 128);
    while (server_count < servers)
        add_server(1, 128);
    while (arrival_count < arrivals)
        add_arrival(arrival_count / 40, below(larger(1, servers)), 1);
}

static void header_ranges(u32 k)
{
    static const u32 h[] = {0, 1, 604800, 604801, 0x80000000u, 0xffffffffu};
    static const u32 n[] = {0, 1, 2419199, 2419200, 2419201, 0x80000000u, 0xffffffffu};
    static const u32 wrapping[] = {65, 0x1fffffffu, 0x20000000u, 0x20000001u, 0x80000000u, 0xffffffffu};
    static const u32 wrapping_arrivals[] = {4097, 0x15555555u, 0x15555556u, 0x40000000u, 0x80000000u, 0xffffffffu};
    u32 servers;
    switch (k % 8) {
    case 0: // the frame, on a table that fits H 1 and every H
        begin(1, 5), add_server(1, 1), add_arrival(0, 0, 3), encode_somehow();
        set_word(FRAME, h[k / 8 % 6]);
        break;
    case 1: // the horizon, also with arrivals at its last moment
        begin(6, 1), add_server(1, 3), encode_somehow();
        set_word(HORIZON, n[k / 8 % 7]);
        break;
    case 2:
        begin(6, 2419200), add_server(1, 3), add_arrival(2419199, 0, 2), encode_somehow();
        set_word(HORIZON, 2419198 + k / 8 % 5);
        break;
    case 3: counted(63 + k / 8 % 4, below(3)), encode_somehow(); break;
    case 4: servers = between(0, 1), counted(servers, k % 3 ? between(4095, 4098) : 0), encode_somehow(); break;
    case 5: // counts whose records would take a length that comes round in 32 bits
        counted(2, 2), encode_somehow();
        set_word(SERVERS, wrapping[k / 8 % 6]);
        break;
    case 6:
        counted(2, 2), encode_somehow();
        set_word(ARRIVALS, wrapping_arrivals[k / 8 % 6]);
        break;
    default: // several at once, and before 3
        sound_file();
        set_word(FRAME, ONE_OF(h));
        set_word(HORIZON, ONE_OF(n));
        set_word(SERVERS, between(60, 70));
        set_word(ARRIVALS, between(4090, 4100));
        break;
    }
}

// ---- Refusal 3: the layout ----

static void offsets(u32 k)
{
    u32 servers = once_in(3) ? 0 : between(1, 5), arrivals = servers == 0 || once_in(3) ? 0 : between(1, 5);
    counted(servers, arrivals);
    encode_with_small_gaps();
    u32 servers_end = server_offset + 8 * server_count, arrivals_end = arrival_offset + 12 * arrival_count;
    u32 off = between(0, 2) - 1; // one before, at, or one after a limit
    switch (k % 13) {
    case 0: set_word(SERVER_OFFSET, HEADER + off); break;
    case 1: // the servers end at the arrivals, or next to it
        set_word(SERVER_OFFSET, arrival_offset - 8 * server_count + off);
        break;
    case 2: set_word(ARRIVAL_OFFSET, servers_end + off); break;
    case 3: // the arrivals end with the file, or next to it
        set_word(ARRIVAL_OFFSET, length - 12 * arrival_count + off);
        break;
    case 4: length = arrivals_end + off; break;
    case 5: set_word(SERVER_OFFSET, 0u - 8 * server_count + between(0, 60)); break; // comes round when added
    case 6: set_word(ARRIVAL_OFFSET, 0u - 12 * arrival_count + between(0, 60)); break;
    case 7: // both come round, so that every sum in 32 bits looks right
        set_word(SERVER_OFFSET, 0u - 8 * server_count + between(0, 30));
        set_word(ARRIVAL_OFFSET, 0u - 12 * arrival_count + between(0, 60));
        break;
    case 8: set_word(SERVER_OFFSET, (u32)number()); break;
    case 9: set_word(ARRIVAL_OFFSET, (u32)number()); break;
    case 10: // an offset counts where its count is 0
        counted(0, 0), encode_with_small_gaps();
        set_word(SERVER_OFFSET, once_in(2) ? arrival_offset + off : HEADER + off);
        break;
    case 11:
        counted(once_in(2), 0), encode_with_small_gaps();
        set_word(ARRIVAL_OFFSET, length + off);
        break;
    default: // the two lists in the other order, each within the file
        set_word(SERVER_OFFSET, arrival_offset);
        set_word(ARRIVAL_OFFSET, server_offset);
        break;
    }
}

// ---- Refusal 4: a server ----

// Turns a sound server of the bytes into one at or beyond a limit; not every one is a fault.
static void spoil_server(u32 s)
{
    u32 q = word_at(server_offset + 8 * s), t = word_at(server_offset + 8 * s + 4);
    switch (below(11)) {
    case 0: t = 0; break;
    case 1: q = t = 0; break;
    case 2: t = t + 1; break;
    case 3: t = word_at(FRAME) + 1; break;
    case 4: t = word_at(FRAME) * 2; break;
    case 5: t = 0xffffffffu; break;
    case 6: q = 0; break;
    case 7: q = t + 1; break;
    case 8: q = t; break;
    case 9: q = 0xffffffffu; break;
    default: q = (u32)number(), t = between(1, word_at(FRAME)); break;
    }
    set_server(s, q, t);
}

static void faulty_servers(u32 k)
{
    begin_with(ONE_OF(frames), 1, 30);
    some_servers(k % 4 ? between(1, 8) : between(9, 64), frame);
    some_arrivals(below(5), 5);
    encode_somehow();
    for (u32 faults = between(1, 3); faults > 0; faults--)
        spoil_server(below(server_count));
    if (once_in(4))
        spoil_server(server_count - 1);
    if (once_in(4)) // 4 before 5
        set_server(0, word_at(FRAME), word_at(FRAME));
}

// ---- Refusal 5: the shares ----

static void share_sums(u32 k)
{
    do { // the last server's share is its budget, and brings the sum near H
        begin_with(ONE_OF(frames), 0, 40);
        u32 servers = k % 5 ? between(1, 7) : between(20, 63);
        some_servers(servers, between(1, frame));
        u32 sum = 0;
        for (u32 s = 0; s < server_count; s++)
            sum += budget[s] * (frame / period[s]);
        add_server(frame - sum + k % 3 - 1, frame); // H - 1, H or H + 1
    } while (budget[server_count - 1] == 0 || budget[server_count - 1] > frame);
    if (once_in(5)) // far above
        add_server(frame, frame), add_server(frame, frame);
    if (once_in(2)) { // as the first
        u32 q = budget[0], t = period[0], last = server_count - 1;
        budget[0] = budget[last], period[0] = period[last];
        budget[last] = q, period[last] = t;
    }
    some_arrivals(below(8), 10);
    encode_somehow();
    if (once_in(6) && arrival_count > 0) // 5 before 6
        set_arrival(0, 0, server_count, 0);
}

// ---- Refusals 6, 7 and 8: an arrival ----

// Turns an arrival of the bytes into one at or beyond a limit; not every one is a fault.
static void spoil_arrival(u32 k)
{
    u32 place = arrival_offset + 12 * k, before = k > 0 ? word_at(place - 12) : 0;
    u32 at = word_at(place), server = word_at(place + 4), work = word_at(place + 8);
    u32 servers = word_at(SERVERS), last = word_at(HORIZON);
    switch (below(18)) {
    case 0: server = servers; break;
    case 1: server = servers - 1; break;
    case 2: server = 0xffffffffu; break;
    case 3: work = 0; break;
    case 4: work = 1; break;
    case 5: work = 604800; break;
    case 6: work = 604801; break;
    case 7: work = 0xffffffffu; break;
    case 8: at = before; break;
    case 9: at = before - 1; break; // for the first arrival, the largest number
    case 10: at = last - 1; break;
    case 11: at = last; break;
    case 12: at = last + 1; break;
    case 13: at = 0xffffffffu; break;
    case 14: at = before / 2; break;
    case 15: at = 0; break;
    case 16: server = servers, at = before - 1; break; // 6 before 7
    default: work = 0, at = last; break;               // 6 before 8
    }
    set_arrival(k, at, server, work);
}

static void faulty_arrivals(u32 k)
{
    sound_file();
    for (u32 faults = k % 3 ? 1 : between(2, 4); faults > 0; faults--)
        spoil_arrival(k % 5 ? below(arrival_count) : arrival_count - 1);
}

// Arrivals where there are no servers, or no moments.
static void nowhere_to_go(u32 k)
{
    u32 some_frame = ONE_OF(frames);
    begin(some_frame, k % 2 ? 0 : between(0, 3));
    if (k % 3)
        add_server(1, frame);
    for (u32 arrivals = between(0, 2); arrivals > 0; arrivals--)
        add_arrival(0, 0, between(0, 1));
    encode_somehow();
}

// ---- Several faults in one file ----

static void several_faults(u32 k)
{
    sound_file();
    u32 chosen = between(1, 63), place;
    if (chosen & 1)
        for (u32 faults = between(1, 3); faults > 0; faults--)
            spoil_arrival(below(arrival_count));
    if (chosen & 2) // a share of H beside others
        set_server(below(server_count), word_at(FRAME), word_at(FRAME));
    if (chosen & 4 && once_in(2))
        spoil_server(below(server_count));
    if (chosen & 8 && k % 2)
        place = once_in(2) ? SERVER_OFFSET : ARRIVAL_OFFSET, set_word(place, below(length + 20));
    if (chosen & 16 && k % 4 == 1)
        place = 4 * below(5), set_word(place, (u32)number());
    if (chosen & 32 && k % 8 == 1)
        length = below(HEADER);
}

// ---- Runs ----

static void small_tables(u32 k)
{
    small_table(k % 2 ? 3 : 6, k % 3 ? 12 : 40);
    encode_somehow();
}

// One server alone, that gets a second job after a part of its budget: just before the moment where it is renewed, at it, just
// after it, and about its deadline.
static void waking(u32 k)
{
    u32 a = between(1, 5), b = between(a, 9), units = between(2, 6), part = between(1, units - 1);
    u32 q = a * units, t = b * units, first = below(30);
    u32 equal = first + b * part, ends = first + t; // c × T = (d - t) × Q there
    u32 second[] = {equal - 1, equal, equal + 1, ends - 1, ends, ends + 1, ends + t};
    begin(t * between(1, 3), 200);
    if (k % 2) // the second number has nothing to do
        add_server(1, frame);
    add_server(q, t);
    if (frame < q * (frame / t) + k % 2)
        server_count = 0, add_server(q, t);
    add_arrival(first, server_count - 1, a * part);
    add_arrival(larger(first, second[k % 7]), server_count - 1, between(1, q + 2));
    encode_somehow();
}

// A server that gets work in the very moment it becomes idle, while another one waits: after work that came first, so that it
// may be late enough to be renewed, and then may lose the node.
static void woken_at_once(u32 k)
{
    static const u32 times[] = {2, 2, 3, 6};
    u32 t = between(8, 16), first = below(9), urgent = between(0, 4), work = between(1, 6);
    begin(24 * t, 150);
    add_server(urgent + 1, 2 * t);                   // comes first
    add_server(k % 3 ? between(1, t) : work, 2 * t); // wakes
    add_server(between(1, 3), t * times[k % 4]);     // waits
    if (urgent > 0)
        add_arrival(first, 0, urgent);
    add_arrival(first, 1, work);
    add_arrival(first, 2, between(1, 12));
    add_arrival(first + urgent + work, 1, between(1, 6));
    if (once_in(3))
        add_arrival(first + urgent + work, 0, 1);
    encode_somehow();
}

// Deadlines that meet: a second server wakes while the first one runs, with a period that is shorter by the way between the
// two wakings. Either of them may have the lower number.
static void ties(u32 k)
{
    u32 t = between(4, 16), q = between(2, t / 2), later = between(1, q - 1), first = below(20);
    u32 short_q = between(1, larger(1, (t - later) / 3)), second = k % 2;
    begin(t * (t - later), 150);
    if (second == 1)
        add_server(q, t), add_server(short_q, t - later);
    else
        add_server(short_q, t - later), add_server(q, t);
    add_server(1, frame);
    add_arrival(first, !second, between(later + 1, 3 * t));
    if (k % 3 == 0)
        add_arrival(first, 2, between(1, 9));
    add_arrival(first + later, second, between(1, 2 * t));
    if (k % 5 == 0) {
        u32 server = between(0, 2);
        add_arrival(first + later + t, server, between(1, t));
    }
    encode_somehow();
}

// Jobs that end on the last tick of a budget, or one beside it, and the next job of the server soon after.
static void last_budget_ticks(u32 k)
{
    u32 t = between(2, 9), q = between(1, k % 2 ? larger(1, t * 3 / 4) : t);
    begin(4 * t, 150);
    add_server(q, once_in(2) ? 2 * t : t);
    if (k % 2)
        add_server(between(1, t), 4 * t);
    u32 at = below(5);
    for (u32 jobs = between(2, 5); jobs > 0; jobs--) {
        u32 budgets = between(1, 3), work = larger(1, q * budgets + (once_in(3) ? between(0, 2) - 1 : 0));
        add_arrival(at, 0, work);
        if (k % 2 && once_in(2))
            add_arrival(at, 1, between(1, 4));
        at += once_in(2) ? work : between(0, 12);
    }
    encode_somehow();
}

// The last work ends one before N, at N, or one after it; the node is never idle before.
static void horizon_edges(u32 k)
{
    begin(ONE_OF(small_frames) * 4, 100000);
    some_servers(between(1, 5), frame);
    u32 first = below(10), work = 0;
    for (u32 jobs = between(1, 6); jobs > 0; jobs--) {
        u32 at = first + (work > 0 ? below(work) : 0), server = below(server_count);
        add_arrival(at, server, between(1, 15));
        work += cost[arrival_count - 1];
        if (arrival_count > 1 && moment[arrival_count - 1] < moment[arrival_count - 2])
            moment[arrival_count - 1] = moment[arrival_count - 2];
    }
    horizon = larger(moment[arrival_count - 1] + 1, first + work + k % 3 - 1);
    encode_somehow();
}

// Segment counts about the 2,048 that are shown. A lone server makes one segment of each budget.
static void segment_counts(u32 k)
{
    static const u32 counts[] = {1, 2046, 2047, 2048, 2049, 2050, 4096, 6000};
    u32 wanted = counts[k % 8], q = between(1, 4);
    begin(q * between(1, 9), 40000);
    add_server(q, frame);
    switch (k / 8 % 3) {
    case 0: add_arrival(3, 0, wanted * q); break;
    case 1: add_arrival(3, 0, wanted * q - below(q)); break; // the last one is cut short
    default: // stopped by the horizon
        add_arrival(3, 0, wanted * q + 100);
        horizon = 3 + wanted * q - below(q);
        break;
    }
    encode_somehow();
}

// Many servers of budget 1 beside each other: a new segment with every tick.
static void many_segments(u32 k)
{
    u32 servers = between(2, 64);
    begin_with(servers * between(1, 3), 2000, 6000);
    while (server_count < servers)
        add_server(1, frame);
    for (u32 s = 0; s < servers; s++)
        add_arrival(k % 2 ? s : 0, k % 3 ? s : servers - 1 - s, between(10, 200));
    encode_somehow();
}

static void all_servers(u32 k)
{
    static const u32 wide[] = {720, 5040, 10080, 86400, 302400, 604800};
    do {
        begin_with(ONE_OF(wide), 1000, 8000);
        some_servers(64, frame);
    } while (server_count < 64);
    some_arrivals(between(100, 500), k % 2 ? 20 : 80);
    encode_somehow();
}

static void most_arrivals(u32 k)
{
    begin_with(ONE_OF(frames), 500, 20000);
    some_servers(between(1, 64), frame);
    some_arrivals(k % 3 ? 4096 : between(4000, 4096), k % 2 ? 5 : 12);
    if (k % 4 == 0 && arrival_count == 4096) // the longest file: all 65,536 bytes
        encode(0, 65536 - HEADER - 8 * server_count - 12 * 4096, 0);
    else
        encode_somehow();
}

// All arrivals at one or two moments, several of them for the same server.
static void one_moment(u32 k)
{
    begin_with(ONE_OF(small_frames) * 2, 20, 200);
    some_servers(between(1, 8), frame);
    u32 at = below(horizon), arrivals = between(2, 60);
    for (u32 i = 0; i < arrivals; i++) {
        u32 server = below(server_count);
        add_arrival(k % 2 && i > arrivals / 2 ? horizon - 1 : at, server, between(1, 8));
    }
    encode_somehow();
}

// Costs beyond the horizon and the largest ones, many for one server, so that its waiting work passes 31 bits.
static void large_costs(u32 k)
{
    begin_with(ONE_OF(frames), 10, 3000);
    some_servers(between(1, 6), frame);
    for (u32 arrivals = k % 8 ? between(1, 9) : 4000; arrivals > 0; arrivals--) {
        u32 server = below(k % 8 ? server_count : 1);
        add_arrival(k % 2 ? 0 : horizon / 2, server, k % 3 ? 604800 : between(horizon, 604800));
    }
    encode_somehow();
}

// Postponed so often that the deadline passes 32 bits; then another server wakes, or the same one after some idle time.
static void far_deadlines(u32 k)
{
    u32 overrun = between(7100, 12000), t = k % 3 ? 604800 : 302400;
    begin(604800, between(20000, 40000));
    add_server(1, k % 2 ? t : 604800);
    add_server(between(1, 3), k % 2 ? 604800 : t);
    u32 far = k % 2;
    add_arrival(below(10), far, k % 3 ? overrun : 2 * overrun);
    u32 second = between(7000, 16000);
    add_arrival(second, !far, between(1, 9000));
    u32 third = between(16000, 18000);
    add_arrival(third, far, between(1, 900));
    u32 last = between(18000, 19999);
    add_arrival(last, !far, between(1, 900));
    encode_somehow();
}

// Jobs that come one after the other, at about nine, ten or thirteen tenths of what the node can do.
static void loads(u32 k)
{
    static const u32 tenths[] = {5, 9, 10, 13};
    begin_with(ONE_OF(frames), 500, 6000);
    u32 servers = between(1, 12);
    some_servers(servers, k % 2 ? frame : between(1, frame));
    u32 arrivals = between(20, 300);
    some_arrivals(arrivals, larger(1, 2 * (horizon * tenths[k % 4] / 10 / arrivals)));
    encode_somehow();
}

// Any frame, also one that few periods divide.
static void any_frame(u32 k)
{
    begin_with(k % 2 ? between(1, 604800) : between(1, 1000), 100, 5000);
    some_servers(between(1, 10), frame);
    some_arrivals(between(0, 100), k % 3 ? 30 : 300);
    encode_somehow();
}

static void longest_horizon(u32 k)
{
    begin(ONE_OF(frames), 2419200);
    switch (k % 5) {
    case 0: // nearly idle
        some_servers(between(1, 4), frame);
        some_arrivals(between(1, 200), 50);
        break;
    case 1: // work left at the end
        some_servers(2, frame);
        for (u32 arrivals = 10; arrivals > 0; arrivals--) {
            u32 at = 2419200 - 604800 * between(1, 2);
            add_arrival(at, below(server_count), 604800);
        }
        for (u32 i = 1; i < arrival_count; i++)
            moment[i] = larger(moment[i], moment[i - 1]);
        break;
    case 2: // one server, postponed with every tick: the deadline reaches its largest number
        frame = 604800;
        add_server(1, 604800);
        for (u32 arrivals = 5; arrivals > 0; arrivals--)
            add_arrival(0, 0, 604800);
        add_server(1, 604800);
        add_arrival(2419190, 1, between(5, 20));
        break;
    case 3: // all jobs at once: their responses add up to more than 32 bits
        some_servers(k % 2 ? 1 : 2, frame);
        while (arrival_count < 4096)
            add_arrival(0, arrival_count % server_count, between(560, 590));
        break;
    default:
        some_servers(k % 2 ? 64 : 3, frame);
        some_arrivals(3000, 1600);
        add_arrival(2419199, 0, 1); // ends at N, where nothing else waits for it
        break;
    }
    encode_somehow();
}

// ---- Damaged files ----

static void change_a_bit(void)
{
    u32 bit = below(8);
    bytes[below(length)] ^= (u8)(1 << bit);
}

static void damaged(u32 k)
{
    u32 place;
    small_table(4, 10);
    encode_somehow();
    switch (k % 5) {
    case 0: // some bits
        for (u32 bits = between(1, 4); bits > 0; bits--)
            change_a_bit();
        break;
    case 1: // some bytes
        for (u32 changes = between(1, 4); changes > 0; changes--) {
            u8 byte = (u8)number();
            bytes[below(length)] = byte;
        }
        break;
    case 2: length = below(length + 1); break;
    case 3: // longer, with some bits changed
        for (u32 more = between(1, 40); more > 0; more--)
            bytes[length++] = (u8)number();
        if (once_in(2))
            change_a_bit();
        break;
    default: // one word gets a small number, so that it is often still sound
        place = 4 * below(length / 4), set_word(place, below(70));
        break;
    }
}

// ---- The table ----

static const struct {
    const char *name;
    void (*make)(u32 k);
    u32 count;
} families[] = {
    {"from-the-rules", from_the_rules, 8},
    {"lengths", lengths, 60},
    {"header-ranges", header_ranges, 200},
    {"offsets", offsets, 286},
    {"faulty-servers", faulty_servers, 200},
    {"share-sums", share_sums, 150},
    {"faulty-arrivals", faulty_arrivals, 240},
    {"nowhere-to-go", nowhere_to_go, 24},
    {"several-faults", several_faults, 240},
    {"small-tables", small_tables, 400},
    {"waking", waking, 140},
    {"woken-at-once", woken_at_once, 160},
    {"ties", ties, 100},
    {"last-budget-ticks", last_budget_ticks, 80},
    {"horizon-edges", horizon_edges, 90},
    {"segment-counts", segment_counts, 48},
    {"many-segments", many_segments, 12},
    {"all-servers", all_servers, 24},
    {"most-arrivals", most_arrivals, 12},
    {"one-moment", one_moment, 40},
    {"large-costs", large_costs, 40},
    {"far-deadlines", far_deadlines, 30},
    {"loads", loads, 80},
    {"any-frame", any_frame, 60},
    {"longest-horizon", longest_horizon, 20},
    {"damaged", damaged, 300},
};

static u64 seed_of(const char *name, u32 k)
{
    u64 mixed = 0xcbf29ce484222325ull;
    while (*name)
        mixed = (mixed ^ (u8)*name++) * 0x100000001b3ull;
    return mixed + ((u64)k << 32);
}

static void tell(const char *name, u32 count)
{
    char line[64], digits[5];
    u32 at = 0;
    while (*name)
        line[at++] = *name++;
    line[at++] = ' ';
    digits_of(count, 4, digits);
    u32 first = 0; // of the digits that are not leading zeros
    while (first < 3 && digits[first] == '0')
        first++;
    while (digits[first])
        line[at++] = digits[first++];
    line[at++] = '\n';
    write(1, line, at);
}

int main(int count, char **arguments)
{
    if (count != 2)
        return 2;
    char name[5];
    u32 made = 0;
    for (u32 f = 0; f < sizeof families / sizeof *families; f++) {
        for (u32 k = 0; k < families[f].count; k++) {
            seed = seed_of(families[f].name, k);
            families[f].make(k);
            digits_of(made++, 4, name);
            if (!save(arguments[1], name))
                return 1;
        }
        tell(families[f].name, families[f].count);
    }
    return 0;
}
