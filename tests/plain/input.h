// The work file that a program is given: its bytes, its servers and arrivals, and its judgement. It follows document 01 and uses nothing of the
// Rattle code.

#pragma once

#include "moment.h"

// One byte more than the longest file is asked for, to know a longer one.
static u8 file[LONGEST_FILE + 1];
static u64 length;

static u64 frame, horizon, server_offset, arrival_count, arrival_offset;
static u64 shares; // of all servers together

// The arrivals, each of them a job.
static u64 moment[MOST_ARRIVALS], cost[MOST_ARRIVALS];
static u32 server_of[MOST_ARRIVALS];

// Answers whether all went well.
static int read_file(int from)
{
    long got = read_whole(from, file, sizeof file);
    length = (u64)got;
    return got >= 0;
}

static u32 word_at(u64 place)
{
    return word_from(file + place);
}

static void read_header(void)
{
    frame = word_at(0);
    horizon = word_at(4);
    server_count = word_at(8);
    server_offset = word_at(12);
    arrival_count = word_at(16);
    arrival_offset = word_at(20);
}

static void read_server(u64 s)
{
    u64 place = server_offset + s * SERVER_RECORD;
    budget[s] = word_at(place);
    period[s] = word_at(place + 4);
}

static void read_arrival(u64 k)
{
    u64 place = arrival_offset + k * ARRIVAL_RECORD;
    moment[k] = word_at(place);
    server_of[k] = word_at(place + 4);
    cost[k] = word_at(place + 8);
}

// ---- The judgement ----

struct verdict {
    u32 number; // of the refusal, 0 for none
    u64 place;
};

static inline struct verdict refusal(u32 number, u64 place)
{
    struct verdict verdict = {number, place};
    return verdict;
}

static inline int sizes_in_range(void)
{
    return frame >= 1 && frame <= LARGEST_FRAME && horizon <= LONGEST_HORIZON && server_count <= MOST_SERVERS &&
           arrival_count <= MOST_ARRIVALS;
}

// Offset and length are added in 64 bits: in 32 the sum could come round to a small number.
static inline int layout_holds(void)
{
    return server_offset >= HEADER && arrival_offset >= server_offset + server_count * SERVER_RECORD &&
           length >= arrival_offset + arrival_count * ARRIVAL_RECORD;
}

static inline int server_is_sound(u64 s)
{
    return period[s] != 0 && frame % period[s] == 0 && budget[s] != 0 && budget[s] <= period[s];
}

// The refusal of one arrival; those before it are sound.
static inline u32 fault_of_arrival(u64 k)
{
    if (server_of[k] >= server_count || cost[k] < 1 || cost[k] > LARGEST_COST)
        return 6;
    if (k > 0 && moment[k] < moment[k - 1])
        return 7;
    if (moment[k] >= horizon)
        return 8;
    return 0;
}

// Takes the servers and arrivals of the file, and judges it in the document's order. Refusal 9 cannot occur: the finish list has
// all places.
static inline struct verdict judge(void)
{
    if (length < HEADER || length > LONGEST_FILE)
        return refusal(1, 0);
    read_header();
    if (!sizes_in_range())
        return refusal(2, 0);
    if (!layout_holds())
        return refusal(3, 0);

    shares = 0;
    for (u64 s = 0; s < server_count; s++) {
        read_server(s);
        if (!server_is_sound(s))
            return refusal(4, s);
        shares += budget[s] * (frame / period[s]);
    }
    if (shares > frame)
        return refusal(5, 0);

    for (u64 k = 0; k < arrival_count; k++) {
        read_arrival(k);
        u32 fault = fault_of_arrival(k);
        if (fault)
            return refusal(fault, k);
    }
    return refusal(0, 0);
}
