// What the programs that write generated work files share: a source of numbers, the building of a work file, and saving it.
// Nothing here depends on time, machine or chance: the same seed gives the same files. C leaves open which argument of a call is
// worked out first, so no expression draws two numbers whose order it leaves open.

#pragma once

#include "plain.h"

// ---- Numbers that look random (splitmix64) ----

static u64 seed;

static inline u64 number(void)
{
    u64 mixed = seed += 0x9e3779b97f4a7c15ull;
    mixed = (mixed ^ mixed >> 30) * 0xbf58476d1ce4e5b9ull;
    mixed = (mixed ^ mixed >> 27) * 0x94d049bb133111ebull;
    return mixed ^ mixed >> 31;
}

static inline u32 below(u32 limit)
{
    return (u32)(number() % limit);
}

// From least to most, both included.
static inline u32 between(u32 least, u32 most)
{
    return least + below(most - least + 1);
}

// True once in so many times.
static inline int once_in(u32 times)
{
    return below(times) == 0;
}

static inline u32 smaller(u32 a, u32 b)
{
    return a < b ? a : b;
}

static inline u32 larger(u32 a, u32 b)
{
    return a > b ? a : b;
}

// One of the numbers of a list.
#define ONE_OF(list) ((list)[below(sizeof(list) / sizeof *(list))])

// ---- A table and its arrivals, before they become bytes ----

// The lists take somewhat more than the rules allow, so that a file can break them.
enum { ROOM_FOR_SERVERS = 80, ROOM_FOR_ARRIVALS = 4200 };

static u32 frame, horizon, server_count, arrival_count;
static u32 budget[ROOM_FOR_SERVERS], period[ROOM_FOR_SERVERS];
static u32 moment[ROOM_FOR_ARRIVALS], server_of[ROOM_FOR_ARRIVALS], cost[ROOM_FOR_ARRIVALS];

static inline void begin(u32 frame_of_file, u32 horizon_of_file)
{
    frame = frame_of_file;
    horizon = horizon_of_file;
    server_count = arrival_count = 0;
}

static inline void add_server(u32 q, u32 t)
{
    budget[server_count] = q;
    period[server_count++] = t;
}

static inline void add_arrival(u32 at, u32 server, u32 work)
{
    moment[arrival_count] = at;
    server_of[arrival_count] = server;
    cost[arrival_count++] = work;
}

// ---- The bytes ----

// The places of the header's words.
enum { FRAME = 0, HORIZON = 4, SERVERS = 8, SERVER_OFFSET = 12, ARRIVALS = 16, ARRIVAL_OFFSET = 20 };

static u8 bytes[150000];
static u32 length, server_offset, arrival_offset;

static inline void set_word(u32 place, u32 word)
{
    for (u32 i = 0; i < 4; i++)
        bytes[place + i] = (u8)(word >> 8 * i);
}

static inline u32 word_at(u32 place)
{
    return word_from(bytes + place);
}

static inline void set_server(u32 s, u32 q, u32 t)
{
    set_word(server_offset + SERVER_RECORD * s, q);
    set_word(server_offset + SERVER_RECORD * s + 4, t);
}

static inline void set_arrival(u32 k, u32 at, u32 server, u32 work)
{
    set_word(arrival_offset + ARRIVAL_RECORD * k, at);
    set_word(arrival_offset + ARRIVAL_RECORD * k + 4, server);
    set_word(arrival_offset + ARRIVAL_RECORD * k + 8, work);
}

// The table and its arrivals as bytes, with so many bytes of no meaning before the servers, before the arrivals and behind all.
static inline void encode(u32 gap, u32 second_gap, u32 tail)
{
    server_offset = HEADER + gap;
    arrival_offset = server_offset + SERVER_RECORD * server_count + second_gap;
    length = arrival_offset + ARRIVAL_RECORD * arrival_count + tail;
    for (u32 i = 0; i < length; i++)
        bytes[i] = (u8)number();
    set_word(FRAME, frame);
    set_word(HORIZON, horizon);
    set_word(SERVERS, server_count);
    set_word(SERVER_OFFSET, server_offset);
    set_word(ARRIVALS, arrival_count);
    set_word(ARRIVAL_OFFSET, arrival_offset);
    for (u32 s = 0; s < server_count; s++)
        set_server(s, budget[s], period[s]);
    for (u32 k = 0; k < arrival_count; k++)
        set_arrival(k, moment[k], server_of[k], cost[k]);
}

// Writes the bytes to FOLDER/NAME. Answers whether all went well.
static inline int save(const char *folder, const char *name)
{
    return set_path(folder, name, "") && save_bytes(bytes, length);
}

// Writes the table and its arrivals to FOLDER/NAME, with no gap.
static inline int save_table(const char *folder, const char *name)
{
    encode(0, 0, 0);
    return save(folder, name);
}

// ---- Tables ----

// One of the numbers that divide a frame.
static inline u32 some_divisor(u32 of)
{
    u32 found[400], count = 0; // no number to 604,800 has that many
    for (u32 d = 1; d * d <= of; d++)
        if (of % d == 0) {
            found[count++] = d;
            found[count++] = of / d;
        }
    return found[below(count)];
}

// Adds servers until there are so many or the shares fill the room. A small share for each leaves room for those to come.
static inline void some_servers(u32 wanted, u32 room)
{
    while (server_count < wanted && room > 0) {
        u32 t = some_divisor(frame);
        if (frame / t > room)
            t = frame;
        u32 most = smaller(t, room / (frame / t));
        u32 fair = larger(1, most / (wanted - server_count));
        u32 q = between(1, once_in(8) ? most : fair);
        add_server(q, t);
        room -= q * (frame / t);
    }
}

// Adds arrivals in order of their moments, about evenly over the horizon, some of them at one moment.
static inline void some_arrivals(u32 wanted, u32 largest_cost)
{
    if (server_count == 0 || horizon == 0)
        return;
    u32 at = 0;
    for (u32 k = 0; k < wanted; k++) {
        if (!once_in(4))
            at = smaller(horizon - 1, at + below(2 * (horizon / wanted) + 2));
        u32 server = below(server_count);
        add_arrival(at, server, between(1, largest_cost));
    }
}
