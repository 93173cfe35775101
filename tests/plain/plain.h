// What all plain C programs share: the sizes of document 01, what is used of the C library, and reading and writing whole. The toolchain's
// compiler brings no header files, so what is used of the library is declared here.
//
// Functions of these headers are `inline` where some program does without them: the compiler would complain of them there.

#pragma once

typedef unsigned char u8;
typedef unsigned int u32;
typedef unsigned long long u64;

long read(int file, void *bytes, unsigned long count);
long write(int file, const void *bytes, unsigned long count);
int open(const char *path, int flags, ...);
int close(int file);

enum { READ = 0, WRITE_NEW = 01 | 0100 | 01000 }; // O_RDONLY; O_WRONLY, O_CREAT and O_TRUNC on x86-64 Linux

// Sizes of the work file, and how many segments the report shows.
enum {
    HEADER = 24,
    SERVER_RECORD = 8,
    ARRIVAL_RECORD = 12,
    LONGEST_FILE = 65536,
    LARGEST_FRAME = 604800,
    LONGEST_HORIZON = 2419200,
    MOST_SERVERS = 64,
    MOST_ARRIVALS = 4096,
    LARGEST_COST = 604800,
    MOST_SHOWN = 2048
};

// Four bytes, low byte first.
static inline u32 word_from(const u8 *place)
{
    return place[0] | (u32)place[1] << 8 | (u32)place[2] << 16 | (u32)place[3] << 24;
}

// The last digits of a number, with a 0 behind them.
static inline void digits_of(u64 value, u32 digits, char *text)
{
    text[digits] = 0;
    while (digits > 0) {
        text[--digits] = (char)('0' + value % 10);
        value /= 10;
    }
}

// ---- Reading and writing. Each call of the library may do less than it was asked for. ----

// Reads to the end, or until the room is full. Answers how many bytes there are, or -1 where a read fails.
static inline long read_whole(int from, u8 *bytes, u64 room)
{
    u64 done = 0;
    while (done < room) {
        long got = read(from, bytes + done, room - done);
        if (got < 0)
            return -1;
        if (got == 0)
            break;
        done += (u64)got;
    }
    return (long)done;
}

// Answers whether all went well, as those below do.
static inline int write_whole(int to, const void *bytes, u64 count)
{
    u64 done = 0;
    while (done < count) {
        long put = write(to, (const u8 *)bytes + done, count - done);
        if (put <= 0)
            return 0;
        done += (u64)put;
    }
    return 1;
}

static char path[4096];

static inline int add_to_path(u32 *at, const char *words)
{
    while (*words && *at < sizeof path - 1)
        path[(*at)++] = *words++;
    path[*at] = 0;
    return !*words;
}

// Makes `path` FOLDER/NAME and an ending.
static inline int set_path(const char *folder, const char *name, const char *ending)
{
    u32 at = 0;
    return add_to_path(&at, folder) && add_to_path(&at, "/") && add_to_path(&at, name) && add_to_path(&at, ending);
}

// Writes bytes to the file `path`.
static inline int save_bytes(const void *bytes, u64 count)
{
    int to = open(path, WRITE_NEW, 0644);
    if (to < 0)
        return 0;
    int written = write_whole(to, bytes, count);
    return close(to) == 0 && written;
}
