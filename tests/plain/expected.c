// Writes what the plain report says of generated work files: FOLDER/0000.expected beside FOLDER/0000, and so on.
//
//     expected FOLDER FIRST STEP
//
// It takes the files FIRST, FIRST + STEP, FIRST + 2 * STEP .. until one is missing, so several can share the work. Starting one
// program for each file would take longer than the reports where an emulator runs it.
//
// What is expected comes from the run tick by tick. The run from event to event has to give the same text: where it does not,
// its text is written to FOLDER/NNNN.events, and nothing further is done.

#define WITHOUT_MAIN
#include "report.c"
#include "events.c"

static char expected_text[sizeof text];
static u64 expected_length;

static u64 number_of(const char *digits)
{
    u64 number = 0;
    while (*digits)
        number = number * 10 + (u64)(*digits++ - '0');
    return number;
}

// Makes `path` FOLDER/NNNN and an ending. Answers whether it fits.
static int set_numbered_path(const char *folder, u64 number, const char *ending)
{
    char name[5];
    digits_of(number, 4, name);
    return set_path(folder, name, ending);
}

// Writes the text to FOLDER/NNNN and an ending.
static int save_text(const char *folder, u64 number, const char *ending)
{
    return set_numbered_path(folder, number, ending) && save_bytes(text, text_length);
}

static void keep_text(void)
{
    expected_length = text_length;
    for (u64 i = 0; i < text_length; i++)
        expected_text[i] = text[i];
}

static int same_text(void)
{
    u64 i = 0;
    while (i < text_length && text[i] == expected_text[i])
        i++;
    return text_length == expected_length && i == text_length;
}

// Both reports on the file that was read. Answers whether they are written, and equal.
static int write_expected(const char *folder, u64 number)
{
    report(tick_by_tick);
    if (!save_text(folder, number, ".expected"))
        return 0;
    keep_text();
    report(event_to_event);
    if (same_text())
        return 1;
    save_text(folder, number, ".events");
    return 0;
}

int main(int count, char **arguments)
{
    if (count != 4 || number_of(arguments[3]) == 0)
        return 2;
    const char *folder = arguments[1];
    u64 step = number_of(arguments[3]);
    for (u64 number = number_of(arguments[2]);; number += step) {
        int in = set_numbered_path(folder, number, "") ? open(path, READ) : -1;
        if (in < 0)
            return 0; // the caller sees by its own count whether one is missing
        int got = read_file(in);
        close(in);
        if (!got || !write_expected(folder, number))
            return 1;
    }
}
