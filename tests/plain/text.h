// The text that a program writes: words and numbers, one behind the other.

#pragma once

#include "plain.h"

// 2,048 segments, 4,096 jobs and 64 servers at their longest stay below half of this.
static char text[524288];
static u64 text_length;

static void say(const char *words)
{
    while (*words)
        text[text_length++] = *words++;
}

static void say_number(u64 number)
{
    char digits[20];
    u32 count = 0;
    do
        digits[count++] = '0' + number % 10;
    while (number /= 10);
    while (count > 0)
        text[text_length++] = digits[--count];
}

// A name or words with a space behind them, and a number.
static inline void say_with(const char *words, u64 number)
{
    say(words);
    say_number(number);
}
