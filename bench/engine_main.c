/* engine_main.c - the hand-written engine as a reading program: a file from standard input, the text of document 01 to standard output. */
#include "engine.h"

#include <unistd.h>

static char text[544 * 26 + 128];
static size_t written;

static void put(const char *words)
{
    while (*words != 0) text[written++] = *words++;
}

static void number(uint64_t value)
{
    char digits[20];
    int i = 20;
    do digits[--i] = (char)('0' + value % 10);
    while ((value /= 10) != 0);
    while (i < 20) text[written++] = digits[i++];
}

static void pair(const char *words, uint64_t value)
{
    put(words);
    number(value);
}

static void weights(uint32_t atoms)
{
    static uint64_t weight[544];
    uint32_t a;
    engine_weights(weight);
    for (a = 0; a < atoms; a++) {
        number(a);
        pair(" ", weight[a]);
        put("\n");
    }
}

static void say(engine_answer answer)
{
    if (answer.refusal != 0) {
        pair("refused ", answer.refusal);
        pair(" ", answer.detail);
        put("\n");
    } else if (answer.outcome == 3) {
        pair("full ", answer.updates);
        put("\n");
    } else {
        pair("atoms ", answer.facts + answer.derived);
        pair(" facts ", answer.facts);
        pair(" total ", answer.total);
        pair(" updates ", answer.updates);
        put("\n");
        weights(answer.facts + answer.derived);
    }
}

int main(void)
{
    static uint8_t file[65537];
    size_t length = 0, done = 0;
    ssize_t got;
    while (length < sizeof file && (got = read(0, file + length, sizeof file - length)) > 0) length += (size_t)got;
    say(engine_run(file, length, 4096));
    while (done < written && (got = write(1, text + done, written - done)) > 0) done += (size_t)got;
    return done < written;
}
