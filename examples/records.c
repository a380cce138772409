/* The record program, linked: records from standard input, lines to standard output. tools/c-example compiles it and runs it on a sample. */
#include <stdio.h>

#include "ratmanoep.h"

int main(void)
{
    static uint8_t input[RATMANOEP_MAX_INPUT + 1], lines[RATMANOEP_MAX_OUTPUT]; /* one byte more shows that there are too many */
    size_t read = fread(input, 1, sizeof input, stdin);
    size_t length = ratmanoep_answer_records(input, read, lines, sizeof lines);
    return fwrite(lines, 1, length, stdout) == length ? 0 : 1;
}
