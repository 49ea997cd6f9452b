/* Prints the listing of the cohort file on standard input, as the second implementation has it. */
#include <stdio.h>

#include "second.h"

int main(void)
{
    static uint8_t file[65537], text[65536]; /* a byte over the limit is enough to know */
    size_t length = fread(file, 1, sizeof file, stdin);
    struct second_text answer = second_report(file, length, text, sizeof text);
    if (answer.refusal != 0 || fwrite(text, 1, answer.length, stdout) != answer.length)
        return 1;
    return fflush(stdout) == 0 ? 0 : 1;
}
