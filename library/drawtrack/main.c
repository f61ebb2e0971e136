/* The program drawtrack with an exit status, and with a file name where one is given.
 *
 * This file is outside the proof: it opens the file, calls the run on its descriptor and returns
 * what that answers: 0 after results, 1 after a refusal, 2 where input or output failed. */
#include <errno.h>
#include <fcntl.h>
#include <stdint.h>
#include <stdio.h>
#include <string.h>
#include <unistd.h>

/* run.c: reads the descriptor to its end, writes to standard output and error. */
uint32_t drawtrack_run(int32_t input);

int main(int count, char **words)
{
    int input = STDIN_FILENO;

    if (count > 2) {
        fputs("drawtrack: more than one file name\n", stderr);
        return 2;
    }
    if (count == 2 && strcmp(words[1], "-") != 0) {
        input = open(words[1], O_RDONLY);
        if (input < 0) {
            fprintf(stderr, "drawtrack: %s: %s\n", words[1], strerror(errno));
            return 2;
        }
    }
    return (int)drawtrack_run(input);
}
