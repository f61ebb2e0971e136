/* nonblocking FD PROGRAM [ARGUMENT..]: makes a descriptor non-blocking and becomes the program. */
#include <fcntl.h>
#include <stdlib.h>
#include <unistd.h>

int main(int count, char **words)
{
    if (count < 3) {
        return 125;
    }
    int descriptor = atoi(words[1]);
    int flags = fcntl(descriptor, F_GETFL);

    if (flags < 0 || fcntl(descriptor, F_SETFL, flags | O_NONBLOCK) < 0) {
        return 126;
    }
    execv(words[2], words + 2);
    return 127;
}
