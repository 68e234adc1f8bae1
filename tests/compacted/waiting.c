/* Preloaded into a program: its first flock makes the file that OPENED names, and waits then until there is the file
   that GO names. So a test knows that the file which is to be locked is open, and decides what happens before that. */
#define _GNU_SOURCE
#include <dlfcn.h>
#include <fcntl.h>
#include <stdlib.h>
#include <sys/file.h>
#include <unistd.h>

int flock(int file, int operation)
{
    static int is_later;
    int (*next)(int, int) = (int (*)(int, int))dlsym(RTLD_NEXT, "flock");
    if (!is_later) {
        is_later = 1;
        close(open(getenv("OPENED"), O_CREAT | O_WRONLY, 0600));
        while (access(getenv("GO"), F_OK) != 0)
            usleep(1000);
    }
    return next(file, operation);
}
