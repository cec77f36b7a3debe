/* files.c: reading a file without being held up by it. See gateway.h. */
#define _POSIX_C_SOURCE 200809L
#include <errno.h>
#include <fcntl.h>
#include <string.h>
#include <sys/stat.h>
#include <unistd.h>
#include "gateway.h"

static int read_open(int fd, uint8_t *to, size_t most, size_t *len) {
    struct stat about;
    ssize_t n = 1;
    if (fstat(fd, &about)) return 0;
    if (!S_ISREG(about.st_mode)) return errno = EINVAL, 0;
    for (*len = 0; *len < most && n > 0; *len += n > 0 ? (size_t)n : 0) n = read(fd, to + *len, most - *len);
    return n >= 0;
}

/* A FIFO is opened, and a pipe is read, only when someone writes to it: that may be never, and no signal gets through meanwhile. So nothing is
 * opened by waiting, and only a regular file is read. */
int read_file(const char *file, uint8_t *to, size_t most, size_t *len) {
    int fd = open(file, O_RDONLY | O_NONBLOCK | O_NOCTTY | O_CLOEXEC);
    int done = fd >= 0 && read_open(fd, to, most, len);
    if (!done) log_problem(file, errno == EINVAL ? "not a regular file" : strerror(errno));
    if (fd >= 0) close(fd);
    return done;
}
