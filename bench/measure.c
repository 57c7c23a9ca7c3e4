/* measure FIGURES PROGRAM [ARGUMENT..]: runs a program with the same streams, and writes its seconds of
   processor time and its peak memory in KiB to the file FIGURES. The status is that of the program. */

#include <stdio.h>
#include <sys/resource.h>
#include <sys/wait.h>
#include <unistd.h>

static double seconds(struct timeval it) { return it.tv_sec + it.tv_usec / 1e6; }

int main(int count, char **words) {
    if (count < 3)
        return 2;
    pid_t child = fork();
    if (child == 0) {
        execv(words[2], words + 2);
        _exit(127);
    }
    int status;
    struct rusage used;
    if (child < 0 || wait4(child, &status, 0, &used) < 0)
        return 2;
    FILE *figures = fopen(words[1], "w");
    if (!figures)
        return 2;
    fprintf(figures, "%.6f %ld\n", seconds(used.ru_utime) + seconds(used.ru_stime), used.ru_maxrss);
    fclose(figures);
    return WIFEXITED(status) ? WEXITSTATUS(status) : 1;
}
