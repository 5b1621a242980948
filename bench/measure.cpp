// Runs the command that the words after the first are, and writes its status, the seconds of the processor and the kilobytes of
// memory at most into the file that the first word names. It is small, so that what it has in use itself, which the system counts
// for the command too, hardly counts.
#include <cstdio>
#include <cstdlib>
#include <sys/resource.h>
#include <sys/wait.h>
#include <unistd.h>

int main(int count, char **words) {
    if (count < 3)
        return 1;
    pid_t child = fork();
    if (child == 0) {
        execv(words[2], words + 2);
        _exit(127);
    }
    int status;
    rusage usage;
    if (child < 0 || wait4(child, &status, 0, &usage) != child)
        return 1;
    FILE *out = fopen(words[1], "w");
    if (!out)
        return 1;
    double seconds = usage.ru_utime.tv_sec + usage.ru_stime.tv_sec + (usage.ru_utime.tv_usec + usage.ru_stime.tv_usec) / 1e6;
    fprintf(out, "%d %.6f %ld\n", WIFEXITED(status) ? WEXITSTATUS(status) : -1, seconds, usage.ru_maxrss);
    return fclose(out) == 0 ? 0 : 1;
}
