/* taken FILE COMMAND ..: runs the command, appends to FILE the microseconds of the processor that it took and its most
   memory in KB, and ends with its status. */
#include <stdio.h>
#include <stdlib.h>
#include <sys/resource.h>
#include <sys/wait.h>
#include <unistd.h>

static long micros(struct timeval t) {
    return t.tv_sec * 1000000L + t.tv_usec;
}

int main(int words, char **word) {
    if (words < 3) return 2;
    const pid_t child = fork();
    if (child == 0) {
        execvp(word[2], word + 2);
        perror(word[2]);
        _exit(3);
    }
    int status;
    struct rusage used;
    if (child < 0 || wait4(child, &status, 0, &used) < 0) {
        perror("taken");
        return 3;
    }
    FILE *file = fopen(word[1], "a");
    if (file == NULL || fprintf(file, "%ld %ld\n", micros(used.ru_utime) + micros(used.ru_stime), used.ru_maxrss) < 0 ||
        fclose(file) != 0) {
        perror(word[1]);
        return 3;
    }
    return WIFEXITED(status) ? WEXITSTATUS(status) : 3;
}
