/* Runs a program with its words, writes nothing of what it writes, and prints its exit code, its processor time in
   seconds and its peak memory in KiB. It is small itself, so a small peak is seen, too. */
#include <fcntl.h>
#include <stdio.h>
#include <sys/resource.h>
#include <sys/wait.h>
#include <unistd.h>

int main(int argc, char **argv) {
    struct rusage used;
    int status;
    pid_t child = argc > 1 ? fork() : -1;
    if (child < 0) return 1;
    if (child == 0) {
        int away = open("/dev/null", O_WRONLY);
        if (away < 0 || dup2(away, STDOUT_FILENO) < 0) _exit(127);
        execv(argv[1], argv + 1);
        _exit(127);
    }
    if (wait4(child, &status, 0, &used) != child || !WIFEXITED(status)) return 1;
    double micros = used.ru_utime.tv_usec + used.ru_stime.tv_usec;
    double seconds = used.ru_utime.tv_sec + used.ru_stime.tv_sec + micros / 1e6;
    printf("%d %f %ld\n", WEXITSTATUS(status), seconds, used.ru_maxrss);
    return 0;
}
