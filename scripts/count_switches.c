/* Runs the program that the second word names, with the words behind it, and writes into the file that the first one names how often
   its threads slept until they were woken. It ends with the program's status. Made by thread_rows. */
#define _GNU_SOURCE
#include <stdio.h>
#include <stdlib.h>
#include <sys/resource.h>
#include <sys/wait.h>
#include <unistd.h>

int main(int count, char **words) {
    struct rusage used;
    int status;
    FILE *file;
    pid_t child;
    if (count < 3) return 64;
    child = fork();
    if (child == 0) {
        execv(words[2], words + 2);
        _exit(127);
    }
    if (child < 0 || wait4(child, &status, 0, &used) != child || !(file = fopen(words[1], "w"))) return 70;
    fprintf(file, "%ld\n", used.ru_nvcsw);
    fclose(file);
    return WIFEXITED(status) ? WEXITSTATUS(status) : 128 + WTERMSIG(status);
}
