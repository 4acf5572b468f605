/* Runs a program on many seeds, each in a process of its own, and prints how each run ends. */
#undef main
#undef malloc
#undef free
#undef calloc
#undef exit
#undef abort
#include <string.h>
#include <sys/wait.h>
#include <unistd.h>

static const char *memcad_classes[][2] = {
    {"memcad: fault: assertion", "assertion"},
    {"memcad: fault: notempty", "notempty"},
    {"memcad: fault: null", "null"},
    {"memcad: fault: bounds", "bounds"},
    {"memcad: fault: division", "division"},
    {"memcad: fault: overflow", "division"},
    {"memcad: fault: badfree", "badfree"},
    {"null pointer", "null"},
    {"out of bounds", "bounds"},
    {"division by zero", "division"},
    {"cannot be represented in type", "division"},
    {"AddressSanitizer: FPE", "division"},
    {"buffer-overflow", "bounds"},
    {"heap-use-after-free", "freed"},
    {"stack-use-after", "freed"},
    {"double-free", "badfree"},
    {"not malloc()-ed", "badfree"},
    {"AddressSanitizer: SEGV", "null"},
    {"stack-overflow", "overflow of the stack"},
    {"AddressSanitizer", "other fault"},
    {"runtime error", "other fault"},
};

static const char *memcad_class(const char *said, int status)
{
    static char text[64];
    for (size_t i = 0; i < sizeof memcad_classes / sizeof *memcad_classes; i++)
        if (strstr(said, memcad_classes[i][0]))
            return memcad_classes[i][1];
    if (WIFSIGNALED(status))
        snprintf(text, sizeof text, "signal %d", WTERMSIG(status));
    else
        snprintf(text, sizeof text, "end %d", WEXITSTATUS(status));
    return text;
}



int main(int argc, char **argv)
{
    int runs = argc > 1 ? atoi(argv[1]) : 1;
    static char said[4096];
    for (int seed = 1; seed <= runs; seed++) {
        FILE *file = tmpfile();
        fflush(stdout);
        pid_t child = fork();
        if (child == 0) {
            dup2(fileno(file), 2);
            if (!freopen("/dev/null", "w", stdout))
                _exit(90);
            alarm(3);
            memcad_state = (unsigned long)seed * 2654435761ul + 97;
            memcad_started = 1;
            int status = ((int (*)(int, char **))memcad_program)(0, NULL);
            fflush(stdout);
            _Exit(status & 255);
        }
        int status = 0;
        waitpid(child, &status, 0);
        rewind(file);
        size_t count = fread(said, 1, sizeof said - 1, file);
        said[count] = 0;
        fclose(file);
        printf("%s\n", memcad_class(said, status));
    }
    return 0;
}
