/* The program `jobs`: what the proved library answers is the exit status. */
#include <signal.h>

int jobs_command(void);

int main(void) {
    /* a write that nobody reads, or past the limit of a file's size, is an error and not the end */
    signal(SIGPIPE, SIG_IGN);
    signal(SIGXFSZ, SIG_IGN);
    return jobs_command();
}
