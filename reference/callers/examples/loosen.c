/* Prints the sheet of a job file, as the program `show` does. From the root of the repository:
 *
 *     cc -std=c11 -Iinclude -o target/loosen \
 *         reference/callers/examples/loosen.c crates/exports/out/libexports.a
 *     target/loosen samples/deck-resigned.job
 */
#include <stdio.h>

#include "jobs.h"

/* An accepted job's second number, its serial mark, is 0 or 1. */
static void print_mark(const uint8_t *job)
{
    if (job[2] == 1)
        printf("serial mark ignored\n");
}

static void print_windows(const uint8_t *file, size_t len, uint32_t steps)
{
    for (uint32_t step = 0; step < steps; step++) {
        uint32_t window[3];
        jobs_order_record(file, len, JOBS_WINDOWS, step, window, 3);
        printf("step %u earliest %u latest ", step, window[2]);
        if (window[1] == JOBS_NO_LATEST)
            printf("none\n");
        else
            printf("%u\n", window[1]);
    }
}

static void print_orders(const uint8_t *file, size_t len, uint32_t orders)
{
    for (uint32_t number = 0; number < orders; number++) {
        uint32_t order[3];
        jobs_order_record(file, len, JOBS_ORDERS, number, order, 3);
        printf("order %u %u %d\n", order[0], order[1], (int)(int32_t)order[2]);
    }
}

static void print_file(const uint8_t *file, size_t len)
{
    uint32_t header[8];
    jobs_order_header(file, len, header, 8);
    printf("steps %u rounds %u\n", header[1], header[4]);
    print_windows(file, len, header[1]);
    print_orders(file, len, header[2]);
}

int main(int count, char **arguments)
{
    /* The longest job has 18,812 bytes; the front of a longer file is refused like the whole. */
    static uint8_t job[65536], out[JOBS_LONGEST_ORDER_FILE];
    FILE *input = count == 2 ? fopen(arguments[1], "rb") : NULL;
    if (input == NULL) {
        fprintf(stderr, "which job file?\n");
        return 1;
    }
    size_t len = fread(job, 1, sizeof job, input);
    fclose(input);
    uint64_t returned = jobs_partialize(job, len, out, sizeof out);
    if (jobs_number(returned) == 0) {
        print_mark(job);
        print_file(out, jobs_answer(returned));
    } else {
        printf("refused %u place %u\n", jobs_number(returned), jobs_place(returned));
    }
    return 0;
}
