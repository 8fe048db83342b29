/* Puts a file of cases, such as replay's stored ones, through the static library, in threads whose
 * whole stack is what jobs.h asks for, and prints the lines expected of them. The form check by itself
 * (`w`) is no function of the library: such a case is passed over. From the root of the repository:
 *
 *     cc -std=c11 -pthread -Iinclude -o target/stored \
 *         reference/callers/examples/stored.c crates/exports/out/libexports.a
 *     target/stored crates/replay/data/cases | diff - <(grep -v ^w crates/replay/stdout)
 */
#include <pthread.h>
#include <stdio.h>
#include <stdlib.h>
#include <string.h>

#include "jobs.h"

enum { LONGEST = 65536, FURTHER = 65536, AROUND = 16 };

/* What lists and buffers hold before a call. */
static const uint8_t FILLING = 165;
static const uint32_t FILLING_NUMBER = 0xA5A5A5A5;

struct field {
    uint8_t bytes[LONGEST];
    size_t len;
};

static FILE *cases;
static struct field fields[3];
static uint32_t starts[LONGEST / 4 + FURTHER];
static uint8_t buffer[LONGEST + AROUND];
static uint32_t list[8 + AROUND];

static void fail(const char *why)
{
    fprintf(stderr, "%s\n", why);
    exit(1);
}

/* Reading a case */

static uint32_t u32_at(const uint8_t *at)
{
    return at[0] | (uint32_t)at[1] << 8 | (uint32_t)at[2] << 16 | (uint32_t)at[3] << 24;
}

static void read_fields(int count)
{
    for (int k = 0; k < count; k++) {
        uint8_t length[4];
        if (fread(length, 1, 4, cases) != 4 || u32_at(length) > LONGEST)
            fail("bad cases");
        fields[k].len = u32_at(length);
        if (fread(fields[k].bytes, 1, fields[k].len, cases) != fields[k].len)
            fail("bad cases");
    }
}

static uint32_t number_in(int field, uint32_t most)
{
    if (fields[field].len != 4 || u32_at(fields[field].bytes) > most)
        fail("bad cases");
    return u32_at(fields[field].bytes);
}

/* Printing a line */

static void begin(char letter, uint64_t returned)
{
    printf("%c %u %u", letter, jobs_number(returned), jobs_place(returned));
}

/* The answer of a function that has none is 0. */
static void begin_without_answer(char letter, uint64_t returned)
{
    if (jobs_answer(returned) != 0)
        fail("an answer where there is none");
    begin(letter, returned);
}

static void fill_list(void)
{
    for (size_t k = 0; k < sizeof list / sizeof *list; k++)
        list[k] = FILLING_NUMBER;
}

/* After a refusal the list is as it was, which is printed as zeros; what lies behind it always is. */
static void print_list(uint64_t returned, uint32_t count, int with_gap)
{
    for (size_t k = count; k < sizeof list / sizeof *list; k++)
        if (list[k] != FILLING_NUMBER)
            fail("an entry past the list has changed");
    for (uint32_t k = 0; k < count; k++) {
        uint32_t entry = jobs_number(returned) == 0 ? list[k] : list[k] - FILLING_NUMBER;
        if (with_gap && k == 2)
            printf(" %d", (int)(int32_t)entry);
        else
            printf(" %u", entry);
    }
    printf("\n");
}

/* The buffer up to its last byte unlike the filling, a zero as a point, and how many follow. */
static void print_buffer(size_t len)
{
    for (size_t k = len; k < sizeof buffer; k++)
        if (buffer[k] != FILLING)
            fail("a byte past the buffer has changed");
    size_t end = len;
    while (end > 0 && buffer[end - 1] == FILLING)
        end--;
    printf(end == 0 ? " -" : " ");
    for (size_t k = 0; k < end; k++) {
        if (buffer[k] == 0)
            printf(".");
        else
            printf("%02x", buffer[k]);
    }
    printf(" %zu\n", len - end);
}

/* The commands */

static void check(void)
{
    read_fields(1);
    begin_without_answer('c', jobs_check(fields[0].bytes, fields[0].len));
    printf("\n");
}

static void check_schedule(void)
{
    read_fields(3);
    size_t count = fields[1].len / 4, further = number_in(2, FURTHER);
    if (fields[1].len % 4 != 0)
        fail("bad cases");
    memset(starts, 0, sizeof starts);
    for (size_t k = 0; k < count; k++)
        starts[k] = u32_at(fields[1].bytes + 4 * k);
    uint64_t returned = jobs_check_schedule(fields[0].bytes, fields[0].len, starts, count + further);
    begin_without_answer('t', returned);
    printf("\n");
}

static void pairs(void)
{
    read_fields(1);
    uint64_t returned = jobs_pairs(fields[0].bytes, fields[0].len);
    begin('p', returned);
    printf(" %u\n", jobs_answer(returned));
}

static void partialize(void)
{
    read_fields(2);
    size_t len = number_in(1, LONGEST);
    memset(buffer, FILLING, sizeof buffer);
    uint64_t returned = jobs_partialize(fields[0].bytes, fields[0].len, buffer, len);
    begin('l', returned);
    printf(" %u", jobs_answer(returned));
    print_buffer(len);
}

static void header(void)
{
    read_fields(1);
    fill_list();
    uint64_t returned = jobs_order_header(fields[0].bytes, fields[0].len, list, 8);
    begin_without_answer('h', returned);
    print_list(returned, 8, 0);
}

static void record(void)
{
    read_fields(3);
    uint32_t table = number_in(1, UINT32_MAX), number = number_in(2, UINT32_MAX);
    uint32_t count = table == JOBS_LINKS ? 1 : 3;
    fill_list();
    uint64_t returned =
        jobs_order_record(fields[0].bytes, fields[0].len, table, number, list, count);
    begin_without_answer('r', returned);
    print_list(returned, count, table == JOBS_ORDERS);
}

static void alike(void)
{
    read_fields(2);
    uint64_t returned =
        jobs_alike(fields[0].bytes, fields[0].len, fields[1].bytes, fields[1].len);
    begin('a', returned);
    printf(" %u\n", jobs_answer(returned));
}

/* In a thread of its own: it needs more stack than the others. */
static void *from_pddl(void *unused)
{
    size_t len = number_in(2, LONGEST);
    memset(buffer, FILLING, sizeof buffer);
    uint64_t returned = jobs_from_pddl(fields[0].bytes, fields[0].len, fields[1].bytes,
                                       fields[1].len, buffer, len);
    begin('f', returned);
    printf(" %u", jobs_answer(returned));
    print_buffer(len);
    return unused;
}

/* Runs a function to its end in a thread with this much stack. */
static void in_a_thread(void *(*function)(void *), size_t stack)
{
    pthread_attr_t attributes;
    pthread_t thread;
    if (pthread_attr_init(&attributes) != 0
        || pthread_attr_setstacksize(&attributes, stack) != 0
        || pthread_create(&thread, &attributes, function, NULL) != 0
        || pthread_join(thread, NULL) != 0)
        fail("no thread with so little stack");
    pthread_attr_destroy(&attributes);
}

static void *run(void *unused)
{
    for (int command; (command = getc(cases)) != EOF;) {
        switch (command) {
        case 'w': read_fields(1); break;
        case 'c': check(); break;
        case 't': check_schedule(); break;
        case 'p': pairs(); break;
        case 'l': partialize(); break;
        case 'h': header(); break;
        case 'r': record(); break;
        case 'a': alike(); break;
        case 'f': read_fields(3); in_a_thread(from_pddl, JOBS_TEXTS_STACK); break;
        default: fail("bad cases");
        }
    }
    return unused;
}

int main(int count, char **arguments)
{
    cases = count == 2 ? fopen(arguments[1], "rb") : NULL;
    if (cases == NULL)
        fail("which cases?");
    in_a_thread(run, JOBS_STACK);
    return 0;
}
