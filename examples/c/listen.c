/* A monitor on a descriptor: it reads a capture as it comes, and prints what the monitor says.
 *
 *     listen FORM FILE [TSL TID1 TID2 TSDR LAG TTR GAP HSA RETRIES TTD [BAUD]]
 *
 * FORM is lines, raw or pcap (docs/MONITOR.md); FILE is a path (a file, a pipe, a serial line that is set up) or - for standard
 * input. With the parameters of the bus it judges, else it decodes and counts alone; BAUD gives packets moments. Each read is
 * answered before the next. Status 0; 1 where input was refused or an alarm raised; 2 where it can't go on. */
#include "pbfdl.h"

#include <errno.h>
#include <fcntl.h>
#include <stdio.h>
#include <stdlib.h>
#include <string.h>
#include <unistd.h>

#define PARAMETERS 10

static const char usage[] = "usage: listen lines|raw|pcap FILE [TSL TID1 TID2 TSDR LAG TTR GAP HSA RETRIES TTD [BAUD]]\n";

static struct fdl_monitor monitor = FDL_MONITOR_EMPTY;

static void stop(const char *call, const char *why)
{
    fprintf(stderr, "listen: %s: %s\n", call, why);
    fdl_monitor_free(&monitor);
    exit(2);
}

static void check(uint32_t code, const char *call)
{
    if (code != FDL_OK)
        stop(call, fdl_code_text(code));
}

/* A whole number of 32 bits, or the usage. */
static uint32_t number(const char *word)
{
    char *end;
    errno = 0;
    const unsigned long long value = strtoull(word, &end, 10);
    if (errno || *word < '0' || *word > '9' || *end || value > UINT32_MAX) {
        fputs(usage, stderr);
        exit(2);
    }
    return (uint32_t)value;
}

static uint8_t form_of(const char *word)
{
    static const char *const names[] = {"lines", "raw", "pcap"};
    for (uint8_t form = FDL_LINES; form <= FDL_PCAP; form++)
        if (!strcmp(word, names[form]))
            return form;
    fputs(usage, stderr);
    exit(2);
}

/* Prints all that the monitor has said and nobody has taken. */
static void print(void)
{
    uint8_t out[4096];
    size_t count;
    do {
        check(fdl_monitor_next(&monitor, out, sizeof out, &count), "next");
        fwrite(out, 1, count, stdout);
    } while (count > 0);
    if (fflush(stdout))
        stop("standard output", strerror(errno));
}

static void hear(int capture)
{
    uint8_t octets[4096];
    for (;;) {
        const ssize_t got = read(capture, octets, sizeof octets);
        if (got < 0 && errno == EINTR)
            continue;
        if (got < 0)
            stop("read", strerror(errno));
        if (got == 0)
            break;
        check(fdl_monitor_feed(&monitor, octets, (size_t)got), "feed");
        print();
    }
    check(fdl_monitor_finish(&monitor), "finish");
    print();
}

int main(int argc, char **argv)
{
    uint32_t given[PARAMETERS + 1] = {0};
    const int numbers = argc - 3;
    if (numbers != 0 && numbers != PARAMETERS && numbers != PARAMETERS + 1) {
        fputs(usage, stderr);
        return 2;
    }
    for (int k = 0; k < numbers; k++)
        given[k] = number(argv[3 + k]);
    const struct fdl_params params = {given[0], given[1], given[2], given[3], given[4], given[5], given[6], given[7], given[8], given[9]};
    const struct fdl_monitor_options options = {
        .form = form_of(argv[1]), .judges = numbers > 0, .legality = true, .loss = true, .timing = true, .baud = given[PARAMETERS]};
    const int capture = strcmp(argv[2], "-") ? open(argv[2], O_RDONLY | O_NOCTTY) : STDIN_FILENO;
    if (capture < 0)
        stop(argv[2], strerror(errno));
    bool refused;
    check(fdl_monitor_new(&monitor, &options, &params), "new");
    hear(capture);
    check(fdl_monitor_is_refused(&monitor, &refused), "is_refused");
    fdl_monitor_free(&monitor);
    return refused;
}
